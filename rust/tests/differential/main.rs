//! Differential tests: the proved library against a model written from the papers. Every call compares the answer, the state and every
//! element of every buffer, margins too. DFB_TIMES=10 makes ten times as many random cases.
mod board;
mod bursts;
mod check;
mod coarse;
mod codes;
mod counts;
mod logs;
mod model;
mod numbers;
mod plain;
mod random;
mod readings;
mod refusals;
mod sets;
mod snapshots;
mod space_packets;
mod sums;
mod walks;

#[allow(dead_code)]
#[path = "../../../bench/implementations.rs"]
mod implementations;
#[allow(dead_code)]
#[path = "../../../bench/plain.rs"]
mod plain_rust;

/// An answer of the library with its refusal as a number.
fn numbered<T>(answer: Result<T, dfb::Refusal>) -> model::Answer<T> {
    answer.map_err(dfb::Refusal::number)
}
