//! Coarse totals (paper 02, ticket 8), against a model that adds up the powers of bins.
use crate::model::{bands, Answer, BINS};
use crate::numbered;
use crate::random::{seeds, Buffer, Random};

const FINE: usize = 112;
const MOST: u64 = 1 << 49;

/// The totals of the bands of a setting over some spectra, each a row of powers.
fn totals(setting: usize, spectra: &[Vec<u64>]) -> Vec<u64> {
    bands()[setting].bins.iter().map(|bins| spectra.iter().flat_map(|row| bins.iter().map(move |&k| row[k])).sum()).collect()
}

/// The totals of the bands of a setting from fine totals: each fine total counts in the band that has the first bin of its own.
fn convert(setting: u8, fine: &[u64], room: usize) -> Answer<Vec<u64>> {
    if setting > 1 {
        return Err(12);
    }
    let target = &bands()[setting as usize];
    if fine.len() != FINE || room < target.count {
        return Err(2);
    }
    if fine.iter().any(|&total| total > MOST) {
        return Err(24);
    }
    let mut coarse = vec![0; target.count];
    for (i, total) in fine.iter().enumerate() {
        coarse[target.of_bin[bands()[2].bins[i][0]]] += total;
    }
    Ok(coarse)
}

/// What a call answers and leaves in an output of the length.
pub fn expected(setting: u8, fine: &[u64], out: &Buffer<u64>, room: usize) -> (Answer<usize>, Buffer<u64>) {
    match convert(setting, fine, room) {
        Err(refusal) => (Err(refusal), out.clone()),
        Ok(coarse) => (Ok(coarse.len()), out.with(0, &coarse)),
    }
}

/// Settings, lists and lengths of the output: every setting, with totals and lengths at their limits and past them, several faults at once
/// too; and random lists, of which some have a total that is too large.
pub fn cases() -> Vec<(u8, Vec<u64>, usize)> {
    let mut cases = vec![];
    for setting in 0..=0xFF {
        for length in [0, 1, 36, 64, 111, 112, 113, 784] {
            for most in [MOST, MOST + 1] {
                cases.extend([0, 1, 35, 36, 37, 63, 64, 65, 112, 200].map(|room| (setting, vec![most; length], room)));
            }
        }
    }
    // lengths that 8 and 16 bits would cut to those wanted, and rooms to too small ones
    for setting in 0..3 {
        cases.extend([224, 368, 65_648].map(|length| (setting, vec![1; length], 64)));
        cases.extend([256, 300, 65_536].map(|room| (setting, vec![1; FINE], room)));
    }
    for seed in seeds(20_000) {
        let mut r = Random::new(seed);
        let length = if r.percent(95) { FINE } else { r.pick(&[0, 111, 113]) };
        let mut fine: Vec<u64> = (0..length).map(|_| r.any_size() % (MOST + 1)).collect();
        if length > 0 && r.percent(20) {
            let place = r.below(length);
            fine[place] = r.pick(&[MOST, MOST + 1, u64::MAX]);
        }
        let room = r.pick(&[35, 36, 63, 64, 65, 112]);
        let setting = if r.percent(95) { r.below(2) as u8 } else { r.next() as u8 };
        cases.push((setting, fine, room));
    }
    cases
}

#[test]
fn lists_of_totals() {
    let mut r = Random::new(0);
    for (setting, fine, room) in cases() {
        let mut list = Buffer::new(&fine, || r.next());
        let mut out = Buffer::of_length(room, || r.next());
        let (answer, after) = expected(setting, &fine, &out, room);
        let before = list.clone();
        assert_eq!(numbered(dfb::coarse_totals(setting, list.list(), out.list())), answer);
        assert!(list == before && out == after, "setting {setting}, {} totals, room {room}", fine.len());
    }
}

/// The ticket's claim: fine totals of spectra convert to the totals of the same spectra, at both settings.
#[test]
fn totals_of_spectra() {
    for seed in seeds(500) {
        let mut r = Random::new(seed);
        let count = r.pick(&[0, 1, 2, 5]);
        let spectra: Vec<Vec<u64>> = (0..count).map(|_| (0..BINS).map(|_| r.any_size() >> 32).collect()).collect();
        let fine = totals(2, &spectra);
        for setting in 0..2 {
            let mut out = vec![r.next(); FINE];
            let written = dfb::coarse_totals(setting, &fine, &mut out).unwrap();
            assert_eq!(out[..written], totals(setting as usize, &spectra));
        }
    }
}

/// A row of a board at 112 bands converts to that of a board at 36 or 64 bands that was sent the same ticks.
#[test]
fn totals_of_boards() {
    for seed in seeds(60) {
        let mut r = Random::new(seed);
        let ticks = r.pick(&[1, 2, 7]);
        let powers: Vec<Vec<u32>> = (0..ticks).map(|_| (0..dfb::POWERS).map(|_| r.any_size() as u32).collect()).collect();
        let enabled: Vec<u16> = (0..7).map(|_| r.below(2) as u16).collect();
        // N = C = 8, so that all ticks are collected
        let rows = |setting: u16| {
            let mut board = dfb::Board::reset();
            for (n, on) in enabled.iter().enumerate() {
                let information = if n == 0 { 0x3300 | setting << 6 } else { 0 } | on << 5;
                board.command(0x30 + n as u8, information).unwrap();
            }
            for row in &powers {
                board.tick(row, &mut [0; dfb::OUTPUT]).unwrap();
            }
            *board.totals()
        };
        let fine = rows(2);
        for setting in 0..2 {
            let coarse = rows(setting);
            for n in 0..7 {
                let mut row = [0; FINE];
                dfb::coarse_totals(setting as u8, &fine[FINE * n..FINE * (n + 1)], &mut row).unwrap();
                assert_eq!(row, coarse[FINE * n..FINE * (n + 1)]);
            }
        }
    }
}
