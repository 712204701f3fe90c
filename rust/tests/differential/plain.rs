//! The plain C of the benchmark and its plain Rust tick, coarse totals, append, check of command lists, counted logs, the items of a log, snapshot
//! packets, summed spectra and space packets against the model, so that it compares programs that do the same.
use crate::implementations::{plain_c, plain_rust};
use crate::model::{self, Board, POWERS, STATE, TOTALS};
use crate::random::{seeds, Buffer, Random};
use crate::{board, check, coarse, counts, logs, snapshots, space_packets, sums, walks};
use std::collections::BTreeMap;

/// A tick's answer as a number of include/dfb.h.
fn tick_number(answer: &model::Answer<model::Tick>) -> u32 {
    match answer {
        Ok(model::Tick::Idle) => 0,
        Ok(model::Tick::Collected) => 1,
        Ok(model::Tick::Waiting) => 2,
        Ok(model::Tick::Reported(report)) => 0x80000000 + report.bytes.len() as u32 / 3 * 65536 + report.number as u32,
        Err(refusal) => 0x10000 + *refusal as u32,
    }
}

#[test]
fn ticks() {
    for implementation in plain_c().into_iter().chain([plain_rust()]) {
        for seed in seeds(500) {
            let mut r = Random::new(seed);
            let (mut state, mut totals) = board::random_memory(&mut r);
            if r.percent(50) {
                board::damage(&mut r, &mut state, &mut totals);
            }
            let mut board = Board::begin(&state, &totals);
            let mut memory = (Buffer::new(&state, || r.next() as u16), Buffer::new(&totals, || r.next()));
            for _ in 0..8 {
                let powers = board::random_powers(&mut r);
                let mut out = board::random_out(&mut r);
                let (mut expected, mut expected_out) = (memory.clone(), out.clone());
                let answer = match &mut board {
                    Ok(board) => board.tick(STATE, TOTALS, &powers, 1176),
                    Err(refusal) => Err(*refusal),
                };
                if let Ok(board) = &board {
                    expected = (memory.0.with(0, &board.state()), memory.1.with(0, &board.totals()));
                }
                if let Ok(model::Tick::Reported(report)) = &answer {
                    expected_out = out.with(0, &report.bytes);
                }
                let number = (implementation.tick)(memory.0.list(), memory.1.list(), &powers, out.list());
                assert_eq!(number, tick_number(&answer));
                assert_eq!((&memory, &out), (&expected, &expected_out));
            }
        }
        let (mut state, mut totals, powers, mut out) = ([0; STATE], [0; TOTALS], [0; POWERS], [0; 1176]);
        assert_eq!((implementation.tick)(&mut state, &mut totals, &powers[1..], &mut out), 0x10002);
        assert_eq!((implementation.tick)(&mut state, &mut totals, &powers, &mut out[1..]), 0x10002);
        assert_eq!((implementation.tick)(&mut state, &mut totals[1..], &powers, &mut out), 0x10002);
        assert_eq!((implementation.tick)(&mut state[1..], &mut totals, &powers, &mut out), 0x10002);
    }
}

#[test]
fn coarse_totals() {
    let mut r = Random::new(1);
    for implementation in plain_c().into_iter().chain([plain_rust()]) {
        for (setting, fine, room) in coarse::cases() {
            let mut out = Buffer::of_length(room, || r.next());
            let (expected, after) = coarse::expected(setting, &fine, &out, room);
            let number = expected.map_or_else(|refusal| 0x10000 + refusal as u32, |count| count as u32);
            assert_eq!((implementation.coarse_totals)(setting, &fine, out.list()), number);
            assert_eq!(out, after);
        }
    }
}

#[test]
fn checks() {
    for implementation in plain_c().into_iter().chain([plain_rust()]) {
        for seed in seeds(3000) {
            let mut r = Random::new(seed);
            let mut list = check::whole_list(&mut r, 12);
            for _ in 0..3 {
                check::compare_call(&mut r, &implementation, &list);
                check::damage(&mut r, &mut list);
            }
        }
    }
}

#[test]
fn appends() {
    for implementation in plain_c().into_iter().chain([plain_rust()]) {
        for seed in seeds(20_000) {
            let mut r = Random::new(seed);
            let (kind, a) = (r.pick(&[0, 1, 2, 3, 4, 5, 0xFF]), r.pick(&[0x2F, 0x30, 0x36, 0x37, 0x42, 0x43, 0x48, 0x49, 0x4E]));
            let (used, b) = (r.pick(&[0, 3, 4, 5, 7, 8, 9, usize::MAX]), r.pick(&[0, 1, 0xABCD, 0xFFFF, 0x10000, u32::MAX]));
            let mut log = Buffer::of_length(8, || r.next() as u8);
            let mut expected = log.clone();
            let answer = model::append(expected.list(), used, kind, a, b);
            let number = answer.map_or_else(|refusal| (1 << 63) + refusal as u64, |used| used as u64);
            assert_eq!((implementation.append)(log.list(), used, kind, a, b), number);
            assert_eq!(log, expected);
        }
    }
}

#[test]
fn counted_calls() {
    for implementation in plain_c().into_iter().chain([plain_rust()]) {
        for seed in seeds(5000) {
            counts::compare_any_state(&mut Random::new(seed), &implementation, &mut BTreeMap::new());
        }
    }
}

#[test]
fn counts_of_logs() {
    for implementation in plain_c().into_iter().chain([plain_rust()]) {
        for seed in seeds(2000) {
            let mut r = Random::new(seed);
            let most = r.pick(&[0, 1, 10, 50, 200, 1000]);
            let mut log = logs::random_log(&mut r, most);
            for _ in 0..4 {
                let _ = counts::compare_count(&mut r, &implementation, &log);
                logs::damage(&mut r, &mut log);
            }
        }
    }
}

#[test]
fn items_of_logs() {
    for implementation in plain_c().into_iter().chain([plain_rust()]) {
        for seed in seeds(20_000) {
            walks::compare_any(&mut Random::new(seed), &implementation, &mut BTreeMap::new());
        }
        for seed in seeds(500) {
            let mut r = Random::new(seed);
            let mut log = logs::random_log(&mut r, 200);
            for _ in 0..3 {
                walks::compare_walk(&mut r, &implementation, &log);
                logs::damage(&mut r, &mut log);
            }
        }
    }
}

#[test]
fn snapshot_packets() {
    let mut r = Random::new(2);
    for implementation in plain_c().into_iter().chain([plain_rust()]) {
        snapshots::faulty_readings(|reading, refusal| {
            assert_eq!(snapshots::compare_read(&mut r, &implementation, reading).err(), refusal);
        });
        snapshots::faulty_writings(|writing, refusal| {
            assert_eq!(snapshots::compare_write(&mut r, &implementation, writing).err(), refusal);
        });
        for seed in seeds(10_000) {
            snapshots::compare_any(&mut Random::new(seed), &implementation, &mut Default::default());
        }
    }
}

#[test]
fn summed_spectra() {
    let mut r = Random::new(3);
    for implementation in plain_c().into_iter().chain([plain_rust()]) {
        sums::faulty_calls(|call, refusal| assert_eq!(sums::compare_call(&mut r, &implementation, call).err(), refusal));
        for seed in seeds(3000) {
            sums::compare_any(&mut Random::new(seed), &implementation, &mut BTreeMap::new());
        }
        for seed in seeds(50) {
            sums::compare_history(&mut Random::new(seed), &implementation, 3);
        }
    }
}

#[test]
fn packets_of_sets() {
    let mut r = Random::new(4);
    for implementation in plain_c().into_iter().chain([plain_rust()]) {
        space_packets::faulty_exports(|call, refusal| {
            assert_eq!(space_packets::compare_export(&mut r, &implementation, call).err(), refusal);
        });
        space_packets::faulty_imports(|call, refusal| {
            assert_eq!(space_packets::compare_import(&mut r, &implementation, call).err(), refusal);
        });
        for seed in seeds(5000) {
            space_packets::compare_any(&mut Random::new(seed), &implementation, &mut Default::default());
        }
    }
}

#[test]
fn packs() {
    let mut r = Random::new(0);
    for implementation in plain_c() {
        for apid in 0..=0xFF {
            for length in 0..=8 {
                let samples = &[-32768, -256, -1, 0, 1, 255, 256, 32767][..length];
                for out_len in [0, 8, 9, 17, 18, 20, 21, 30] {
                    let mut out = Buffer::of_length(out_len, || r.next() as u8);
                    let mut expected = out.clone();
                    let number = (plain_rust().pack)(apid, samples, expected.list());
                    assert_eq!((implementation.pack)(apid, samples, out.list()), number);
                    assert_eq!(out, expected);
                }
            }
        }
    }
}

#[test]
fn listings() {
    for implementation in plain_c() {
        for seed in seeds(1000) {
            let mut r = Random::new(seed);
            let most = r.pick(&[0, 10, 200, 1000, 66000]);
            let mut log = logs::random_log(&mut r, most);
            for _ in 0..3 {
                let room = model::listing_room(log.len());
                for room in [room, room - 1] {
                    let mut out = Buffer::of_length(room, || r.next() as u8);
                    let mut expected = out.clone();
                    let number = (plain_rust().listing)(&log, expected.list());
                    assert_eq!((implementation.listing)(&log, out.list()), number);
                    assert!(out == expected, "{}", String::from_utf8_lossy(expected.list()));
                }
                logs::damage(&mut r, &mut log);
            }
        }
    }
}
