//! Single readings of a log at every place, and whole walks.
use crate::logs::{damage, random_log};
use crate::model::{self, Answer};
use crate::numbered;
use crate::random::{seeds, Buffer, Random};

/// Compares a reading into a list of some length.
fn compare_reading(r: &mut Random, log: &[u8], at: usize, length: usize) -> Answer<usize> {
    let mut record = Buffer::of_length(length, || r.next() as u32);
    let (mut expected, mut lent) = (record.clone(), Buffer::lent(log));
    let answer = numbered(dfb::read_record(lent.list(), at, record.list()));
    assert_eq!(answer, model::read_record(log, at, expected.list()), "{log:02X?} at {at}");
    assert_eq!((lent, record), (Buffer::lent(log), expected), "{log:02X?} at {at}");
    answer
}

/// Compares the records from the log's start on, and what follows them: the end or a refusal.
pub fn compare_walk(log: &[u8]) {
    let (records, refusal) = model::records(log);
    let mut at = 0;
    for expected in records {
        let mut record = [0; 3];
        at = dfb::read_record(log, at, &mut record).unwrap();
        assert_eq!(record, expected.numbers(), "{log:02X?} before {at}");
    }
    let mut record = [9; 3];
    let answer = numbered(dfb::read_record(log, at, &mut record));
    let expected = match refusal {
        Some(refusal) => (Err(refusal), [9; 3]),
        None => (Ok(log.len()), [0; 3]),
    };
    assert_eq!((answer, record), expected, "{log:02X?} at {at}");
}

/// Whole and damaged logs, every place in them and behind them, lists of 0 to 5 numbers.
#[test]
fn every_place() {
    let mut read = 0;
    for seed in seeds(500) {
        let mut r = Random::new(seed);
        let most = r.pick(&[0, 1, 10, 50, 200]);
        let mut log = random_log(&mut r, most);
        for _ in 0..3 {
            compare_walk(&log);
            let behind = [log.len() + 1, log.len() + 2, log.len() + 5, 1 << 32, usize::MAX / 2 + 1, usize::MAX];
            for at in (0..=log.len()).chain(behind) {
                for length in 0..=5 {
                    read += compare_reading(&mut r, &log, at, length).is_ok() as usize;
                }
            }
            damage(&mut r, &mut log);
        }
    }
    assert!(read > 10_000, "only {read} records");
}

/// Every kind and every ID or APID, cut after each byte, with lists that are too short and one that is not.
#[test]
fn every_head() {
    let mut r = Random::new(1 << 32);
    for kind in 0..=0xFF {
        for a in 0..=0xFF {
            let log = [kind, a, r.next() as u8, r.next() as u8, r.next() as u8];
            for length in 1..=log.len() {
                for numbers in [0, 2, 3] {
                    let _ = compare_reading(&mut r, &log[..length], 0, numbers);
                }
            }
        }
    }
}

#[test]
fn long_walks() {
    for seed in seeds(20) {
        let mut r = Random::new(2 << 32 | seed);
        let mut log = random_log(&mut r, 100_000);
        compare_walk(&log);
        damage(&mut r, &mut log);
        compare_walk(&log);
    }
}

/// Two faults at once: a place past the log, the kind, the body's end, the ID or the APID, the list's length, in this order.
#[test]
fn order_of_refusals() {
    let two_faults: [(&[u8], usize, usize, u8); 10] = [
        (&[4], 2, 0, 2),
        (&[], 0, 2, 2),
        (&[4], 0, 2, 2),
        (&[5], 0, 2, 9),
        (&[1], 0, 2, 10),
        (&[3, 0, 0, 0], 0, 0, 10),
        (&[1, 0x37, 0], 0, 3, 10),
        (&[2, 0x42, 0], 0, 3, 10),
        (&[1, 0x37, 0, 0], 0, 2, 1),
        (&[2, 0x42, 0, 0], 0, 2, 4),
    ];
    let mut r = Random::new(3 << 32);
    for (log, at, length, refusal) in two_faults {
        assert_eq!(compare_reading(&mut r, log, at, length), Err(refusal), "{log:02X?} at {at}");
    }
}
