//! Logs through append and listing: whole, damaged, refused records among them, and lengths about the limit.
use crate::board::{random_out, random_powers, Pair};
use crate::model::{self, Board, Record, Settings, SPEC, WAVEFORMS};
use crate::numbered;
use crate::random::{seeds, Buffer, Random};
use crate::readings::compare_walk;

/// A log in a buffer, with the records that were appended.
struct Log {
    buffer: Buffer<u8>,
    used: usize,
    records: Vec<Record>,
}

impl Log {
    fn new(r: &mut Random, length: usize) -> Log {
        Log { buffer: Buffer::of_length(length, || r.next() as u8), used: 0, records: vec![] }
    }

    /// Appends, whether the record is refused or not.
    fn append(&mut self, kind: u8, a: u8, b: u32) -> bool {
        let mut expected = self.buffer.clone();
        let answer = numbered(dfb::append(self.buffer.list(), self.used, kind, a, b));
        assert_eq!(answer, model::append(expected.list(), self.used, kind, a, b));
        assert_eq!(self.buffer, expected);
        let Ok(used) = answer else {
            return false;
        };
        self.used = used;
        self.records.push(match kind {
            1 => Record::Command(a, b as u16),
            2 => Record::Word(a, (b >> 8) as u8, b as u8),
            3 => Record::SecondMark(b),
            _ => Record::Tick,
        });
        true
    }

    fn bytes(&mut self) -> &[u8] {
        &self.buffer.list()[..self.used]
    }

    /// It reads back as the same records and then the end.
    fn compare_records(&mut self) {
        assert_eq!(model::records(self.bytes()), (self.records.clone(), None));
        compare_walk(self.bytes());
    }
}

/// Compares the listing with room to spare, with no room to spare, and with one byte too few.
fn compare_listing(r: &mut Random, log: &[u8]) -> String {
    let room = model::listing_room(log.len());
    let text = listed(r, log, room).unwrap();
    let spare = r.below(100);
    assert_eq!(listed(r, log, room + spare).as_ref(), Ok(&text));
    let short = r.pick(&[room - 1, room - 1, room / 2, 0]);
    assert_eq!(listed(r, log, short), Err(2));
    text
}

/// The listing in an output of some length.
fn listed(r: &mut Random, log: &[u8], room: usize) -> model::Answer<String> {
    let mut out = Buffer::of_length(room, || r.next() as u8);
    let (mut expected, mut lent) = (out.clone(), Buffer::lent(log));
    let answer = numbered(dfb::listing(lent.list(), out.list()));
    assert_eq!(answer, model::listing(log, expected.list()));
    assert!(lent == Buffer::lent(log));
    assert!(out == expected, "{}", String::from_utf8_lossy(expected.list()));
    answer.map(|count| String::from_utf8(out.list()[..count].to_vec()).unwrap())
}

fn legal_code(r: &mut Random) -> u8 {
    (0..).map(|_| r.next() as u8).find(|&code| model::expand_band(code).is_ok()).unwrap()
}

/// A random log of commands, second marks, ticks and sets, up to some bytes.
pub fn random_log(r: &mut Random, most: usize) -> Vec<u8> {
    let mut log = vec![];
    let mut registers = [0; 7];
    while log.len() < most {
        match r.below(10) {
            0..=2 => {
                let information = if r.percent(50) { r.next() as u16 } else { (r.below(4) << 6 | 0x20 | r.below(32)) as u16 };
                let n = r.below(7);
                registers[n] = model::stored(0x30 + n as u8, information).unwrap();
                log.extend([1, 0x30 + n as u8, (information >> 8) as u8, information as u8]);
            }
            3 => {
                log.push(3);
                let seconds = r.any_size() >> 32;
                log.extend((seconds as u32).to_be_bytes());
            }
            4 => log.push(4),
            5..=8 => {
                let (apid, words) = r.pick(&WAVEFORMS);
                for _ in 0..words {
                    let any = r.next() as u16;
                    let bits = r.pick(&[0, 1, 0x7FFF, 0x8000, 0xFFFF, any, any]);
                    log.extend([2, apid, (bits >> 8) as u8, bits as u8]);
                }
            }
            _ => {
                let settings = Settings::of(&registers);
                for _ in 0..settings.enabled.len() * settings.bands().count / 2 {
                    log.extend([2, SPEC, legal_code(r), legal_code(r)]);
                }
            }
        }
    }
    log
}

pub fn damage(r: &mut Random, log: &mut Vec<u8>) {
    if log.is_empty() {
        return;
    }
    let place = r.below(log.len());
    match r.below(5) {
        0 => log[place] = r.next() as u8,
        1 => log[place] = r.pick(&[0, 1, 2, 3, 4, 5, 0x2F, 0x30, 0x37, 0x42, 0x43, 0x4E, 0x08, 0xF4, 0xF5]),
        2 => log.truncate(place),
        3 => {
            log.remove(place);
        }
        _ => log.insert(place, r.pick(&[0, 1, 2, 3, 4, 5, 0x43])),
    }
}

#[test]
fn appended_logs() {
    for seed in seeds(2000) {
        let mut r = Random::new(seed);
        let length = r.pick(&[0, 1, 3, 4, 5, 20, 100, 1000]);
        let mut log = Log::new(&mut r, length);
        for _ in 0..length / 2 + 4 {
            let kind = r.pick(&[0, 1, 1, 2, 2, 3, 4, 5, 0xFF]);
            let a = r.pick(&[0x2F, 0x30, 0x33, 0x36, 0x37, 0x42, 0x43, 0x48, 0x49, 0x4E, 0, 0xFF]);
            let b = r.pick(&[0, 1, 0xFFFF, 0x10000, u32::MAX, 0x1234, 0xABCD]);
            log.append(kind, a, b);
        }
        log.compare_records();
        let bytes = log.bytes().to_vec();
        compare_listing(&mut r, &bytes);
    }
}

/// Every kind and every ID or APID, with used about the end.
#[test]
fn every_record_head() {
    let mut r = Random::new(0);
    for kind in 0..=0xFF {
        for a in 0..=0xFF {
            for used in [0, 3, 4, 7, 8, 9, usize::MAX] {
                let b = r.pick(&[0, 0xFFFF, 0x10000, u32::MAX]);
                let mut log = Log::new(&mut r, 8);
                log.used = used;
                log.append(kind, a, b);
            }
        }
    }
}

#[test]
fn whole_and_damaged_logs() {
    let mut ends = 0;
    for seed in seeds(3000) {
        let mut r = Random::new(1 << 32 | seed);
        let most = r.pick(&[0, 1, 10, 50, 200, 1000]);
        let mut log = random_log(&mut r, most);
        assert!(compare_listing(&mut r, &log).lines().last().unwrap().starts_with("END "));
        for _ in 0..3 {
            damage(&mut r, &mut log);
            ends += compare_listing(&mut r, &log).contains("END ") as usize;
        }
    }
    assert!(ends > 100, "only {ends} damaged logs are whole");
}

#[test]
fn random_bytes() {
    for seed in seeds(5000) {
        let mut r = Random::new(2 << 32 | seed);
        let length = r.below(40);
        let log: Vec<u8> = (0..length).map(|_| r.pick(&[1, 2, 2, 2, 3, 4, 4, 0x30, 0x31, 0x43, 0x4E, 0x20, 0, 0xFF])).collect();
        compare_listing(&mut r, &log);
    }
}

#[test]
fn lengths_about_the_limit() {
    let mut r = Random::new(3 << 32);
    for length in [65534, 65535, 65536, 65537, 65538, 100_000] {
        compare_listing(&mut r, &vec![4; length]);
        compare_listing(&mut r, &vec![0; length]);
        let mut log = random_log(&mut r, length);
        log.truncate(length);
        compare_listing(&mut r, &log);
    }
    // The longest text for its length: 112 bands at the largest value.
    let mut log = vec![1, 0x30, 0, 0xB6];
    while log.len() + 4 * 56 <= 65536 {
        (0..56).for_each(|_| log.extend([2, SPEC, 0xF4, 0xF4]));
    }
    compare_listing(&mut r, &log);
}

/// A board is run, its commands, ticks and reports are appended, and the listing prints the model's values.
#[test]
fn logs_of_a_running_board() {
    for seed in seeds(40) {
        let mut r = Random::new(4 << 32 | seed);
        let mut log = Log::new(&mut r, 60_000);
        let mut pair = Pair::new(&mut r, Board::reset());
        for _ in 0..40 {
            if r.percent(20) {
                let (id, information) = (0x30 + r.pick(&[0, 0, 0, 1, 3, 6]), r.pick(&[0x0020, 0x1060, 0x11A3, 0x0036, 0x2122]));
                pair.command(id, information).unwrap();
                assert!(log.append(1, id, information as u32));
            }
            let (powers, mut out) = (random_powers(&mut r), random_out(&mut r));
            let answer = pair.tick(&powers, &mut out);
            assert!(log.append(4, 0, 0));
            if let Ok(dfb::Tick::Reported(report)) = answer {
                for word in out.list().chunks(3).take(report.words) {
                    assert!(log.append(2, word[0], word[1] as u32 * 256 + word[2] as u32));
                }
            }
        }
        log.compare_records();
        let bytes = log.bytes().to_vec();
        let text = compare_listing(&mut r, &bytes);
        assert!(text.ends_with(&format!("END {}\n", log.records.len())));
    }
}
