//! The check of planners' command lists (paper 02, ticket 6), against a model that looks at each record with all those before it.
use crate::implementations::{proved, Implementation};
use crate::model::{self, Record, Settings};
use crate::random::{seeds, Buffer, Random};
use std::collections::BTreeMap;

/// The final registers, or a refusal and its offset.
type Checked = Result<[u16; 7], (u8, usize)>;

/// The registers after some records from reset.
fn registers_after(records: &[Record]) -> [u16; 7] {
    let mut registers = [0; 7];
    for record in records {
        if let Record::Command(id, information) = *record {
            registers[id as usize - 0x30] = model::stored(id, information).unwrap();
        }
    }
    registers
}

/// Either no processor is enabled or N is at most C, after some records.
fn is_within_period(records: &[Record]) -> bool {
    let settings = Settings::of(&registers_after(records));
    settings.enabled.is_empty() || settings.averaged <= settings.period
}

/// The refusal of a record that stands behind others, none of which is at fault.
fn refusal(before: &[Record], record: Record) -> Option<u8> {
    match record {
        Record::Word(..) | Record::Tick => Some(18),
        Record::Command(id, information) => match model::stored(id, information) {
            Ok(value) if value == information => None,
            Ok(_) => Some(20),
            Err(refusal) => Some(refusal),
        },
        Record::SecondMark(second) => {
            let is_later = |earlier: &Record| matches!(*earlier, Record::SecondMark(earlier) if earlier > second);
            if before.iter().any(is_later) {
                Some(19)
            } else if !is_within_period(before) {
                Some(21)
            } else {
                None
            }
        }
    }
}

fn check(list: &[u8]) -> Checked {
    let (mut records, mut at) = (vec![], 0);
    while let Some((record, next)) = model::record_at(list, at).map_err(|refusal| (refusal, at))? {
        if let Some(refusal) = refusal(&records, record) {
            return Err((refusal, at));
        }
        records.push(record);
        at = next;
    }
    if !is_within_period(&records) {
        return Err((21, list.len()));
    }
    Ok(registers_after(&records))
}

// ---- comparisons ----

/// The answer in C: 0, or 2^63 + offset * 256 + refusal, 2 being that of too few registers; and what the registers are afterwards.
fn expected(checked: Checked, registers: &Buffer<u16>, length: usize) -> (u64, Buffer<u16>) {
    let refused = |refusal: u8, offset: usize| (1 << 63) + offset as u64 * 256 + refusal as u64;
    match checked {
        Err((refusal, offset)) => (refused(refusal, offset), registers.clone()),
        Ok(_) if length < 7 => (refused(2, 0), registers.clone()),
        Ok(values) => (0, registers.with(0, &values)),
    }
}

/// Compares a call of C's with seven registers, and with more or fewer.
pub fn compare_call(r: &mut Random, implementation: &Implementation, list: &[u8]) {
    let checked = check(list);
    for length in [7, r.pick(&[0, 1, 6, 8, 9, 300])] {
        let mut lent = Buffer::lent(list);
        let mut registers = Buffer::of_length(length, || r.next() as u16);
        let (number, after) = expected(checked, &registers, length);
        assert_eq!((implementation.check_commands)(lent.list(), registers.list()), number, "{list:02X?}");
        assert!(lent == Buffer::lent(list) && registers == after, "{list:02X?}, {length} registers");
    }
}

/// Compares the check of a list.
fn compare(r: &mut Random, list: &[u8]) {
    let answer = dfb::check_commands(list).map_err(|refused| (refused.refusal.number(), refused.offset as usize));
    assert_eq!(answer, check(list), "{list:02X?}");
    compare_call(r, &proved(), list);
}

// ---- lists ----

fn command(id: u8, information: u16) -> Vec<u8> {
    vec![1, id, (information >> 8) as u8, information as u8]
}

fn mark(second: u32) -> Vec<u8> {
    [vec![3], second.to_be_bytes().to_vec()].concat()
}

/// A list of up to some records that keeps the rules.
pub fn whole_list(r: &mut Random, most: usize) -> Vec<u8> {
    let (mut list, mut registers, mut second) = (vec![], [0; 7], (r.any_size() >> 32) as u32);
    for _ in 0..r.below(most + 1) {
        if r.percent(60) {
            let n = r.pick(&[0, 0, 0, 1, 2, 3, 4, 5, 6]);
            let any = r.next() as u16;
            registers[n] = model::stored(0x30 + n as u8, r.pick(&[any, any & 0x3F, any | 0x20])).unwrap();
            list.extend(command(0x30 + n as u8, registers[n]));
        } else {
            mend(r, &mut registers, &mut list);
            list.extend(mark(second));
            second = second.saturating_add(r.pick(&[0, 1, 1, 60, 1 << 31]));
        }
    }
    mend(r, &mut registers, &mut list);
    list
}

/// Sends a command after which N is at most C, where a processor is enabled and it is not.
fn mend(r: &mut Random, registers: &mut [u16; 7], list: &mut Vec<u8>) {
    let settings = Settings::of(registers);
    if settings.enabled.is_empty() || settings.averaged <= settings.period {
        return;
    }
    let n = settings.enabled[0];
    if settings.enabled.len() == 1 && r.percent(50) {
        registers[n] &= !0x20;
        list.extend(command(0x30 + n as u8, registers[n]));
    } else {
        let navg = registers[0] >> 8 & 0xF;
        registers[0] = registers[0] & 0x0FFF | r.pick(&[navg, 10]) << 12;
        list.extend(command(0x30, registers[0]));
    }
}

/// A refusal, and records that offend by it behind `start`.
fn faults() -> [(u8, Vec<u8>); 8] {
    [
        (9, vec![5]),
        (10, vec![1, 0x30, 0xFF]),
        (18, vec![4]),
        (18, vec![2, 0x42, 0, 0]),
        (1, command(0x37, 0xFFFF)),
        (20, command(0x33, 0x3232)),
        (19, mark(6)),
        (21, [command(0x30, 0x0120), mark(8)].concat()),
    ]
}

fn start() -> Vec<u8> {
    [mark(7), command(0x30, 0x3223)].concat()
}

/// Changes or removes a byte, cuts the list, ends it with N above C, or puts a fault between two records.
pub fn damage(r: &mut Random, list: &mut Vec<u8>) {
    let place = r.below(list.len() + 1);
    match r.below(7) {
        0 if place < list.len() => list[place] = r.pick(&[0, 1, 2, 3, 4, 5, 0x20, 0x2F, 0x30, 0x37]),
        1 if place < list.len() => list[place] ^= 1 << r.below(8),
        2 if place < list.len() => {
            list.remove(place);
        }
        3 => list.truncate(place),
        4 => list.extend(command(0x30, 0x0120)),
        _ => {
            let mut at = 0;
            while let Ok(Some((_, next))) = model::record_at(list, at) {
                if next > place {
                    break;
                }
                at = next;
            }
            let fault = &faults()[r.below(faults().len())].1;
            list.splice(at..at, fault.iter().copied());
        }
    }
}

// ---- tests ----

/// The ticket's sentences, with answers written by hand.
#[test]
fn sentences() {
    let mut r = Random::new(0);
    let quiet = [0; 7];
    let (within, over, off) = (command(0x30, 0x3223), command(0x30, 0x0123), command(0x30, 0x0103));
    let first = [0x3223, 0, 0, 0, 0, 0, 0];
    for (list, answer) in [
        (vec![], Ok(quiet)),
        // nothing but commands and second marks
        ([mark(0), within.clone(), mark(u32::MAX)].concat(), Ok(first)),
        (vec![4], Err((18, 0))),
        ([within.clone(), vec![2, 0x43, 0, 1]].concat(), Err((18, 4))),
        ([mark(7), vec![2, 0x42, 0, 1], mark(8)].concat(), Err((18, 5))),
        // seconds never falling
        ([mark(7), mark(7), mark(8)].concat(), Ok(quiet)),
        ([mark(u32::MAX), mark(u32::MAX)].concat(), Ok(quiet)),
        ([mark(256), mark(255)].concat(), Err((19, 5))),
        ([mark(1 << 31), within.clone(), mark((1 << 31) - 1)].concat(), Err((19, 9))),
        // every write storing exactly what was sent
        (command(0x36, 0x0036), Ok([0, 0, 0, 0, 0, 0, 0x36])),
        (command(0x30, 0x0017), Err((20, 0))),
        ([within.clone(), command(0x31, 0x3223)].concat(), Err((20, 4))),
        // after each second mark, and at the end, either no processor enabled or N at most C
        ([over.clone(), within.clone(), mark(7)].concat(), Ok(first)),
        ([over.clone(), mark(7), within.clone()].concat(), Err((21, 4))),
        ([mark(7), over.clone()].concat(), Err((21, 9))),
        ([off.clone(), mark(7)].concat(), Ok([0x0103, 0, 0, 0, 0, 0, 0])),
        ([off.clone(), command(0x36, 0x20), mark(7)].concat(), Err((21, 8))),
        (command(0x30, 0x3320), Ok([0x3320, 0, 0, 0, 0, 0, 0])),
        // 9 and 10 first, then 18, 1, 20 for a command, 19, 21 for a mark
        (vec![5], Err((9, 0))),
        (vec![2, 0x42, 0], Err((10, 0))),
        (vec![1, 0x37, 0xFF], Err((10, 0))),
        (command(0x37, 0xFFFF), Err((1, 0))),
        ([mark(7), over.clone(), mark(6)].concat(), Err((19, 9))),
    ] {
        assert_eq!(check(&list), answer, "{list:02X?}");
        compare(&mut r, &list);
    }
}

/// Lists that keep the rules, and the same with up to three damages: each refusal comes, at the end too.
#[test]
fn whole_and_damaged_lists() {
    let mut counts = BTreeMap::new();
    for seed in seeds(20_000) {
        let mut r = Random::new(seed);
        let most = r.pick(&[0, 1, 2, 5, 12, 40]);
        let mut list = whole_list(&mut r, most);
        compare(&mut r, &list);
        assert!(check(&list).is_ok());
        for _ in 0..3 {
            damage(&mut r, &mut list);
            compare(&mut r, &list);
            let kind = check(&list).map_or_else(|(refusal, offset)| (refusal, offset == list.len()), |_| (0, false));
            *counts.entry(kind).or_insert(0) += 1;
        }
    }
    let at_records = [0, 1, 9, 10, 18, 19, 20, 21].map(|refusal| (refusal, false));
    assert_eq!(counts.keys().copied().collect::<Vec<_>>(), [&at_records[..], &[(21, true)]].concat());
    assert!(counts.values().all(|&count| count > 300), "{counts:?}");
}

/// Every ordered pair of faults, behind each other and with good records about them.
#[test]
fn two_faults() {
    let mut r = Random::new(1);
    for (refusal, first) in faults() {
        for (_, second) in faults() {
            for (between, behind) in [(vec![], vec![]), (vec![], mark(9)), (command(0x32, 0x0020), vec![])] {
                let list = [start(), first.clone(), between, second.clone(), behind].concat();
                compare(&mut r, &list);
                // a record that is cut takes its body from the next
                assert!(refusal == 10 || check(&list).unwrap_err().0 == refusal, "{list:02X?}");
            }
        }
    }
}

#[test]
fn random_bytes() {
    for seed in seeds(20_000) {
        let mut r = Random::new(2 << 32 | seed);
        let length = r.below(40);
        let list: Vec<u8> = (0..length).map(|_| r.pick(&[1, 1, 1, 3, 3, 0x30, 0x31, 0x36, 0x37, 0x20, 0, 0, 2, 4, 0xFF])).collect();
        compare(&mut r, &list);
    }
}

/// Every value to every register, and every ID.
#[test]
fn every_command() {
    let mut r = Random::new(3);
    for id in 0..=0xFF {
        for information in 0..=0xFFFF {
            if information % 257 == 0 || (0x30..=0x36).contains(&id) {
                compare(&mut r, &command(id, information));
            }
        }
    }
}

/// Every N and C, with each processor enabled and with none, at a mark and at the end.
#[test]
fn every_period() {
    let mut r = Random::new(4);
    for choices in 0..=0xFF {
        // 7, behind the last processor, stands for none
        for enabled in 0..8 {
            let mut list = command(0x30, choices << 8 | if enabled == 0 { 0x20 } else { 0 });
            if (1..7).contains(&enabled) {
                list.extend(command(0x30 + enabled, 0x20));
            }
            compare(&mut r, &list);
            list.extend(mark(0));
            compare(&mut r, &list);
        }
    }
}

/// Every kind, cut after each byte, with good records before it and after it.
#[test]
fn every_record_head() {
    let mut r = Random::new(5);
    for kind in 0..=0xFF {
        for second in [0, 0x2F, 0x30, 0x36, 0x37, 0x42, 0x43, 0x4E, 0xFF] {
            let record = [kind, second, 0, 0x20, 0];
            for length in 1..=5 {
                compare(&mut r, &record[..length]);
                compare(&mut r, &[&start()[..], &record[..length]].concat());
                compare(&mut r, &[&start()[..], &record[..length], &mark(9)[..]].concat());
            }
        }
    }
}

/// Seconds about each byte's limit, the first of which may be any.
#[test]
fn seconds() {
    let mut r = Random::new(6);
    let about = |bits: u32| [-1, 0, 1].map(|more| ((1i64 << bits) + more).min(u32::MAX.into()) as u32);
    let seconds: Vec<u32> = (0..=32).flat_map(about).collect();
    for &first in &seconds {
        for &second in &seconds {
            let list = [mark(first), command(0x31, 0x20), mark(second)].concat();
            compare(&mut r, &list);
            assert_eq!(check(&list).is_ok(), first <= second);
        }
    }
}

/// Offsets and lengths of more than 16 bits.
#[test]
fn long_lists() {
    let mut r = Random::new(7);
    for commands in [16_383, 16_384, 70_000] {
        let mut list: Vec<u8> = (0..commands).flat_map(|i| command(0x30 + (i % 7) as u8, (i % 0x17) as u16)).collect();
        compare(&mut r, &list);
        for (refusal, fault) in faults() {
            let longer = [list.clone(), mark(7), fault].concat();
            compare(&mut r, &longer);
            let (found, offset) = check(&longer).unwrap_err();
            assert!(found == refusal && offset > 4 * commands);
        }
        list.extend(command(0x30, 0x0120));
        compare(&mut r, &list);
        assert_eq!(check(&list), Err((21, 4 * commands + 4)));
    }
}
