//! Packets of LFR snapshots (paper 02, ticket 1), against a model that takes and puts each field byte by byte.
use crate::implementations::{proved, Implementation};
use crate::model::Answer;
use crate::numbered;
use crate::random::{seeds, Buffer, Random};
use crate::sets::random_sample;
use dfb::SnapshotHeader;
use std::collections::BTreeMap;

// ---- the model ----

/// Where the numbers of a header stand in a packet: the first byte of each, and how many bytes it has.
const FIELDS: [(usize, usize); 10] = [(1, 2), (3, 2), (5, 2), (8, 4), (12, 1), (13, 1), (14, 2), (16, 1), (17, 1), (18, 2)];
/// The places of three numbers in a header.
const MASK: usize = 5;
const TOTAL: usize = 6;
const NUMBER: usize = 9;

/// The greatest number of so many bytes.
fn most(bytes: usize) -> u32 {
    (256u64.pow(bytes as u32) - 1) as u32
}

/// How many bits of a mask are one.
fn components(mask: u32) -> usize {
    (0..8).filter(|bit| mask / (1 << bit) % 2 == 1).count()
}

fn is_in_range(header: &[u32]) -> bool {
    header[TOTAL] <= 3072 && header[NUMBER] < header[TOTAL]
}

/// Header and samples of a packet.
fn parts(packet: &[u8]) -> Answer<([u32; 10], Vec<i16>)> {
    if packet.len() < 20 {
        return Err(16);
    }
    if packet[0] != 33 || packet[7] != 8 {
        return Err(14);
    }
    let number = |bytes: &[u8]| bytes.iter().fold(0, |number, &byte| 256 * number + byte as u32);
    let header = FIELDS.map(|(at, bytes)| number(&packet[at..at + bytes]));
    if !is_in_range(&header) {
        return Err(15);
    }
    if packet.len() != 20 + 256 * components(header[MASK]) {
        return Err(16);
    }
    let signed = |bits: i32| if bits < 32768 { bits } else { bits - 65536 };
    Ok((header, packet[20..].chunks(2).map(|pair| signed(number(pair) as i32) as i16).collect()))
}

/// The packet of a header and samples.
fn packet_of(header: &[u32], samples: &[i16]) -> Answer<Vec<u8>> {
    if header.len() != 10 || (0..10).any(|n| header[n] > most(FIELDS[n].1)) {
        return Err(2);
    }
    if !is_in_range(header) {
        return Err(15);
    }
    if samples.len() != 128 * components(header[MASK]) {
        return Err(16);
    }
    let byte = |number: u32, place: usize| (number / 256u32.pow(place as u32) % 256) as u8;
    let mut packet = vec![0; 20];
    (packet[0], packet[7]) = (33, 8);
    for ((at, bytes), &number) in FIELDS.iter().zip(header) {
        (0..*bytes).for_each(|i| packet[at + i] = byte(number, bytes - 1 - i));
    }
    for &sample in samples {
        let bits = if sample < 0 { sample as i32 + 65536 } else { sample as i32 } as u32;
        packet.extend([byte(bits, 1), byte(bits, 0)]);
    }
    Ok(packet)
}

// ---- calls ----

/// A call of the reader: the packet, and the lengths of its outputs.
#[derive(Clone, Debug)]
pub struct Reading {
    packet: Vec<u8>,
    header_len: usize,
    samples_len: usize,
}

/// A call of the writer: header and samples, and the length of its output.
#[derive(Clone, Debug)]
pub struct Writing {
    header: Vec<u32>,
    samples: Vec<i16>,
    packet_len: usize,
}

/// A total and a packet number below it.
fn random_range(r: &mut Random) -> (u32, u32) {
    let any = 1 + r.below(3072) as u32;
    let total = r.pick(&[1, 2, 255, 256, 257, 3071, 3072, any]);
    let below = r.below(total as usize) as u32;
    (total, r.pick(&[0, total / 2, total - 1, below]))
}

impl Reading {
    /// Random bytes that are accepted, with outputs that fit.
    fn new(r: &mut Random, mask: u8) -> Reading {
        let count = components(mask.into());
        let mut packet = r.bytes(20 + 256 * count);
        (packet[0], packet[7], packet[13]) = (33, 8, mask);
        let mut reading = Reading { packet, header_len: 10, samples_len: 128 * count };
        let (total, number) = random_range(r);
        reading.set_total(total);
        reading.set_number(number);
        reading
    }

    fn set_total(&mut self, total: u32) {
        (self.packet[14], self.packet[15]) = ((total / 256) as u8, (total % 256) as u8);
    }

    fn set_number(&mut self, number: u32) {
        (self.packet[18], self.packet[19]) = ((number / 256) as u8, (number % 256) as u8);
    }

    /// Makes the packet longer or shorter, by random bytes.
    fn lengthen(&mut self, r: &mut Random, by: isize) {
        let length = self.packet.len().saturating_add_signed(by);
        self.packet.resize_with(length, || r.next() as u8);
    }
}

impl Writing {
    /// A call that is accepted, with an output that fits.
    fn new(r: &mut Random, mask: u8) -> Writing {
        let mut header = FIELDS.map(|(_, bytes)| {
            let any = r.next() as u32 & most(bytes);
            r.pick(&[0, 1, most(bytes), any, any])
        });
        header[MASK] = mask.into();
        (header[TOTAL], header[NUMBER]) = random_range(r);
        let count = 128 * components(mask.into());
        Writing { header: header.to_vec(), samples: (0..count).map(|_| random_sample(r)).collect(), packet_len: 20 + 2 * count }
    }

    fn lengthen(&mut self, r: &mut Random, by: isize) {
        let length = self.samples.len().saturating_add_signed(by);
        self.samples.resize_with(length, || random_sample(r));
    }
}

// ---- comparisons ----

/// The answer in C.
fn number(answer: Answer<usize>) -> u32 {
    answer.map_or_else(|refusal| 0x10000 + refusal as u32, |count| count as u32)
}

/// Compares a reading, refused or not: the answer and every list.
pub fn compare_read(r: &mut Random, implementation: &Implementation, reading: &Reading) -> Answer<usize> {
    let mut packet = Buffer::lent(&reading.packet);
    let mut header = Buffer::of_length(reading.header_len, || r.next() as u32);
    let mut samples = Buffer::of_length(reading.samples_len, || r.next() as i16);
    let (answer, after) = match parts(&reading.packet) {
        Ok((numbers, read)) if reading.header_len >= 10 && reading.samples_len >= read.len() => {
            (Ok(read.len()), (header.with(0, &numbers), samples.with(0, &read)))
        }
        other => (Err(other.err().unwrap_or(2)), (header.clone(), samples.clone())),
    };
    let given = (implementation.snapshot_read)(packet.list(), header.list(), samples.list());
    assert_eq!(given, number(answer), "{} of {reading:02X?}", implementation.name);
    let lists = (Buffer::lent(&reading.packet), after.0, after.1);
    assert!((packet, header, samples) == lists, "{} of {reading:02X?}", implementation.name);
    answer
}

/// Compares a writing, refused or not: the answer and every list.
pub fn compare_write(r: &mut Random, implementation: &Implementation, writing: &Writing) -> Answer<usize> {
    let (mut header, mut samples) = (Buffer::lent(&writing.header), Buffer::lent(&writing.samples));
    let mut packet = Buffer::of_length(writing.packet_len, || r.next() as u8);
    let (answer, after) = match packet_of(&writing.header, &writing.samples) {
        Ok(written) if writing.packet_len >= written.len() => (Ok(written.len()), packet.with(0, &written)),
        other => (Err(other.err().unwrap_or(2)), packet.clone()),
    };
    let given = (implementation.snapshot_write)(header.list(), samples.list(), packet.list());
    assert_eq!(given, number(answer), "{} of {writing:02X?}", implementation.name);
    let lists = (Buffer::lent(&writing.header), Buffer::lent(&writing.samples), after);
    assert!((header, samples, packet) == lists, "{} of {writing:02X?}", implementation.name);
    answer
}

/// The fields of the crate's header.
fn numbers_of(header: &SnapshotHeader) -> [u32; 10] {
    let SnapshotHeader { coarse_difference, fine_time, sequence, switches_8, switches_12, .. } = *header;
    let SnapshotHeader { component_mask, total_packets, artefacts, snapshot_number, packet_number, .. } = *header;
    let first = [coarse_difference as u32, fine_time as u32, sequence as u32, switches_8, switches_12 as u32];
    let last = [component_mask as u32, total_packets as u32, artefacts as u32, snapshot_number as u32, packet_number as u32];
    [first, last].concat().try_into().unwrap()
}

/// The crate's header of ten numbers that fit.
fn header_of(numbers: &[u32]) -> Option<SnapshotHeader> {
    if numbers.len() != 10 || (0..10).any(|n| numbers[n] > most(FIELDS[n].1)) {
        return None;
    }
    Some(SnapshotHeader {
        coarse_difference: numbers[0] as u16,
        fine_time: numbers[1] as u16,
        sequence: numbers[2] as u16,
        switches_8: numbers[3],
        switches_12: numbers[4] as u8,
        component_mask: numbers[5] as u8,
        total_packets: numbers[6] as u16,
        artefacts: numbers[7] as u8,
        snapshot_number: numbers[8] as u8,
        packet_number: numbers[9] as u16,
    })
}

/// The functions of the crate, which have no list for the header.
fn of_the_crate() -> Implementation {
    Implementation {
        name: "the crate's function",
        snapshot_read: |packet, header, samples| {
            number(numbered(dfb::snapshot_read(packet, samples)).map(|(given, count)| {
                header.copy_from_slice(&numbers_of(&given));
                count
            }))
        },
        snapshot_write: |header, samples, packet| number(numbered(dfb::snapshot_write(&header_of(header).unwrap(), samples, packet))),
        ..proved()
    }
}

/// Compares a reading of the library, and the same with a header of ten numbers through the function of the crate.
fn read(r: &mut Random, reading: &Reading) -> Answer<usize> {
    let _ = compare_read(r, &of_the_crate(), &Reading { header_len: 10, ..reading.clone() });
    compare_read(r, &proved(), reading)
}

/// Compares a writing of the library, and the same through the function of the crate where the numbers fit its header.
fn write(r: &mut Random, writing: &Writing) -> Answer<usize> {
    if header_of(&writing.header).is_some() {
        let _ = compare_write(r, &of_the_crate(), writing);
    }
    compare_write(r, &proved(), writing)
}

/// What the library reads from a packet, it writes as the same bytes.
fn read_and_write(packet: &[u8]) {
    let (mut samples, mut written) = ([0; dfb::MOST_SNAPSHOT_SAMPLES], [0; dfb::MOST_SNAPSHOT_BYTES]);
    let (header, count) = dfb::snapshot_read(packet, &mut samples).unwrap();
    let bytes = dfb::snapshot_write(&header, &samples[..count], &mut written).unwrap();
    assert_eq!(written[..bytes], *packet);
}

/// What the library writes, it reads as the same header and samples.
fn write_and_read(header: &SnapshotHeader, samples: &[i16]) {
    let (mut packet, mut again) = ([0; dfb::MOST_SNAPSHOT_BYTES], [0; dfb::MOST_SNAPSHOT_SAMPLES]);
    let bytes = dfb::snapshot_write(header, samples, &mut packet).unwrap();
    assert_eq!(dfb::snapshot_read(&packet[..bytes], &mut again), Ok((*header, samples.len())));
    assert_eq!(again[..samples.len()], *samples);
}

// ---- faults ----

/// A refusal, and what makes a call that is refused by it.
pub type Fault<'a, Call> = (u8, &'a dyn Fn(&mut Call));

/// Takes every set of the faults at once, with the refusal of the first; later faults are done before earlier ones.
pub fn every_set<Call: Clone>(call: &Call, faults: &[Fault<Call>], mut take: impl FnMut(&Call, Option<u8>)) {
    for set in 0..1 << faults.len() {
        let chosen = |n: &usize| set >> n & 1 == 1;
        let mut faulty = call.clone();
        (0..faults.len()).rev().filter(chosen).for_each(|n| faults[n].1(&mut faulty));
        take(&faulty, (0..faults.len()).find(chosen).map(|n| faults[n].0));
    }
}

/// Readings with every set of faults, in the order of the refusals, and the refusal of each.
pub fn faulty_readings(mut take: impl FnMut(&Reading, Option<u8>)) {
    let mut r = Random::new(1 << 32);
    for mask in [0x01, 0x80, 0x55, 0xFF] {
        let whole = Reading::new(&mut r, mask);
        for short in [0, 1, 7, 8, 14, 19] {
            for by in [-256, -2, -1, 1, 2, 256] {
                let (sid, auxiliary) = (r.pick(&[0, 32, 34, 0xA1]), r.pick(&[0, 7, 9, 0x88]));
                let (total, number, seed) = (r.pick(&[0, 3073, 0x8C00, 0xFFFF]), r.pick(&[3072, 0xFFFF]), r.next());
                every_set(
                    &whole,
                    &[
                        (16, &|reading| reading.packet.truncate(short)),
                        (14, &|reading| reading.packet[0] = sid),
                        (14, &|reading| reading.packet[7] = auxiliary),
                        (15, &|reading| reading.set_total(total)),
                        (15, &|reading| reading.set_number(number)),
                        (16, &|reading| reading.lengthen(&mut Random::new(seed), by)),
                        (2, &|reading| reading.header_len = 9),
                        (2, &|reading| reading.samples_len -= 1),
                    ],
                    &mut take,
                );
            }
        }
    }
}

/// Writings with every set of faults, in the order of the refusals, and the refusal of each.
pub fn faulty_writings(mut take: impl FnMut(&Writing, Option<u8>)) {
    let mut r = Random::new(2 << 32);
    for mask in [0x01, 0x80, 0x55, 0xFF] {
        let whole = Writing::new(&mut r, mask);
        for place in (0..10).filter(|&place| FIELDS[place].1 < 4) {
            for by in [-128, -1, 1, 128] {
                let (length, bit) = (r.pick(&[0, 5, 9, 11, 12]), r.pick(&[8 * FIELDS[place].1, 16, 31]));
                let (total, number) = (r.pick(&[0, 3073, 0x8C00, 0xFFFF]), r.pick(&[3072, 0xFFFF]));
                let (seed, room) = (r.next(), r.pick(&[0, 19, 20, whole.packet_len - 1]));
                every_set(
                    &whole,
                    &[
                        (2, &|writing| writing.header.resize(length, 0)),
                        (2, &|writing| writing.header[place] |= 1 << bit),
                        (15, &|writing| writing.header[TOTAL] = total),
                        (15, &|writing| writing.header[NUMBER] = number),
                        (16, &|writing| writing.lengthen(&mut Random::new(seed), by)),
                        (2, &|writing| writing.packet_len = room),
                    ],
                    &mut take,
                );
            }
        }
    }
}

/// A reading and a writing, each with up to two faults by chance: how often each refusal comes.
pub fn compare_any(r: &mut Random, implementation: &Implementation, refusals: &mut [BTreeMap<u8, usize>; 2]) {
    let any = r.next() as u8;
    let mask = r.pick(&[0, 1, 0x80, 0xFF, any, any]);
    let (mut reading, mut writing) = (Reading::new(r, mask), Writing::new(r, mask));
    let longer = r.pick(&[0, 0, 1, 16, 300]);
    (reading.samples_len, reading.header_len, writing.packet_len) =
        (reading.samples_len + longer, r.pick(&[10, 10, 11, 40]), writing.packet_len + longer);
    for _ in 0..r.below(3) {
        let by = r.pick(&[-512, -256, -128, -2, -1, 1, 2, 128, 256, 512]);
        let limit = r.pick(&[0, 1, 255, 256, 3071, 3072, 3073, 0x7FFF, 0x8000, 0xFFFF]);
        match r.below(6) {
            0 if reading.packet.len() >= 20 => {
                let any = r.below(20);
                let place = r.pick(&[0, 7, any]);
                reading.packet[place] = r.pick(&[0, 8, 33, 0x0C, 0xFF, reading.packet[place] ^ 1, reading.packet[place] ^ 0x80]);
            }
            1 => reading.lengthen(r, by),
            2 => reading.header_len = r.below(12),
            3 => reading.samples_len = r.pick(&[0, 127, 128, 129, reading.samples_len.saturating_sub(1)]),
            4 if reading.packet.len() >= 20 => reading.set_total(limit),
            5 if reading.packet.len() >= 20 => reading.set_number(limit),
            _ => {
                let length = r.below(20);
                reading.packet.truncate(length);
            }
        }
        match r.below(6) {
            0 => {
                let place = r.below(10);
                if let Some(number) = writing.header.get_mut(place) {
                    *number = r.pick(&[0, 1, 0xFF, 0x100, limit, 0xFFFF, 0x10000, u32::MAX, *number ^ 0x8000_0000]);
                }
            }
            1 => writing.lengthen(r, by),
            2 => {
                let length = r.below(13);
                writing.header.resize(length, 0);
            }
            3 => writing.packet_len = r.pick(&[0, 19, 20, writing.packet_len.saturating_sub(1), writing.packet_len + 1]),
            4 if writing.header.len() > TOTAL => writing.header[TOTAL] = limit,
            5 if writing.header.len() > NUMBER => writing.header[NUMBER] = limit,
            _ => {}
        }
    }
    let answers = [compare_read(r, implementation, &reading), compare_write(r, implementation, &writing)];
    for (refusals, answer) in refusals.iter_mut().zip(answers) {
        *refusals.entry(answer.err().unwrap_or(0)).or_insert(0) += 1;
    }
}

// ---- tests ----

/// Packets written by hand: one without samples, and one of the highest component.
#[test]
fn by_hand() {
    let mut packet = vec![33, 1, 2, 3, 4, 5, 6, 8, 7, 8, 9, 10, 11, 0, 0x0C, 0x00, 13, 14, 0x0B, 0xFF];
    let mut header = SnapshotHeader {
        coarse_difference: 0x0102,
        fine_time: 0x0304,
        sequence: 0x0506,
        switches_8: 0x0708_090A,
        switches_12: 11,
        component_mask: 0,
        total_packets: 3072,
        artefacts: 13,
        snapshot_number: 14,
        packet_number: 3071,
    };
    let numbers = [0x0102, 0x0304, 0x0506, 0x0708_090A, 11, 0, 3072, 13, 14, 3071];
    assert_eq!(dfb::snapshot_read(&packet, &mut []), Ok((header, 0)));
    assert_eq!(<[u32; dfb::SNAPSHOT_HEADER]>::from(header), numbers);
    let mut given = [0; 10];
    assert_eq!((proved().snapshot_read)(&packet, &mut given, &mut []), 0);
    assert_eq!(given, numbers);
    let mut written = [0; 20];
    assert_eq!(dfb::snapshot_write(&header, &[], &mut written), Ok(20));
    assert_eq!(written, packet[..]);
    let mut written = [0; 20];
    assert_eq!((proved().snapshot_write)(&numbers, &[], &mut written), 20);
    assert_eq!(written, packet[..]);

    (packet[13], header.component_mask) = (0x80, 0x80);
    packet.extend([0x80, 0x00, 0x7F, 0xFF, 0xFF, 0xFF, 0x00, 0x01, 0x01, 0x00, 0xFE, 0xFF].repeat(21));
    packet.extend([0x12, 0x34, 0xED, 0xCC]);
    let expected = [[-32768, 32767, -1, 1, 256, -257].repeat(21), vec![0x1234, -0x1234]].concat();
    let mut samples = [0; 128];
    assert_eq!(dfb::snapshot_read(&packet, &mut samples), Ok((header, 128)));
    assert_eq!(samples, expected[..]);
    let mut written = [0; 276];
    assert_eq!(dfb::snapshot_write(&header, &samples, &mut written), Ok(276));
    assert_eq!(written, packet[..]);
}

/// Every mask: outputs that fit, longer and shorter ones, other lengths of the packet and of the samples, and the way there and back.
#[test]
fn every_mask() {
    let mut r = Random::new(3 << 32);
    for mask in 0..=0xFF {
        let (reading, writing) = (Reading::new(&mut r, mask), Writing::new(&mut r, mask));
        let (count, bytes) = (128 * mask.count_ones() as usize, 20 + 256 * mask.count_ones() as usize);
        for (header_len, samples_len) in [(10, count), (12, count + 5), (10, 1024), (11, 2000)] {
            assert_eq!(read(&mut r, &Reading { header_len, samples_len, ..reading.clone() }), Ok(count));
        }
        for (header_len, samples_len) in [(9, count), (0, 1024), (0, 0)] {
            assert_eq!(read(&mut r, &Reading { header_len, samples_len, ..reading.clone() }), Err(2));
        }
        for samples_len in [0, count / 2, count.saturating_sub(1)] {
            assert_eq!(read(&mut r, &Reading { samples_len, ..reading.clone() }).is_ok(), count == 0);
        }
        for packet_len in [bytes, bytes + 1, 2068, 3000] {
            assert_eq!(write(&mut r, &Writing { packet_len, ..writing.clone() }), Ok(bytes));
        }
        for packet_len in [0, 19, bytes - 2, bytes - 1] {
            assert_eq!(write(&mut r, &Writing { packet_len, ..writing.clone() }), Err(2));
        }
        for by in [-256, -128, -2, -1, 1, 2, 128, 256] {
            let (mut reading, mut writing) = (reading.clone(), writing.clone());
            reading.lengthen(&mut r, by);
            assert_eq!(read(&mut r, &reading), Err(16));
            writing.lengthen(&mut r, by);
            assert_eq!(write(&mut r, &writing).is_ok(), count == 0 && by < 0);
        }
        read_and_write(&reading.packet);
        write_and_read(&header_of(&writing.header).unwrap(), &writing.samples);
    }
}

/// Each of the first 20 bytes with every value.
#[test]
fn every_first_byte() {
    let mut r = Random::new(4 << 32);
    for mask in [0, 0x01, 0x90, 0xFF] {
        let whole = Reading::new(&mut r, mask);
        for place in 0..20 {
            for byte in 0..=0xFF {
                let mut reading = whole.clone();
                reading.packet[place] = byte;
                reading.samples_len = dfb::MOST_SNAPSHOT_SAMPLES;
                if read(&mut r, &reading).is_ok() {
                    read_and_write(&reading.packet);
                }
            }
        }
    }
}

/// Packets of every length, whole and with a wrong SID, auxiliary length, total or packet number; and every number of samples to write.
#[test]
fn every_length() {
    let mut r = Random::new(5 << 32);
    for components in 0..=8 {
        let mask = ((1u32 << components) - 1) as u8;
        let longest = Reading::new(&mut r, 0xFF).packet;
        for length in 0..=2068 {
            let mut reading = Reading::new(&mut r, mask);
            reading.packet.extend(&longest[reading.packet.len()..]);
            if let Some((place, byte)) = r.pick(&[None, Some((0, 32)), Some((7, 0)), Some((14, 0x0D)), Some((18, 0x0C))]) {
                reading.packet[place] = byte;
            }
            reading.packet.truncate(length);
            let _ = read(&mut r, &reading);
        }
        let whole = Writing::new(&mut r, mask);
        for count in 0..=1030 {
            let mut writing = whole.clone();
            writing.samples.resize(count, 7);
            assert_eq!(write(&mut r, &writing).is_ok(), count == 128 * components);
        }
    }
}

/// Totals and packet numbers at their limits, in every pair; and every total, with the packet numbers beside it.
#[test]
fn totals_and_numbers() {
    let mut r = Random::new(6 << 32);
    let mut compare = |mask, total, number| {
        let (mut reading, mut writing) = (Reading::new(&mut r, mask), Writing::new(&mut r, mask));
        reading.set_total(total);
        reading.set_number(number);
        (writing.header[TOTAL], writing.header[NUMBER]) = (total, number);
        let is_accepted = (1..=3072).contains(&total) && number < total;
        assert_eq!(read(&mut r, &reading).err(), (!is_accepted).then_some(15));
        assert_eq!(write(&mut r, &writing).err(), (!is_accepted).then_some(15));
    };
    let limits = [0, 1, 2, 127, 128, 255, 256, 257, 3070, 3071, 3072, 3073, 3074, 4095, 4096, 0x7FFF, 0x8000, 0x8001, 0xFFFE, 0xFFFF];
    for total in limits {
        for number in limits {
            [0, 0x10, 0xFF].into_iter().for_each(|mask| compare(mask, total, number));
        }
    }
    for total in 0..=0xFFFFu32 {
        compare(0, total, total);
        compare(0, total, total.saturating_sub(1));
    }
}

/// Headers of other lengths than ten, those too that 8 and 16 bits would cut to ten.
#[test]
fn header_lengths() {
    let mut r = Random::new(7 << 32);
    for mask in [0, 0x04, 0xFF] {
        for length in (0..=12).chain([256, 265, 266, 65_536, 65_545, 65_546]) {
            let mut reading = Reading::new(&mut r, mask);
            reading.header_len = length;
            assert_eq!(read(&mut r, &reading).err(), (length < 10).then_some(2));
            let mut writing = Writing::new(&mut r, mask);
            writing.header.resize(length, 0);
            assert_eq!(write(&mut r, &writing).err(), (length != 10).then_some(2));
        }
    }
}

/// Lengths that fewer bits would cut to those wanted, or to too small ones.
#[test]
fn long_lists() {
    let mut r = Random::new(8 << 32);
    for mask in [0, 0x20, 0xFF] {
        for by in [256, 1024, 2048, 4096, 65_536, 131_072] {
            let (reading, writing) = (Reading::new(&mut r, mask), Writing::new(&mut r, mask));
            for samples_len in [reading.samples_len + by, by.max(1024)] {
                assert_eq!(read(&mut r, &Reading { samples_len, ..reading.clone() }), Ok(reading.samples_len));
            }
            for packet_len in [writing.packet_len + by, by.max(2068)] {
                assert_eq!(write(&mut r, &Writing { packet_len, ..writing.clone() }), Ok(writing.packet_len));
            }
            let (mut reading, mut writing) = (reading, writing);
            reading.lengthen(&mut r, by as isize);
            assert_eq!(read(&mut r, &reading), Err(16));
            writing.lengthen(&mut r, by as isize);
            assert_eq!(write(&mut r, &writing), Err(16));
        }
    }
}

/// Each number of the header at its limits, one over them, and with each bit alone.
#[test]
fn every_number() {
    let mut r = Random::new(9 << 32);
    for mask in [0, 0x08, 0xFF] {
        for (place, (_, bytes)) in FIELDS.into_iter().enumerate() {
            let limits = [0, 1, most(bytes) - 1, most(bytes), most(bytes).wrapping_add(1), 0xFF, 0x100, 0xFFFF, 0x10000, u32::MAX];
            let whole = Writing::new(&mut r, mask);
            let bits = (0..32).flat_map(|bit| [1 << bit, whole.header[place] ^ 1 << bit]);
            for number in bits.chain(limits) {
                let mut writing = whole.clone();
                writing.header[place] = number;
                let answer = write(&mut r, &writing);
                assert_eq!(answer == Err(2), number > most(bytes), "{number:X} at {place}");
                if answer.is_ok() {
                    write_and_read(&header_of(&writing.header).unwrap(), &writing.samples);
                }
                let header: [u32; 10] = writing.header.try_into().unwrap();
                let converted = SnapshotHeader::try_from(header);
                assert_eq!(numbered(converted), header_of(&header).ok_or(2));
                assert_eq!(converted.map_or(header, <[u32; 10]>::from), header);
            }
        }
    }
}

/// Each value of a sample, there and back.
#[test]
fn every_sample() {
    let mut r = Random::new(10 << 32);
    for high in (0..=0xFFu8).step_by(4) {
        let (mut reading, mut writing) = (Reading::new(&mut r, 0xFF), Writing::new(&mut r, 0xFF));
        reading.packet.truncate(20);
        reading.packet.extend((0..1024u16).flat_map(|n| [high + (n / 256) as u8, (n % 256) as u8]));
        assert_eq!(read(&mut r, &reading), Ok(1024));
        read_and_write(&reading.packet);
        writing.samples = (0..1024).map(|n| (high as i32 * 256 + n - 32768) as i16).collect();
        assert_eq!(write(&mut r, &writing), Ok(2068));
        write_and_read(&header_of(&writing.header).unwrap(), &writing.samples);
    }
}

/// Every set of faults at once: the first in the order of the refusals is the answer.
#[test]
fn order_of_refusals() {
    let mut r = Random::new(11 << 32);
    faulty_readings(|reading, refusal| assert_eq!(read(&mut r, reading).err(), refusal));
    faulty_writings(|writing, refusal| assert_eq!(write(&mut r, writing).err(), refusal));
}

#[test]
fn round_trips() {
    for seed in seeds(3000) {
        let mut r = Random::new(12 << 32 | seed);
        let mask = r.next() as u8;
        read_and_write(&Reading::new(&mut r, mask).packet);
        let writing = Writing::new(&mut r, mask);
        write_and_read(&header_of(&writing.header).unwrap(), &writing.samples);
    }
}

#[test]
fn random_calls() {
    let mut refusals = [BTreeMap::new(), BTreeMap::new()];
    for seed in seeds(20_000) {
        compare_any(&mut Random::new(13 << 32 | seed), &proved(), &mut refusals);
    }
    let kinds = refusals.clone().map(|refusals| refusals.into_keys().collect::<Vec<_>>());
    assert_eq!(kinds, [vec![0, 2, 14, 15, 16], vec![0, 2, 15, 16]]);
    assert!(refusals.iter().flat_map(BTreeMap::values).all(|&count| count > 300), "{refusals:?}");
}
