//! Space packets of waveform sets (paper 02, ticket 7), against a model that takes a header apart by the widths of its fields and fills a
//! packet set by set.
use crate::implementations::{proved, Implementation};
use crate::model::{Answer, WAVEFORMS};
use crate::numbered;
use crate::random::{seeds, Buffer, Random};
use crate::sets::random_sample;
use crate::snapshots::every_set;
use dfb::PacketHeader;
use std::collections::BTreeMap;

// ---- the model ----

/// The widths in bits of a header's fields (CCSDS 133.0-B, 4.1.3), the first one highest: packet version number, packet type, secondary header
/// flag, APID, sequence flags, packet sequence count, packet data length.
const WIDTHS: [u32; 7] = [3, 1, 1, 11, 2, 14, 16];
/// The places of the fields.
const VERSION: usize = 0;
const TYPE: usize = 1;
const SECONDARY: usize = 2;
const APID: usize = 3;
const FLAGS: usize = 4;
const COUNT: usize = 5;
const LENGTH: usize = 6;

/// The fields of a header of six bytes.
fn fields_of(header: &[u8]) -> [u64; 7] {
    let mut bits = header.iter().fold(0, |bits, &byte| 256 * bits + byte as u64);
    let mut fields = [0; 7];
    for place in (0..7).rev() {
        fields[place] = bits % 2u64.pow(WIDTHS[place]);
        bits /= 2u64.pow(WIDTHS[place]);
    }
    fields
}

/// The six bytes of fields.
fn header_of(fields: [u64; 7]) -> Vec<u8> {
    let bits = fields.iter().zip(WIDTHS).fold(0, |bits, (field, width)| bits * 2u64.pow(width) + field);
    (0..6).rev().map(|place| (bits / 256u64.pow(place) % 256) as u8).collect()
}

/// The samples of a set.
fn set_size(apid: u64) -> Answer<usize> {
    WAVEFORMS.into_iter().find(|&(known, _)| known as u64 == apid).map(|(_, size)| size).ok_or(4)
}

/// The bytes of one packet.
fn packet_of(apid: u8, count: u16, samples: &[i16]) -> Vec<u8> {
    let mut data = vec![];
    for &sample in samples {
        let bits = if sample < 0 { sample as i32 + 65536 } else { sample as i32 };
        data.extend([(bits / 256) as u8, (bits % 256) as u8]);
    }
    [header_of([0, 0, 0, apid.into(), 3, count.into(), data.len() as u64 - 1]), data].concat()
}

/// The packets of samples, and the next count.
fn packets_of(apid: u8, first: u16, samples: &[i16]) -> Answer<(Vec<Vec<u8>>, u16)> {
    let size = set_size(apid.into())?;
    if first > 16383 {
        return Err(22);
    }
    if samples.is_empty() || samples.chunks(size).any(|set| set.len() != size) {
        return Err(23);
    }
    let (mut packets, mut count, mut left) = (vec![], first, samples);
    while !left.is_empty() {
        let mut sets = 0;
        while sets * size < left.len() && 6 + 2 * size * (sets + 1) <= 4096 {
            sets += 1;
        }
        packets.push(packet_of(apid, count, &left[..sets * size]));
        (count, left) = (if count == 16383 { 0 } else { count + 1 }, &left[sets * size..]);
    }
    Ok((packets, count))
}

/// APID, count and samples of a packet.
fn parts(packet: &[u8]) -> Answer<([u16; 2], Vec<i16>)> {
    if packet.len() < 6 {
        return Err(23);
    }
    let fields = fields_of(&packet[..6]);
    let size = set_size(fields[APID])?;
    if [fields[VERSION], fields[TYPE], fields[SECONDARY], fields[FLAGS]] != [0, 0, 0, 3] {
        return Err(22);
    }
    let data = &packet[6..];
    let are_whole = data.chunks(2 * size).all(|set| set.len() == 2 * size);
    if data.len() as u64 != fields[LENGTH] + 1 || data.len() > 4090 || !are_whole || data.is_empty() {
        return Err(23);
    }
    let signed = |bits: i32| if bits < 32768 { bits } else { bits - 65536 };
    let samples = data.chunks(2).map(|pair| signed(pair[0] as i32 * 256 + pair[1] as i32) as i16).collect();
    Ok(([fields[APID] as u16, fields[COUNT] as u16], samples))
}

// ---- calls ----

/// A call of the export: its lists, and the length of its output.
#[derive(Clone, Debug)]
pub struct Export {
    apid: u8,
    count: Vec<u16>,
    samples: Vec<i16>,
    out_len: usize,
}

/// A call of the import: the packet, and the lengths of its outputs.
#[derive(Clone, Debug)]
pub struct Import {
    packet: Vec<u8>,
    header_len: usize,
    samples_len: usize,
}

fn random_samples(r: &mut Random, count: usize) -> Vec<i16> {
    (0..count).map(|_| random_sample(r)).collect()
}

fn random_count(r: &mut Random) -> u16 {
    let any = r.below(16384) as u16;
    r.pick(&[0, 1, 255, 256, 8191, 8192, 16382, 16383, any, any])
}

/// The sets of a full packet.
fn most_sets(apid: u8) -> usize {
    4090 / 2 / set_size(apid.into()).unwrap()
}

/// A number of sets for at most so many packets.
fn random_sets(r: &mut Random, apid: u8, packets: usize) -> usize {
    let most = most_sets(apid);
    let any = 1 + r.below(most);
    r.below(packets) * most + r.pick(&[1, 2, 3, most - 1, most, any, any])
}

impl Export {
    /// A call that is accepted, of so many sets, with an output that fits.
    fn new(r: &mut Random, apid: u8, sets: usize) -> Export {
        let samples = sets * set_size(apid.into()).unwrap();
        let out_len = 2 * samples + 6 * sets.div_ceil(most_sets(apid));
        Export { apid, count: vec![random_count(r)], samples: random_samples(r, samples), out_len }
    }

    fn lengthen(&mut self, r: &mut Random, by: isize) {
        let length = self.samples.len().saturating_add_signed(by);
        self.samples.resize_with(length, || random_sample(r));
    }

    /// The call in few words.
    fn name(&self) -> String {
        let Export { apid, count, samples, out_len } = self;
        format!("APID {apid:02X}, count {count:?}, {} samples, output of {out_len}", samples.len())
    }
}

impl Import {
    /// A call that is accepted, of so many sets, with outputs that fit.
    fn new(r: &mut Random, apid: u8, sets: usize) -> Import {
        let samples = sets * set_size(apid.into()).unwrap();
        let packet = packet_of(apid, random_count(r), &random_samples(r, samples));
        Import { packet, header_len: 2, samples_len: samples }
    }

    /// Puts another number into a field of the header.
    fn set(&mut self, place: usize, field: u64) {
        let mut fields = fields_of(&self.packet[..6]);
        fields[place] = field % 2u64.pow(WIDTHS[place]);
        self.packet[..6].copy_from_slice(&header_of(fields));
    }

    /// Puts 16 bits into two bytes of the header.
    fn set_pair(&mut self, at: usize, bits: u16) {
        (self.packet[at], self.packet[at + 1]) = ((bits / 256) as u8, (bits % 256) as u8);
    }

    /// Gives the packet so many bytes of data, random ones behind its own, and a length field of the lowest 16 bits of their number minus one.
    fn resize(&mut self, r: &mut Random, data: usize) {
        self.packet.resize_with(6 + data, || r.next() as u8);
        self.set(LENGTH, (data as u64).wrapping_sub(1));
    }

    /// The call in few words.
    fn name(&self) -> String {
        let front = &self.packet[..self.packet.len().min(20)];
        format!("{} bytes {front:02X?}, header and samples of {} and {}", self.packet.len(), self.header_len, self.samples_len)
    }
}

// ---- comparisons ----

/// The answers in C.
fn export_number(answer: Answer<usize>) -> u64 {
    answer.map_or_else(|refusal| (1 << 63) + refusal as u64, |bytes| bytes as u64)
}

fn import_number(answer: Answer<usize>) -> u32 {
    answer.map_or_else(|refusal| 0x10000 + refusal as u32, |samples| samples as u32)
}

/// Compares an export, refused or not: the answer and every list.
pub fn compare_export(r: &mut Random, implementation: &Implementation, export: &Export) -> Answer<usize> {
    let (mut count, mut samples) = (Buffer::lent(&export.count), Buffer::lent(&export.samples));
    let mut out = Buffer::of_length(export.out_len, || r.next() as u8);
    let expected = match export.count[..] {
        [first] => packets_of(export.apid, first, &export.samples).map(|(packets, next)| (packets.concat(), next)),
        _ => Err(2),
    };
    let (answer, after) = match expected {
        Ok((bytes, next)) if export.out_len >= bytes.len() => (Ok(bytes.len()), (count.with(0, &[next]), out.with(0, &bytes))),
        other => (Err(other.err().unwrap_or(2)), (count.clone(), out.clone())),
    };
    let given = (implementation.export_packets)(export.apid, count.list(), samples.list(), out.list());
    let name = || format!("{} of {}", implementation.name, export.name());
    assert_eq!(given, export_number(answer), "{}", name());
    assert_eq!(count, after.0, "{}", name());
    assert!(samples == Buffer::lent(&export.samples) && out == after.1, "{}", name());
    answer
}

/// Compares an import, refused or not: the answer and every list.
pub fn compare_import(r: &mut Random, implementation: &Implementation, import: &Import) -> Answer<usize> {
    let mut packet = Buffer::lent(&import.packet);
    let mut header = Buffer::of_length(import.header_len, || r.next() as u16);
    let mut samples = Buffer::of_length(import.samples_len, || r.next() as i16);
    let (answer, after) = match parts(&import.packet) {
        Ok((numbers, read)) if import.header_len >= 2 && import.samples_len >= read.len() => {
            (Ok(read.len()), (header.with(0, &numbers), samples.with(0, &read)))
        }
        other => (Err(other.err().unwrap_or(2)), (header.clone(), samples.clone())),
    };
    let given = (implementation.import_packet)(packet.list(), header.list(), samples.list());
    let name = || format!("{} of {}", implementation.name, import.name());
    assert_eq!(given, import_number(answer), "{}", name());
    assert_eq!(header, after.0, "{}", name());
    assert!(packet == Buffer::lent(&import.packet) && samples == after.1, "{}", name());
    answer
}

/// The functions of the crate, which have one count and no list for the header.
fn of_the_crate() -> Implementation {
    Implementation {
        name: "the crate's function",
        export_packets: |apid, count, samples, out| {
            export_number(numbered(dfb::export_packets(apid, count[0], samples, out)).map(|(bytes, next)| {
                count[0] = next;
                bytes
            }))
        },
        import_packet: |packet, header, samples| {
            import_number(numbered(dfb::import_packet(packet, samples)).map(|(given, written)| {
                header.copy_from_slice(&[given.apid, given.count]);
                written
            }))
        },
        ..proved()
    }
}

/// Compares an export of the library, and the same through the function of the crate where there is one count.
fn export(r: &mut Random, call: &Export) -> Answer<usize> {
    if call.count.len() == 1 {
        let _ = compare_export(r, &of_the_crate(), call);
    }
    compare_export(r, &proved(), call)
}

/// Compares an import of the library, and the same with two numbers of a header through the function of the crate.
fn import(r: &mut Random, call: &Import) -> Answer<usize> {
    let _ = compare_import(r, &of_the_crate(), &Import { header_len: 2, ..call.clone() });
    compare_import(r, &proved(), call)
}

/// A packet that the library imports, it exports as the same bytes, with the count after its own.
fn import_and_export(packet: &[u8]) -> (PacketHeader, Vec<i16>) {
    let (mut samples, mut out) = ([0; dfb::PACKET_SAMPLES], [0; dfb::PACKET_BYTES]);
    let (header, written) = dfb::import_packet(packet, &mut samples).unwrap();
    let (bytes, next) = dfb::export_packets(header.apid as u8, header.count, &samples[..written], &mut out).unwrap();
    assert_eq!((&out[..bytes], next), (packet, (header.count + 1) % 16384));
    (header, samples[..written].to_vec())
}

/// What the library exports, it imports packet by packet: the counts in turn, packets that are all full but the last, and the same sets.
fn export_and_import(call: &Export) {
    let mut out = vec![0; dfb::packets_room(call.samples.len())];
    let (bytes, next) = dfb::export_packets(call.apid, call.count[0], &call.samples, &mut out).unwrap();
    let (mut rest, mut count, mut samples) = (&out[..bytes], call.count[0], vec![]);
    while !rest.is_empty() {
        let (packet, later) = rest.split_at(dfb::packet_bytes(rest));
        let (header, these) = import_and_export(packet);
        assert_eq!(header, PacketHeader { apid: call.apid.into(), count });
        assert!(later.is_empty() || these.len() == most_sets(call.apid) * set_size(header.apid.into()).unwrap());
        samples.extend(these);
        (rest, count) = (later, (count + 1) % 16384);
    }
    assert_eq!(count, next);
    assert!(samples == call.samples);
}

// ---- faults ----

/// An APID of 11 bits that is refused, often with the low byte of one that is not.
fn wrong_apid(r: &mut Random) -> u64 {
    let (low, any) = (r.pick(&WAVEFORMS).0 as u64, r.below(2048) as u64);
    let wrong = r.pick(&[0, 0x42, 0x49, 0x4E, 0x7FF, low + 0x100, low + 0x200, low + 0x400, low ^ 0x80, any]);
    if set_size(wrong).is_ok() {
        wrong + 0x100
    } else {
        wrong
    }
}

/// Exports with every set of faults, in the order of the refusals, and the refusal of each.
pub fn faulty_exports(mut take: impl FnMut(&Export, Option<u8>)) {
    let mut r = Random::new(1 << 32);
    for (apid, size) in WAVEFORMS {
        for sets in [1, 2, most_sets(apid), most_sets(apid) + 1] {
            let whole = Export::new(&mut r, apid, sets);
            for by in (1 - size as isize..size as isize).filter(|&by| by != 0).chain([isize::MIN]) {
                let (length, over) = (r.pick(&[0, 2, 3]), r.pick(&[16384, 16385, 32767, 32768, 49152, 65535]));
                let (wrong, seed) = (r.pick(&[0, 0x42, 0x49, 0x4E, 0xC3, 0xFF]), r.next());
                let room = r.pick(&[0, 1, 6, whole.out_len - 6, whole.out_len - 1]);
                every_set(
                    &whole,
                    &[
                        (2, &|export| export.count.resize(length, 0)),
                        (4, &|export| export.apid = wrong),
                        (22, &|export| export.count[0] = over),
                        (23, &|export| export.lengthen(&mut Random::new(seed), by)),
                        (2, &|export| export.out_len = room),
                    ],
                    &mut take,
                );
            }
        }
    }
}

/// Imports with every set of faults, in the order of the refusals, and the refusal of each.
pub fn faulty_imports(mut take: impl FnMut(&Import, Option<u8>)) {
    let mut r = Random::new(2 << 32);
    for (apid, size) in WAVEFORMS {
        for sets in [1, 2, most_sets(apid)] {
            let whole = Import::new(&mut r, apid, sets);
            let full = 2 * size * most_sets(apid);
            for (short, data) in [(0, 0), (1, 1), (2, 2 * size - 1), (3, 2 * size + 1), (4, 2 * size + 2), (5, full + 2 * size)] {
                let (version, flags, apid) = (1 + r.below(7) as u64, r.below(3) as u64, wrong_apid(&mut r));
                let (field, seed) = (r.pick(&[1, 2, 0x100, 0x1000, 0x8000]), r.next());
                every_set(
                    &whole,
                    &[
                        (23, &|import| import.packet.truncate(short)),
                        (4, &|import| import.set(APID, apid)),
                        (22, &|import| import.set(VERSION, version)),
                        (22, &|import| import.set(TYPE, 1)),
                        (22, &|import| import.set(SECONDARY, 1)),
                        (22, &|import| import.set(FLAGS, flags)),
                        (23, &|import| import.set(LENGTH, fields_of(&import.packet[..6])[LENGTH] ^ field)),
                        (23, &|import| import.resize(&mut Random::new(seed), data)),
                        (2, &|import| import.header_len = (seed % 2) as usize),
                        (2, &|import| import.samples_len -= 1),
                    ],
                    &mut take,
                );
            }
        }
    }
}

/// An export and an import, each with longer outputs and up to two faults by chance: how often each refusal comes.
pub fn compare_any(r: &mut Random, implementation: &Implementation, refusals: &mut [BTreeMap<u8, usize>; 2]) {
    let (apid, size) = r.pick(&WAVEFORMS);
    let (exported, imported) = (random_sets(r, apid, 3), random_sets(r, apid, 1));
    let (mut export, mut import) = (Export::new(r, apid, exported), Import::new(r, apid, imported));
    let longer = r.pick(&[0, 0, 1, 6, 300]);
    (export.out_len, import.samples_len, import.header_len) =
        (export.out_len + longer, import.samples_len + longer, r.pick(&[2, 2, 3, 40]));
    for _ in 0..r.below(3) {
        let any = r.next();
        let by = r.pick(&[-7, -6, -3, -2, -1, 1, 2, 3, 6, 7, size as isize, -(size as isize)]);
        match r.below(6) {
            0 => export.apid = r.pick(&[0x42, 0x43, 0x44, 0x47, 0x48, 0x49, 0x4E, 0, 0xFF, any as u8]),
            1 => {
                let length = r.pick(&[0, 2, 3]);
                export.count.resize(length, any as u16);
            }
            2 if export.count.len() == 1 => export.count[0] = r.pick(&[16384, 16385, 0x7FFF, 0x8000, 0xC000, 0xFFFF, any as u16]),
            3 => export.lengthen(r, by),
            4 => export.samples.clear(),
            _ => export.out_len = r.pick(&[0, 5, 6, 11, 12, export.out_len.saturating_sub(1), export.out_len.saturating_sub(6)]),
        }
        match r.below(8) {
            0 if import.packet.len() >= 6 => {
                let place = r.below(6);
                import.packet[place] = r.pick(&[0, 0x43, 0x44, 0xC0, 0xFF, any as u8, import.packet[place] ^ 1 << (any % 8)]);
            }
            1 if import.packet.len() >= 6 => {
                let place = r.below(7);
                import.set(place, any);
            }
            2 if import.packet.len() >= 6 => {
                let wrong = wrong_apid(r);
                import.set(APID, wrong);
            }
            3 if import.packet.len() >= 6 => {
                let data = (import.packet.len() - 6).saturating_add_signed(by);
                import.resize(r, data);
            }
            4 => {
                let length = import.packet.len().saturating_add_signed(by);
                import.packet.resize_with(length, || any as u8);
            }
            5 => {
                let any = r.below(import.packet.len() + 1);
                let length = r.pick(&[0, 1, 5, 6, any]);
                import.packet.truncate(length);
            }
            6 => import.header_len = r.below(4),
            _ => import.samples_len = r.pick(&[0, 1, 3, 7, import.samples_len.saturating_sub(1)]),
        }
    }
    let answers = [compare_export(r, implementation, &export), compare_import(r, implementation, &import)];
    for (refusals, answer) in refusals.iter_mut().zip(answers) {
        *refusals.entry(answer.err().unwrap_or(0)).or_insert(0) += 1;
    }
}

// ---- tests ----

/// Packets written by hand, and the constants.
#[test]
fn by_hand() {
    assert_eq!((dfb::PACKET_HEADER, dfb::PACKET_BYTES, dfb::PACKET_SAMPLES), (6, 4096, 2044));
    assert_eq!((dfb::LAST_PACKET_COUNT, dfb::PACKET_NUMBERS), (16383, 2));
    let samples = [-32768, 32767, -1, 1, 256, -257, 0x1234];
    let data = [0x80, 0x00, 0x7F, 0xFF, 0xFF, 0xFF, 0x00, 0x01, 0x01, 0x00, 0xFE, 0xFF, 0x12, 0x34];
    for (apid, count, packet) in [
        (0x43, 0, [&[0x00, 0x43, 0xC0, 0x00, 0x00, 0x05], &data[..6]].concat()),
        (0x45, 255, [&[0x00, 0x45, 0xC0, 0xFF, 0x00, 0x05], &data[..6]].concat()),
        (0x46, 256, [&[0x00, 0x46, 0xC1, 0x00, 0x00, 0x0B], &data[..12]].concat()),
        (0x47, 0x1234, [&[0x00, 0x47, 0xD2, 0x34, 0x00, 0x0D], &data[..]].concat()),
        (0x44, 16383, [&[0x00, 0x44, 0xFF, 0xFF, 0x00, 0x0D], &data[..]].concat()),
    ] {
        let words = packet.len() / 2 - 3;
        let (mut next, mut out) = ([count], [0xA5; 21]);
        assert_eq!((proved().export_packets)(apid, &mut next, &samples[..words], &mut out), packet.len() as u64);
        assert_eq!((next, &out[..packet.len()]), ([if count == 16383 { 0 } else { count + 1 }], &packet[..]));
        assert_eq!(out[packet.len()..], [0xA5; 21][packet.len()..]);
        let (mut header, mut again) = ([7; 3], [5; 8]);
        assert_eq!((proved().import_packet)(&packet, &mut header, &mut again), words as u32);
        assert_eq!((header, &again[..words]), ([apid.into(), count, 7], &samples[..words]));
        assert_eq!(again[words..], [5; 8][words..]);
    }
    // 682 sets of 3 are a packet of 4,092 bytes and one of 12; 293 sets of 7 are one of 4,094 and one of 20
    for (apid, samples, first, last) in [(0x48, 3 * 682, [0x0F, 0xF5], 12), (0x47, 7 * 293, [0x0F, 0xF7], 20)] {
        let mut out = vec![0; dfb::packets_room(samples)];
        let full = 6 + 256 * first[0] as usize + first[1] as usize + 1;
        assert_eq!(dfb::export_packets(apid, 16383, &vec![-2; samples], &mut out), Ok((full + last, 1)));
        assert_eq!(out[..8], [0x00, apid, 0xFF, 0xFF, first[0], first[1], 0xFF, 0xFE]);
        assert_eq!(out[full..full + 8], [0x00, apid, 0xC0, 0x00, 0x00, last as u8 - 7, 0xFF, 0xFE]);
        assert_eq!(dfb::packet_bytes(&out), full);
    }
}

/// Every APID of an export, and every APID of 11 bits of an import, with sets of both sizes.
#[test]
fn every_apid() {
    let mut r = Random::new(3 << 32);
    for whole in [0x43, 0x44] {
        for apid in 0..=0xFF {
            for sets in [1, 3, 7, most_sets(whole) + 1] {
                let call = Export { apid, ..Export::new(&mut r, whole, sets) };
                assert_eq!(export(&mut r, &call) == Err(4), !(0x43..=0x48).contains(&apid));
            }
        }
        for apid in 0..2048 {
            for sets in [1, 3, 7] {
                let mut call = Import::new(&mut r, whole, sets);
                call.set(APID, apid);
                assert_eq!(import(&mut r, &call) == Err(4), !(0x43..=0x48).contains(&apid));
            }
        }
    }
}

/// All 65,536 values of the first two bytes, and of the next two, in packets of one set.
#[test]
fn every_identification_and_sequence() {
    let mut r = Random::new(4 << 32);
    for (apid, size) in [(0x43, 3), (0x47, 7)] {
        let (whole, mut accepted) = (Import::new(&mut r, apid, 1), [0; 2]);
        for bits in 0..=0xFFFF {
            for (pair, accepted) in accepted.iter_mut().enumerate() {
                let mut call = whole.clone();
                call.set_pair(2 * pair, bits);
                if import(&mut r, &call).is_ok() {
                    *accepted += 1;
                    import_and_export(&call.packet);
                }
            }
        }
        assert_eq!(accepted, [WAVEFORMS.iter().filter(|set| set.1 == size).count(), 16384]);
    }
}

/// All 65,536 length fields, in packets with no data, of one set, of odd and even lengths that are not whole sets, full, and too long.
#[test]
fn every_length_field() {
    let mut r = Random::new(5 << 32);
    for (apid, size) in [(0x43, 3), (0x44, 7)] {
        let full = 2 * size * most_sets(apid);
        for data in [0, 1, 2 * size - 1, 2 * size, 2 * size + 1, 84, 85, full, 4090, full + 2 * size] {
            let mut call = Import::new(&mut r, apid, 1);
            call.resize(&mut r, data);
            call.samples_len = r.pick(&[data / 2, data / 2 + 5]);
            for field in 0..=0xFFFF {
                call.set_pair(4, field);
                let is_accepted = data % (2 * size) == 0 && data <= full && field as usize + 1 == data;
                assert_eq!(compare_import(&mut r, &proved(), &call).err(), (!is_accepted).then_some(23));
            }
        }
    }
}

/// Packets of every length, with the length field that it asks for, and with others.
#[test]
fn every_packet_length() {
    let mut r = Random::new(6 << 32);
    for (apid, size) in WAVEFORMS {
        for data in 0..=4200 {
            let mut call = Import::new(&mut r, apid, 1);
            call.resize(&mut r, data);
            call.samples_len = data / 2 + r.pick(&[0, 0, 1, 100]);
            let is_accepted = data > 0 && data <= 4090 && data % (2 * size) == 0;
            assert_eq!(import(&mut r, &call).err(), (!is_accepted).then_some(23));
            if is_accepted {
                import_and_export(&call.packet);
                let samples_len = r.pick(&[0, data / 2 - 1, data / 4]);
                assert_eq!(import(&mut r, &Import { samples_len, ..call.clone() }), Err(2));
            }
            call.set(LENGTH, data as u64 + r.pick(&[0, 1, 5, 255, 256, 65_280, 65_534]));
            assert_eq!(import(&mut r, &call), Err(23));
        }
        for length in 0..6 {
            let mut call = Import::new(&mut r, apid, 1);
            call.packet.truncate(length);
            assert_eq!(import(&mut r, &call), Err(23));
        }
    }
}

/// Packets over 4,096 bytes: whole sets whose length field is right, and such that fewer bits would cut to right ones.
#[test]
fn long_packets() {
    let mut r = Random::new(7 << 32);
    for (apid, size) in WAVEFORMS {
        let (set, full) = (2 * size, 2 * size * most_sets(apid));
        for data in [full + set, 2 * full, 65_536 / set * set, 65_536, 65_536 + set, 65_536 + full, 131_072 + set, set << 16] {
            let mut call = Import::new(&mut r, apid, 1);
            call.resize(&mut r, data);
            call.samples_len = r.pick(&[data / 2, set / 2, full / 2, (data % 65_536) / 2]);
            assert_eq!(import(&mut r, &call), Err(23));
            for field in [set as u64 - 1, full as u64 - 1, 0, 0xFFFF] {
                call.set(LENGTH, field);
                assert_eq!(import(&mut r, &call), Err(23));
            }
        }
    }
}

/// Every first count.
#[test]
fn every_count() {
    let mut r = Random::new(8 << 32);
    for count in 0..=0xFFFF {
        let (apid, _) = WAVEFORMS[count as usize % 6];
        let call = Export { count: vec![count], ..Export::new(&mut r, apid, 1) };
        assert_eq!(export(&mut r, &call).err(), (count > 16383).then_some(22));
    }
}

/// Counts that go from 16383 to 0 after each number of packets.
#[test]
fn wrapping_counts() {
    let mut r = Random::new(9 << 32);
    for apid in [0x45, 0x44] {
        for first in 16375..=16383 {
            for packets in 1..=10 {
                let sets = (packets - 1) * most_sets(apid) + r.pick(&[1, most_sets(apid)]);
                let call = Export { count: vec![first], ..Export::new(&mut r, apid, sets) };
                assert_eq!(export(&mut r, &call), Ok(call.out_len));
                export_and_import(&call);
            }
        }
    }
}

/// Exports of which each goes on with the count that the one before left, once round all counts and more.
#[test]
fn counts_from_call_to_call() {
    let mut r = Random::new(10 << 32);
    let (mut count, mut exported) = ([16000], 16000);
    while exported < 3 * 16384 {
        let apid = r.pick(&WAVEFORMS).0;
        let sets = if r.percent(2) { random_sets(&mut r, apid, 3) } else { 1 };
        let (call, mut out) = (Export::new(&mut r, apid, sets), vec![0; 5 * dfb::PACKET_BYTES]);
        let bytes = (proved().export_packets)(apid, &mut count, &call.samples, &mut out) as usize;
        let mut rest = &out[..bytes];
        while !rest.is_empty() {
            let (packet, later) = rest.split_at(dfb::packet_bytes(rest));
            assert_eq!(fields_of(&packet[..6])[COUNT], exported % 16384);
            (rest, exported) = (later, exported + 1);
        }
        assert_eq!(count[0] as u64, exported % 16384);
    }
}

/// Every number of samples up to more than two packets, whole sets or not, and some of many packets.
#[test]
fn every_number_of_samples() {
    let mut r = Random::new(11 << 32);
    for (apid, size) in WAVEFORMS {
        let whole = Export::new(&mut r, apid, 2 * most_sets(apid) + 3);
        let long = (0..3).map(|more| 40 * size * most_sets(apid) + more * size).chain([65_536, 65_537]);
        for samples in (0..=whole.samples.len()).chain(long) {
            let mut call = whole.clone();
            call.samples.resize(samples, -3);
            call.out_len = dfb::packets_room(samples) + r.pick(&[0, 1, 100]);
            let is_accepted = samples > 0 && samples % size == 0;
            assert_eq!(compare_export(&mut r, &proved(), &call).err(), (!is_accepted).then_some(23));
        }
    }
}

/// Outputs at their limits, for numbers of sets about those of full packets.
#[test]
fn output_lengths() {
    let mut r = Random::new(12 << 32);
    for (apid, size) in WAVEFORMS {
        let most = most_sets(apid);
        for sets in [1, 2, most - 1, most, most + 1, 2 * most - 1, 2 * most, 2 * most + 1, 9 * most, 9 * most + 1] {
            let whole = Export::new(&mut r, apid, sets);
            let needed = whole.out_len;
            assert_eq!(needed, 6 * sets.div_ceil(most) + 2 * size * sets);
            for out_len in [needed, needed + 1, needed + 6, needed + 4096, needed + 65_536] {
                assert_eq!(export(&mut r, &Export { out_len, ..whole.clone() }), Ok(needed));
            }
            for out_len in [0, 1, 6, needed / 2, needed - 12, needed - 6, needed - 2, needed - 1] {
                assert_eq!(export(&mut r, &Export { out_len, ..whole.clone() }), Err(2));
            }
        }
    }
}

/// Lists of counts and of header numbers of other lengths, those too that 8 and 16 bits would cut to right ones.
#[test]
fn count_and_header_lengths() {
    let mut r = Random::new(13 << 32);
    for apid in [0x43, 0x44] {
        for length in (0..=4).chain([255, 256, 257, 258, 65_535, 65_536, 65_537, 65_538]) {
            let mut call = Export::new(&mut r, apid, 2);
            call.count.resize_with(length, || r.next() as u16 % 16384);
            assert_eq!(export(&mut r, &call).err(), (length != 1).then_some(2));
            let call = Import { header_len: length, ..Import::new(&mut r, apid, 2) };
            assert_eq!(import(&mut r, &call).err(), (length < 2).then_some(2));
        }
    }
}

/// Each value of a sample, there and back.
#[test]
fn every_sample() {
    let mut r = Random::new(14 << 32);
    for (apid, size) in [(0x46, 3), (0x47, 7)] {
        let samples: Vec<i16> = (i16::MIN..=i16::MAX).chain(0..).take(65_536_usize.next_multiple_of(size)).collect();
        let call = Export { out_len: dfb::packets_room(samples.len()), samples, ..Export::new(&mut r, apid, 1) };
        assert!(export(&mut r, &call).is_ok());
        export_and_import(&call);
    }
}

/// The room is enough for each number of sets, and the last byte of it is needed for some.
#[test]
fn rooms() {
    let mut needed_all = 0;
    for (apid, size) in WAVEFORMS {
        for sets in 1..=5 * most_sets(apid) {
            let samples = sets * size;
            let needed = 2 * samples + 6 * sets.div_ceil(most_sets(apid));
            let mut out = vec![0; dfb::packets_room(samples)];
            assert!(needed <= out.len() && out.len() <= needed + 6);
            assert_eq!(dfb::export_packets(apid, 0, &vec![1; samples], &mut out).unwrap().0, needed);
            needed_all += usize::from(needed == out.len());
        }
    }
    assert!(needed_all > 0);
    assert_eq!([0, 2042, 2043, 4086].map(dfb::packets_room), [6, 4090, 4098, 8190]);
}

/// The bytes of the packet at the front, by the length field alone.
#[test]
fn packets_at_the_front() {
    let mut r = Random::new(15 << 32);
    for length in (0..=300).chain([4096, 65_541, 65_542, 65_543]) {
        for field in (0..=310).chain([4089, 65_534, 65_535]) {
            let mut bytes = r.bytes(length);
            if length >= 6 {
                (bytes[4], bytes[5]) = ((field / 256) as u8, (field % 256) as u8);
            }
            let packet = field + 7;
            assert_eq!(dfb::packet_bytes(&bytes), if packet <= length { packet } else { 0 });
        }
    }
}

/// Every set of faults at once: the first in the order of the refusals is the answer.
#[test]
fn order_of_refusals() {
    let mut r = Random::new(16 << 32);
    faulty_exports(|call, refusal| assert_eq!(export(&mut r, call).err(), refusal));
    faulty_imports(|call, refusal| assert_eq!(import(&mut r, call).err(), refusal));
}

#[test]
fn round_trips() {
    for seed in seeds(500) {
        let mut r = Random::new(17 << 32 | seed);
        let apid = r.pick(&WAVEFORMS).0;
        let sets = random_sets(&mut r, apid, 5);
        export_and_import(&Export::new(&mut r, apid, sets));
        let sets = random_sets(&mut r, apid, 1);
        let mut call = Import::new(&mut r, apid, sets);
        call.packet[6..].iter_mut().for_each(|byte| *byte = r.next() as u8);
        import_and_export(&call.packet);
    }
}

#[test]
fn random_calls() {
    let mut refusals = [BTreeMap::new(), BTreeMap::new()];
    for seed in seeds(15_000) {
        compare_any(&mut Random::new(18 << 32 | seed), &proved(), &mut refusals);
    }
    assert!(refusals.iter().all(|refusals| refusals.keys().eq(&[0, 2, 4, 22, 23])), "{refusals:?}");
    assert!(refusals.iter().flat_map(BTreeMap::values).all(|&count| count > 300), "{refusals:?}");
}
