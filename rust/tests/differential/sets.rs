//! Waveform sets through pack and unpack, with right and wrong lengths and damaged words.
use crate::model::{self, WAVEFORMS};
use crate::numbered;
use crate::random::{seeds, Buffer, Random};

pub fn random_sample(r: &mut Random) -> i16 {
    let any = r.next() as i16;
    r.pick(&[0, 1, -1, 255, 256, -256, i16::MAX, i16::MIN, any, any])
}

fn compare_pack(r: &mut Random, apid: u8, samples: &[i16], out_len: usize) {
    let mut out = Buffer::of_length(out_len, || r.next() as u8);
    let (mut expected, mut lent) = (out.clone(), Buffer::lent(samples));
    assert_eq!(numbered(dfb::pack(apid, lent.list(), out.list())), model::pack(apid, samples, expected.list()));
    assert_eq!((lent, out), (Buffer::lent(samples), expected));
}

fn compare_unpack(r: &mut Random, apid: u8, bytes: &[u8], samples_len: usize) {
    let mut samples = Buffer::of_length(samples_len, || r.next() as i16);
    let (mut expected, mut lent) = (samples.clone(), Buffer::lent(bytes));
    assert_eq!(numbered(dfb::unpack(apid, lent.list(), samples.list())), model::unpack(apid, bytes, expected.list()));
    assert_eq!((lent, samples), (Buffer::lent(bytes), expected));
}

/// Every APID with every length up to 9 words.
#[test]
fn every_apid_and_length() {
    let mut r = Random::new(0);
    for apid in 0..=0xFF {
        for samples_len in 0..=9 {
            for out_len in 0..=28 {
                let samples: Vec<i16> = (0..samples_len).map(|_| random_sample(&mut r)).collect();
                compare_pack(&mut r, apid, &samples, out_len);
                let mut bytes = r.bytes(out_len);
                bytes.iter_mut().step_by(3).for_each(|byte| *byte = apid);
                compare_unpack(&mut r, apid, &bytes, samples_len);
            }
        }
    }
}

/// Whole sets there and back, and sets with a damaged byte.
#[test]
fn round_trips_and_damaged_sets() {
    for seed in seeds(20_000) {
        let mut r = Random::new(seed);
        let (apid, words) = r.pick(&WAVEFORMS);
        let samples: Vec<i16> = (0..words).map(|_| random_sample(&mut r)).collect();
        let mut out = Buffer::of_length(3 * words, || r.next() as u8);
        assert_eq!(dfb::pack(apid, &samples, out.list()), Ok(3 * words));
        let mut bytes = out.list().to_vec();
        let mut unpacked = Buffer::of_length(words, || r.next() as i16);
        let before = unpacked.clone();
        assert_eq!(dfb::unpack(apid, &bytes, unpacked.list()), Ok(words));
        assert_eq!(unpacked, before.with(0, &samples));

        let place = r.below(bytes.len());
        bytes[place] = r.pick(&[apid, apid ^ 1, 0x43, 0x44, 0x4E, 0, 0xFF]);
        compare_unpack(&mut r, apid, &bytes, words);
        let other = r.pick(&WAVEFORMS).0;
        compare_unpack(&mut r, other, &bytes, words + 1);
    }
}
