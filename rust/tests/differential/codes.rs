//! Codes and bands: all codes, all settings, bins and bands, and many values.
use crate::model;
use crate::numbered;
use crate::random::{seeds, Buffer, Random};

#[test]
fn every_band_code() {
    let legal = (0..=0xFF).filter(|&code| {
        assert_eq!(numbered(dfb::expand_band(code)), model::expand_band(code));
        dfb::expand_band(code).is_ok()
    });
    assert_eq!(legal.count(), 125);
}

/// Values around every power of two and every code's value, and random ones.
fn values(expand: impl Fn(u16) -> model::Answer<u64>) -> Vec<u64> {
    let mut values: Vec<u64> = (0..=0x1_0000).collect();
    let edges = (0..64).map(|e| 1 << e).chain((0..=0xFFFF).filter_map(|code| expand(code).ok()));
    values.extend(edges.flat_map(|edge: u64| [edge.wrapping_sub(1), edge, edge.wrapping_add(1)]));
    let mut r = Random::new(0);
    values.extend(seeds(200_000).map(|_| r.any_size()));
    values
}

#[test]
fn band_codes_of_values() {
    let mut all = values(|code| u8::try_from(code).map_err(|_| 7).and_then(model::expand_band));
    all.push(u32::MAX as u64);
    // The middle between two neighbouring values, and beside it.
    all.extend((0..31).flat_map(|e| [9, 11, 13, 15].map(|m| m << e)).flat_map(|middle: u64| [middle - 1, middle, middle + 1]));
    for value in all.into_iter().map(|value| value as u32) {
        let code = dfb::compress_band(value);
        assert_eq!(code, model::compress_band(value), "value {value}");
        assert!(model::is_within_bounds(value as u128, 1, dfb::expand_band(code).unwrap() as u128), "value {value}");
    }
}

/// 02, ticket 5, over all legal codes: none is nearer, and at equal distance none is greater.
#[test]
fn nearest_of_all_legal_codes() {
    let legal: Vec<u64> = (0..=0xFF).filter(|&code| model::is_legal(code)).map(model::band_value).collect();
    let halves = legal.windows(2).map(|pair| (pair[0] + pair[1]) / 2);
    let edges: Vec<u64> = halves.chain(legal.iter().copied()).flat_map(|edge| [edge.saturating_sub(1), edge, edge + 1]).collect();
    let mut r = Random::new(4);
    let random = seeds(20_000).map(|_| r.any_size() as u32 as u64);
    for value in edges.into_iter().filter(|&value| value <= u32::MAX as u64).chain(random) {
        let nearest = *legal.iter().min_by_key(|&&each| (each.abs_diff(value), u64::MAX - each)).unwrap();
        assert_eq!(dfb::expand_band(dfb::compress_band(value as u32)), Ok(nearest), "value {value}");
    }
}

#[test]
fn every_sum_code() {
    let mut r = Random::new(1);
    for code in 0..=0xFFFF {
        for length in 0..3 {
            let mut value = Buffer::of_length(length, || r.next());
            let before = value.clone();
            let answer = numbered(dfb::expand_sum(code, value.list()));
            match model::expand_sum(code) {
                Err(refusal) => assert_eq!((answer, value), (Err(refusal), before)),
                Ok(_) if length == 0 => assert_eq!((answer, value), (Err(2), before)),
                Ok(expanded) => assert_eq!((answer, value), (Ok(()), before.with(0, &[expanded]))),
            }
        }
    }
}

#[test]
fn sum_codes_of_values() {
    for value in values(model::expand_sum) {
        assert_eq!(dfb::compress_sum(value), model::compress_sum(value), "value {value}");
    }
}

#[test]
fn every_setting_and_bin() {
    for setting in 0..=0xFF {
        for bin in 0..=0xFFFF {
            assert_eq!(numbered(dfb::band_of(setting, bin)), model::band_of(setting, bin));
        }
    }
}

/// The three floats to the bit.
#[test]
fn every_setting_and_band() {
    let mut r = Random::new(2);
    for setting in 0..=0xFF {
        for band in 0..=0xFF {
            for length in [0, 1, 2, 3, 5] {
                let mut three = Buffer::of_length(length, || f32::from_bits(r.next() as u32));
                let before = three.clone();
                let answer = numbered(dfb::describe_band(setting, band, three.list()));
                let (expected, after) = match model::describe_band(setting, band) {
                    Err(refusal) => (Err(refusal), before),
                    Ok(_) if length < 3 => (Err(2), before),
                    Ok(edges) => (Ok(()), before.with(0, &edges)),
                };
                assert_eq!(answer, expected, "setting {setting}, band {band}, length {length}");
                assert!(three.bits() == after.bits(), "setting {setting}, band {band}, length {length}");
            }
        }
    }
}

/// The number to the bit.
#[test]
fn every_cadence() {
    let mut r = Random::new(3);
    for choice in 0..=0xFF {
        for length in [0, 1, 5] {
            let mut value = Buffer::of_length(length, || f32::from_bits(r.next() as u32));
            let before = value.clone();
            let answer = numbered(dfb::cadence_of(choice, value.list()));
            let (expected, after) = match model::cadence_of(choice) {
                Err(refusal) => (Err(refusal), before),
                Ok(_) if length == 0 => (Err(2), before),
                Ok(model::Cadence::Rate(rate)) => (Ok(dfb::Cadence::Rate), before.with(0, &[rate])),
                Ok(model::Cadence::Period(period)) => (Ok(dfb::Cadence::Period), before.with(0, &[period])),
            };
            assert_eq!(answer, expected, "choice {choice}, length {length}");
            assert!(value.bits() == after.bits(), "choice {choice}, length {length}");
        }
    }
}

impl Buffer<f32> {
    fn bits(&self) -> Vec<u32> {
        self.all().iter().map(|x| x.to_bits()).collect()
    }
}
