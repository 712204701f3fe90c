//! 01, "Numbers on both sides" as the tickets amend it, and the whole case, copied by hand.
use dfb::{Cadence, Refusal};

#[test]
fn registers() {
    let write = |id, information| dfb::command(&mut [0; dfb::STATE], &mut [0; dfb::TOTALS], id, information);
    assert_eq!(write(0x30, 0x6363), Ok(0x6363));
    assert_eq!(write(0x30, 0xFFFF), Ok(0x6363));
    assert_eq!(write(0x30, 0xAB16), Ok(0xA316));
    assert_eq!(write(0x30, 0x0017), Ok(0x0003));
    assert_eq!(write(0x31, 0xFFFF), Ok(0x0032));
}

#[test]
fn band_codes() {
    for (value, code, expanded) in
        [(7, 0x07, 7), (8, 0x0C, 8), (9, 0x0D, 10), (15, 0x14, 16), (16, 0x14, 16), (4294967295, 0xF4, 4294967296)]
    {
        assert_eq!(dfb::compress_band(value), code);
        assert_eq!(dfb::expand_band(code), Ok(expanded));
    }
    for code in [0x08, 0xF3, 0xF5, 0xF6, 0xF7, 0xF8, 0xFF] {
        assert_eq!(dfb::expand_band(code), Err(Refusal::IllegalBandCode));
    }
}

#[test]
fn sum_codes() {
    assert_eq!(dfb::compress_sum(1023), 0x03FF);
    assert_eq!(dfb::compress_sum(1024), 0x0600);
    assert_eq!(dfb::compress_sum(u64::MAX), 0xDBFF);
    let mut value = [1];
    assert_eq!(dfb::expand_sum(0xFC00, &mut value), Ok(()));
    assert_eq!(value, [0]);
    assert_eq!(dfb::expand_sum(0xFC01, &mut value), Ok(()));
    assert_eq!(value, [1 << 63]);
    assert_eq!(dfb::expand_sum(0xFC02, &mut value), Err(Refusal::SumCodeOverflow));
    assert_eq!(value, [1 << 63]);
}

#[test]
fn bands() {
    assert_eq!(dfb::band_of(0, 4), Ok(4));
    assert_eq!(dfb::band_of(0, 512), Ok(32));
    for (setting, band) in [(0, 35), (1, 63), (2, 111)] {
        assert_eq!(dfb::band_of(setting, 1023), Ok(band));
    }
}

/// 8/C per second with C up to 8, then C/8 seconds.
#[test]
fn cadences() {
    for (choice, cadence, number) in
        [(0, Cadence::Rate, 8.0), (3, Cadence::Rate, 1.0), (4, Cadence::Period, 2.0), (10, Cadence::Period, 128.0)]
    {
        let mut value = [0.0];
        assert_eq!(dfb::cadence_of(choice, &mut value), Ok(cadence));
        assert_eq!(value, [number]);
    }
    assert_eq!(dfb::cadence_of(11, &mut [0.0]), Err(Refusal::OutOfRange));
}

/// N = 2, a one-bin band: powers 8 and 11 print 10, powers 0 and 1 print 0.
#[test]
fn two_spectra() {
    for (first, second, total, code, printed) in [(8, 11, 8, 0x0D, 10), (0, 1, 0, 0x00, 0)] {
        let (mut state, mut totals, mut out) = ([0; dfb::STATE], [0; dfb::TOTALS], [0; dfb::OUTPUT]);
        assert_eq!(dfb::command(&mut state, &mut totals, 0x30, 0x1120), Ok(0x1120));
        let mut powers = [0; dfb::POWERS];
        powers[0] = first;
        assert_eq!(dfb::tick(&mut state, &mut totals, &powers, &mut out), Ok(dfb::Tick::Collected));
        assert_eq!(totals[0], total);
        powers[0] = second;
        assert_eq!(dfb::tick(&mut state, &mut totals, &powers, &mut out), Ok(dfb::Tick::Reported(dfb::Report { words: 18, number: 1 })));
        assert_eq!(out[..3], [0x4E, 0x00, code]);
        assert_eq!(dfb::expand_band(code), Ok(printed));
    }
}

/// Ticket 13: N = C = 1, so that each tick reports. The number stays at 65,535, a refused command leaves it, an accepted one sets it to 0, and
/// a state that has one and is not running is refused by 3.
#[test]
fn report_numbers() {
    let (mut state, mut totals, powers, mut out) = ([0; dfb::STATE], [0; dfb::TOTALS], [0; dfb::POWERS], [0; dfb::OUTPUT]);
    assert_eq!(dfb::tick(&mut state, &mut totals, &powers, &mut out), Ok(dfb::Tick::Idle));
    assert_eq!(dfb::command(&mut state, &mut totals, 0x30, 0x0020), Ok(0x0020));
    for number in (1..=65535).chain([65535, 65535]) {
        let answer = dfb::tick(&mut state, &mut totals, &powers, &mut out);
        assert_eq!(answer, Ok(dfb::Tick::Reported(dfb::Report { words: 18, number })));
        assert_eq!(state, [0x0020, 0, 0, 0, 0, 0, 0, 0, number]);
        if number % 8192 == 0 || number == 65535 {
            assert_eq!(dfb::command(&mut state, &mut totals, 0x37, 0x0020), Err(Refusal::UnknownCommand));
        }
    }
    assert_eq!(dfb::command(&mut state, &mut totals, 0x30, 0x0020), Ok(0x0020));
    assert_eq!(state, [0x0020, 0, 0, 0, 0, 0, 0, 0, 0]);
    let answer = dfb::tick(&mut state, &mut totals, &powers, &mut out);
    assert_eq!(answer, Ok(dfb::Tick::Reported(dfb::Report { words: 18, number: 1 })));

    state[0] = 0x0120; // N is above C
    let before = state;
    assert_eq!(dfb::tick(&mut state, &mut totals, &powers, &mut out), Err(Refusal::UnsoundState));
    assert_eq!(dfb::command(&mut state, &mut totals, 0x30, 0x0020), Err(Refusal::UnsoundState));
    assert_eq!(dfb::read(&state, 0x30), Ok(0x0120));
    assert_eq!(state, before);
    state[8] = 0;
    assert_eq!(dfb::tick(&mut state, &mut totals, &powers, &mut out), Ok(dfb::Tick::Idle));
}

/// Ticket 2: V_B1 has V1B1 to V6B1 and then VDC_AVG; a log made with six words may end in refusal 5.
#[test]
fn seven_words_in_v_b1() {
    let samples = [1, 2, 3, 4, 5, 6, -7];
    let mut bytes = [0; 21];
    assert_eq!(dfb::pack(0x47, &samples, &mut bytes), Ok(21));
    assert_eq!(bytes[15..], [0x47, 0x00, 0x06, 0x47, 0xFF, 0xF9]);
    assert_eq!(dfb::pack(0x47, &samples[..6], &mut bytes), Err(dfb::Refusal::WrongLength));
    let mut unpacked = [0; 7];
    assert_eq!(dfb::unpack(0x47, &bytes, &mut unpacked), Ok(7));
    assert_eq!(unpacked, samples);
    assert_eq!(dfb::unpack(0x47, &bytes[..18], &mut unpacked), Err(dfb::Refusal::WrongLength));

    let six: Vec<u8> = (1..=6).flat_map(|sample| [2, 0x47, 0, sample]).collect();
    let listed = |log: Vec<u8>| {
        let mut out = [0; 2000];
        let count = dfb::listing(&log, &mut out).unwrap();
        String::from_utf8(out[..count].to_vec()).unwrap()
    };
    assert_eq!(listed([&six[..], &[4]].concat()), "DFB LOG 1\nBAD 5 24\n");
    assert_eq!(listed(six.clone()), "DFB LOG 1\nBAD 5 24\n");
    assert_eq!(listed([&six[..], &six, &[4]].concat()), "DFB LOG 1\nW 47 1 2 3 4 5 6 1\nBAD 5 48\n");
}

#[test]
fn whole_case() {
    let log = b"\x01\x30\x00\xE3\x02\x43\x00\x01\x02\x43\xFF\xFF\x02\x43\x80\x00\x03\x00\x00\x00\x07\x04";
    let mut out = [0; 200];
    let count = dfb::listing(log, &mut out).unwrap();
    assert_eq!(out[..count], *b"DFB LOG 1\nC 30 0063\nW 43 1 -1 -32768\nS 7\nT\nEND 6\n");
    let mut at = 0;
    for expected in [[1, 0x30, 0x00E3], [2, 0x43, 1], [2, 0x43, 0xFFFF], [2, 0x43, 0x8000], [3, 0, 7], [4, 0, 0], [0, 0, 0]] {
        let mut record = [9; 3];
        at = dfb::read_record(log, at, &mut record).unwrap();
        assert_eq!(record, expected);
    }
    assert_eq!(at, log.len());
    let count = dfb::listing(b"", &mut out).unwrap();
    assert_eq!(out[..count], *b"DFB LOG 1\nEND 0\n");
}
