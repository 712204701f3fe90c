//! Lists of commands, reads and ticks.
use crate::model::{self, Answer, Board, Settings, BINS, POWERS, PROCESSORS, SLOTS, STATE, TOTALS};
use crate::numbered;
use crate::random::{seeds, Buffer, Random};

/// The caller's memory beside the model.
pub struct Pair {
    state: Buffer<u16>,
    totals: Buffer<u64>,
    board: Board,
}

impl Pair {
    pub fn new(r: &mut Random, board: Board) -> Pair {
        Pair { state: Buffer::new(&board.state(), || r.next() as u16), totals: Buffer::new(&board.totals(), || r.next()), board }
    }

    pub fn command(&mut self, id: u8, information: u16) -> Answer<u16> {
        let (mut state, mut totals) = (self.state.clone(), self.totals.clone());
        let answer = numbered(dfb::command(state.list(), totals.list(), id, information));
        assert_eq!(answer, self.board.command(STATE, TOTALS, id, information));
        self.keep(state, totals);
        answer
    }

    fn read(&mut self, id: u8) {
        let mut state = self.state.clone();
        assert_eq!(numbered(dfb::read(state.list(), id)), model::read(&self.board.state(), id));
        assert_eq!(state, self.state);
    }

    pub fn tick(&mut self, powers: &[u32], out: &mut Buffer<u8>) -> Answer<dfb::Tick> {
        let (mut state, mut totals, before) = (self.state.clone(), self.totals.clone(), out.clone());
        let mut lent = Buffer::lent(powers);
        let settings = self.board.settings();
        let answer = numbered(dfb::tick(state.list(), totals.list(), lent.list(), out.list()));
        assert!(lent == Buffer::lent(powers));
        let expected = self.board.tick(STATE, TOTALS, powers, out.list().len());
        compare_tick(answer, expected, &settings, &before, out);
        self.keep(state, totals);
        answer
    }

    /// Takes the memory that a call left, in which nothing but the state and the totals may differ.
    fn keep(&mut self, state: Buffer<u16>, totals: Buffer<u64>) {
        assert_eq!(state, self.state.with(0, &self.board.state()));
        assert_eq!(totals, self.totals.with(0, &self.board.totals()));
        (self.state, self.totals) = (state, totals);
    }

    /// A call with a list of a wrong length, which changes nothing.
    fn wrong_length(&mut self, r: &mut Random, powers: &[u32]) {
        let mut lengths = [STATE, TOTALS, POWERS, 1176 + r.below(100)];
        for _ in 0..1 + r.below(2) {
            let list = r.below(4);
            lengths[list] = wrong_length(r, list);
        }
        let mut state = resized(self.state.list(), lengths[0], || r.next() as u16);
        let mut totals = resized(self.totals.list(), lengths[1], || r.next());
        let mut powers = resized(powers, lengths[2], || r.next() as u32);
        let mut out = Buffer::of_length(lengths[3], || r.next() as u8);
        let before = (state.clone(), totals.clone(), powers.clone(), out.clone());
        let answer = numbered(dfb::tick(state.list(), totals.list(), powers.list(), out.list()));
        assert_eq!(answer, Err(2));
        assert_eq!(self.board.tick(lengths[0], lengths[1], powers.list(), lengths[3]), Err(2));

        let (id, information) = (r.pick(&[0x30, 0x31, 0x36, 0x2F, 0x37]), r.next() as u16);
        if lengths[0] != STATE || lengths[1] != TOTALS {
            assert_eq!(numbered(dfb::command(state.list(), totals.list(), id, information)), Err(2));
            assert_eq!(self.board.command(lengths[0], lengths[1], id, information), Err(2));
        }
        if lengths[0] != STATE {
            assert_eq!(numbered(dfb::read(state.list(), id)), Err(2));
            assert_eq!(model::read(state.list(), id), Err(2));
        }
        assert_eq!((state, totals, powers, out), before);
        self.keep(self.state.clone(), self.totals.clone());
    }
}

fn wrong_length(r: &mut Random, list: usize) -> usize {
    match list {
        0 => r.pick(&[0, 1, 7, 8, 10, 64]),
        1 => r.pick(&[0, 1, 112, 783, 785]),
        2 => r.pick(&[0, 1, 1024, 7167, 7169]),
        _ => r.pick(&[0, 1, 54, 1175]),
    }
}

/// The list with another length.
fn resized<T: Copy>(list: &[T], length: usize, mut random: impl FnMut() -> T) -> Buffer<T> {
    let mut contents = list.to_vec();
    contents.resize_with(length, &mut random);
    Buffer::new(&contents, random)
}

/// Compares a tick's answer and output, and checks demand 3's bounds on a report.
fn compare_tick(answer: Answer<dfb::Tick>, expected: Answer<model::Tick>, settings: &Settings, before: &Buffer<u8>, out: &mut Buffer<u8>) {
    let simple = match expected {
        Ok(model::Tick::Reported(report)) => {
            assert_eq!(answer, Ok(dfb::Tick::Reported(dfb::Report { words: report.bytes.len() / 3, number: report.number })));
            assert_eq!(*out, before.with(0, &report.bytes));
            check_bounds(settings, &report.totals, out.list());
            return;
        }
        Ok(model::Tick::Idle) => Ok(dfb::Tick::Idle),
        Ok(model::Tick::Collected) => Ok(dfb::Tick::Collected),
        Ok(model::Tick::Waiting) => Ok(dfb::Tick::Waiting),
        Err(refusal) => Err(refusal),
    };
    assert_eq!(answer, simple);
    assert_eq!(out, before);
}

/// The code of a band in the bytes of a report: word j has band 2j + 1 in bits 15:8 and band 2j in bits 7:0.
fn code_at(bytes: &[u8], bands: usize, place: usize, band: usize) -> u8 {
    let word = &bytes[3 * (place * bands / 2 + band / 2)..][..3];
    if band % 2 == 1 {
        word[1]
    } else {
        word[2]
    }
}

/// The printed values of a report, by enabled processor and band.
fn printed_values(settings: &Settings, bytes: &[u8]) -> Vec<Vec<u64>> {
    let bands = settings.bands().count;
    let value = |place, band| dfb::expand_band(code_at(bytes, bands, place, band)).unwrap();
    (0..settings.enabled.len()).map(|place| (0..bands).map(|band| value(place, band)).collect()).collect()
}

fn check_bounds(settings: &Settings, totals: &[Vec<u128>], bytes: &[u8]) {
    for (values, totals) in printed_values(settings, bytes).iter().zip(totals) {
        for (band, (&value, &total)) in values.iter().zip(totals).enumerate() {
            let divisor = settings.averaged as u128 * settings.bands().bins[band].len() as u128;
            assert!(model::is_within_bounds(total, divisor, value as u128), "band {band}: total {total}, printed {value}");
        }
    }
}

// ---- random inputs ----

/// Information that often leaves the board running with a short period.
fn random_information(r: &mut Random) -> u16 {
    if r.percent(20) {
        return r.next() as u16;
    }
    let navg = r.pick(&[0, 0, 1, 1, 2, 3, 4]);
    let ncad = navg + r.pick(&[0, 0, 0, 1, 2]);
    let enable = if r.percent(85) { 0x20 } else { 0 };
    (ncad << 12 | navg << 8 | r.below(4) << 6 | enable | r.below(32)) as u16
}

pub fn random_powers(r: &mut Random) -> Vec<u32> {
    let mut powers: Vec<u32> = match r.below(6) {
        0 => vec![u32::MAX; POWERS],
        1 => vec![0; POWERS],
        2 => (0..POWERS).map(|_| r.below(20) as u32).collect(),
        3 => (0..POWERS).map(|_| r.next() as u32).collect(),
        4 => (0..POWERS).map(|_| (r.any_size() >> 32) as u32).collect(),
        _ => {
            let level = (r.any_size() >> 32) as u32;
            (0..POWERS).map(|_| level ^ (r.below(4) as u32)).collect()
        }
    };
    for _ in 0..r.below(4) {
        powers[r.below(POWERS)] = r.pick(&[0, 1, u32::MAX]);
    }
    powers
}

pub fn random_out(r: &mut Random) -> Buffer<u8> {
    let length = 1176 + r.pick(&[0, 0, 1, 2, 3, 200]);
    Buffer::of_length(length, || r.next() as u8)
}

/// Registers that writes store, running more often than not.
fn random_registers(r: &mut Random) -> [u16; PROCESSORS] {
    let many = r.percent(50);
    std::array::from_fn(|n| {
        let mut information = random_information(r);
        if n > 0 && !many {
            information &= !0x20;
        }
        model::stored(0x30 + n as u8, information).unwrap()
    })
}

/// Makes a random call; whether it reported.
fn random_call(r: &mut Random, pair: &mut Pair) -> bool {
    match r.below(20) {
        0 => {
            let (id, information) = (0x30 + r.pick(&[0, 0, 0, 1, 2, 3, 4, 5, 6]), random_information(r));
            pair.command(id, information).unwrap();
        }
        1 => assert_eq!(pair.command(r.pick(&[0x00, 0x2F, 0x37, 0xFF]), r.next() as u16), Err(1)),
        2 => pair.read(r.next() as u8),
        3 => pair.read(0x30 + r.below(7) as u8),
        4 => {
            let powers = random_powers(r);
            pair.wrong_length(r, &powers);
        }
        _ => {
            let (powers, mut out) = (random_powers(r), random_out(r));
            return matches!(pair.tick(&powers, &mut out), Ok(dfb::Tick::Reported(_)));
        }
    }
    false
}

/// Runs a list of random calls; the number of reports.
fn run_list(r: &mut Random, board: Board, calls: usize) -> usize {
    let mut pair = Pair::new(r, board);
    (0..calls).filter(|_| random_call(r, &mut pair)).count()
}

// ---- tests ----

#[test]
fn lists_from_reset() {
    let mut reports = 0;
    for seed in seeds(150) {
        let mut r = Random::new(seed);
        let calls = r.pick(&[1, 3, 10, 30, 60, 200]);
        reports += run_list(&mut r, Board::reset(), calls);
    }
    assert!(reports > 500, "only {reports} reports");
}

#[test]
fn lists_from_any_sound_registers() {
    let mut reports = 0;
    for seed in seeds(150) {
        let mut r = Random::new(1 << 32 | seed);
        let state = random_state(&mut r, 0);
        let calls = r.pick(&[1, 10, 40, 120]);
        reports += run_list(&mut r, Board::begin(&state, &[0; TOTALS]).unwrap(), calls);
    }
    assert!(reports > 500, "only {reports} reports");
}

/// A sound state of random registers at a phase, if they are running: then with any number of reports, often one of the last.
fn random_state(r: &mut Random, phase: u16) -> Vec<u16> {
    let registers = random_registers(r);
    let any = r.next() as u16;
    let number = r.pick(&[0, 0, 1, 2, 65532, 65533, 65534, 65535, any]);
    let settings = Settings::of(&registers);
    let rest = if settings.is_running() { [phase % settings.period as u16, number] } else { [0, 0] };
    [&registers[..], &rest].concat()
}

/// A sound state, running ones within their period, with totals up to the largest that are sound.
pub fn random_memory(r: &mut Random) -> (Vec<u16>, Vec<u64>) {
    let phase = r.next() as u16;
    let state = random_state(r, phase);
    let settings = Settings::of(&state);
    let mut totals = vec![0; TOTALS];
    if settings.is_running() {
        let phase = state[7];
        let style = r.below(3);
        for (slot, total) in totals.iter_mut().enumerate() {
            let largest = model::largest_total(&settings, phase as u64, slot / SLOTS, slot % SLOTS) as u64;
            *total = match style {
                0 => largest,
                1 => 0,
                _ => r.next() % (largest + 1),
            };
        }
    }
    (state, totals)
}

/// One small change, after which the state is often not sound.
pub fn damage(r: &mut Random, state: &mut [u16], totals: &mut [u64]) {
    let settings = Settings::of(state);
    let slot = r.below(TOTALS);
    match r.below(8) {
        0 => state[r.below(7)] ^= 1 << r.below(16),
        1 => state[7] = r.pick(&[0, 1, settings.averaged as u16, settings.period as u16, settings.period as u16 + 1, u16::MAX]),
        2 => totals[slot] = totals[slot].wrapping_add(1),
        3 => totals[slot] = r.any_size(),
        4 => totals[r.pick(&[0, 35, 36, 63, 64, 111, 112, 671, 672, 783])] += 1,
        5 => state[r.below(7)] = r.next() as u16,
        6 => state[8] = r.pick(&[0, 1, 65534, 65535]),
        _ => state[r.below(7)] ^= 0x20,
    }
}

#[test]
fn single_calls_and_lists_from_damaged_memory() {
    let mut sound = 0;
    let mut unsound = 0;
    for seed in seeds(3000) {
        let mut r = Random::new(2 << 32 | seed);
        let (mut state, mut totals) = random_memory(&mut r);
        assert!(model::is_sound(&state, &totals));
        for _ in 0..r.below(3) {
            damage(&mut r, &mut state, &mut totals);
        }
        match Board::begin(&state, &totals) {
            Ok(board) => {
                sound += 1;
                let calls = r.pick(&[1, 2, 5, 20]);
                run_list(&mut r, board, calls);
            }
            Err(_) => {
                unsound += 1;
                refuse_unsound(&mut r, &state, &totals);
            }
        }
    }
    assert!(sound > 500 && unsound > 500, "{sound} sound, {unsound} not");
}

/// Every call but some reads is refused, and nothing changes.
fn refuse_unsound(r: &mut Random, state: &[u16], totals: &[u64]) {
    let mut state = Buffer::new(state, || r.next() as u16);
    let mut totals = Buffer::new(totals, || r.next());
    let mut powers = Buffer::of_length(POWERS, || r.next() as u32);
    let mut out = random_out(r);
    let before = (state.clone(), totals.clone(), powers.clone(), out.clone());
    assert_eq!(numbered(dfb::tick(state.list(), totals.list(), powers.list(), out.list())), Err(3));
    assert_eq!(numbered(dfb::tick(state.list(), totals.list(), &powers.list()[1..], out.list())), Err(2));
    assert_eq!(numbered(dfb::tick(state.list(), totals.list(), powers.list(), &mut out.list()[..1175])), Err(2));
    for id in [0x2F, 0x30, 0x31, 0x36, 0x37] {
        let information = r.next() as u16;
        assert_eq!(numbered(dfb::command(state.list(), totals.list(), id, information)), Err(3));
        assert_eq!(numbered(dfb::command(state.list(), &mut totals.list()[1..], id, information)), Err(2));
        assert_eq!(numbered(dfb::read(state.list(), id)), model::read(state.list(), id));
    }
    assert_eq!((state, totals, powers, out), before);
}

/// Each slot at its largest sound total and one above it, at every bin setting and some phases of some periods, the reporting ones too.
#[test]
fn limits_of_every_slot() {
    for setting in 0..3 {
        for (navg, ncad, phase) in [(0, 1, 0), (0, 1, 1), (2, 3, 1), (2, 3, 3), (2, 3, 4), (2, 3, 7), (10, 10, 1023)] {
            let state = [ncad << 12 | navg << 8 | setting << 6 | 0x20, 0, 0x36, 0, 0, 0, 0x20, phase, 65535 - phase];
            let settings = Settings::of(&state);
            let largest = |slot: usize| model::largest_total(&settings, phase as u64, slot / SLOTS, slot % SLOTS) as u64;
            let totals: Vec<u64> = (0..TOTALS).map(largest).collect();
            let powers = vec![u32::MAX; POWERS];
            let mut r = Random::new(phase as u64);
            let mut pair = Pair::new(&mut r, Board::begin(&state, &totals).unwrap());
            let mut out = random_out(&mut r);
            for slot in 0..TOTALS {
                let mut memory = (pair.state.clone(), pair.totals.with(slot, &[totals[slot] + 1]), out.clone());
                let before = memory.clone();
                let answer = numbered(dfb::tick(memory.0.list(), memory.1.list(), &powers, memory.2.list()));
                assert_eq!((answer, memory), (Err(3), before), "slot {slot}");
            }
            pair.tick(&powers, &mut out).unwrap();
        }
    }
}

/// Every value of every register: sound exactly where a write stores it.
#[test]
fn soundness_of_every_register() {
    let mut state = Buffer::lent(&[0; STATE]);
    for n in 0..PROCESSORS {
        for value in 0..=0xFFFF {
            state.list()[n] = value;
            let (mut lent, id) = (state.clone(), 0x30 + n as u8);
            assert_eq!(numbered(dfb::read(lent.list(), id)), model::read(state.list(), id));
            assert_eq!(lent, state);
        }
        state.list()[n] = 0;
    }
}

/// Every information to every register, each with a number of reports where the board is running.
#[test]
fn every_command() {
    let (mut state, mut totals) = (Buffer::lent(&[0; STATE]), Buffer::lent(&[0; TOTALS]));
    let (mut expected, zeros) = (state.clone(), totals.clone());
    for id in 0x30..=0x36 {
        for information in (0..=0xFFFF).chain([0]) {
            if Settings::of(state.list()).is_running() {
                state.list()[8] = information | 1;
            }
            let value = model::stored(id, information);
            expected.list()[id as usize - 0x30] = value.unwrap();
            assert_eq!(numbered(dfb::command(state.list(), totals.list(), id, information)), value);
            assert!(state == expected && totals == zeros, "ID {id}, information {information}");
            assert_eq!(numbered(dfb::read(state.list(), id)), value);
            assert_eq!(numbered(dfb::command(state.list(), totals.list(), id, value.unwrap())), value);
            assert!(state == expected && totals == zeros, "ID {id}, information {information}");
        }
    }
    for id in 0..=0xFF {
        assert_eq!(numbered(dfb::command(state.list(), totals.list(), id, 0)), model::stored(id, 0));
        assert!(state == expected && totals == zeros, "ID {id}");
    }
}

/// The longest period, N = C = 1024, with the largest powers for all processors and then with random ones. The plain book sums all its
/// spectra for the report; beside it a board that begins anew with each tick has the totals so far.
#[test]
fn longest_periods() {
    for setting in 0..3 {
        let mut r = Random::new(3 << 32 | setting);
        let mut pair = Pair::new(&mut r, Board::reset());
        pair.command(0x30, 0xAA20 | (setting as u16) << 6).unwrap();
        for id in 0x31..=0x36 {
            pair.command(id, 0x20).unwrap();
        }
        let mut book = pair.board.clone();
        for _ in 0..1024 {
            let powers = if setting == 0 { vec![u32::MAX; POWERS] } else { random_powers(&mut r) };
            let mut out = random_out(&mut r);
            let (before, settings) = (out.clone(), book.settings());
            let answer = pair.tick(&powers, &mut out);
            compare_tick(answer, book.tick(STATE, TOTALS, &powers, 1176), &settings, &before, &mut out);
            pair.board = Board::begin(&pair.board.state(), &pair.board.totals()).unwrap();
        }
        assert_eq!((book.phase, book.state(), book.totals()), (0, pair.board.state(), pair.board.totals()));
    }
}

/// No answer, state or byte depends on the rows of disabled processors.
#[test]
fn rows_of_disabled_processors() {
    for seed in seeds(100) {
        let mut r = Random::new(4 << 32 | seed);
        let board = Board::begin(&random_state(&mut r, 0), &[0; TOTALS]).unwrap();
        let enabled = board.settings().enabled;
        let (mut pair, mut other) = (Pair::new(&mut r, board.clone()), Pair::new(&mut r, board));
        for _ in 0..20 {
            let (powers, mut out) = (random_powers(&mut r), random_out(&mut r));
            let (mut other_powers, mut other_out) = (random_powers(&mut r), out.clone());
            for &n in &enabled {
                other_powers[n * BINS..][..BINS].copy_from_slice(&powers[n * BINS..][..BINS]);
            }
            assert_eq!(pair.tick(&powers, &mut out), other.tick(&other_powers, &mut other_out));
            assert_eq!((pair.state.list(), pair.totals.list(), out), (other.state.list(), other.totals.list(), other_out));
        }
    }
}

/// Demand 3: larger powers never print smaller values.
#[test]
fn larger_powers() {
    for seed in seeds(150) {
        let mut r = Random::new(5 << 32 | seed);
        let board = Board::begin(&random_state(&mut r, 0), &[0; TOTALS]).unwrap();
        let settings = board.settings();
        if !settings.is_running() || settings.averaged > 32 {
            continue;
        }
        let (mut smaller, mut larger) = (Pair::new(&mut r, board.clone()), Pair::new(&mut r, board));
        for _ in 0..settings.averaged {
            let powers = random_powers(&mut r);
            let more: Vec<u32> = powers.iter().map(|&power| power.saturating_add(r.pick(&[0, 0, 1, 1000, u32::MAX]))).collect();
            let (mut less_out, mut more_out) = (random_out(&mut r), random_out(&mut r));
            let answer = smaller.tick(&powers, &mut less_out);
            assert_eq!(larger.tick(&more, &mut more_out), answer);
            if let Ok(dfb::Tick::Reported(_)) = answer {
                let (less, more) = (printed_values(&settings, less_out.list()), printed_values(&settings, more_out.list()));
                assert!(less.iter().flatten().zip(more.iter().flatten()).all(|(less, more)| less <= more));
            }
        }
    }
}

/// 02, ticket 13: the last numbers, with commands that are refused in between.
#[test]
fn last_numbers() {
    let mut stayed = 0;
    for seed in seeds(150) {
        let mut r = Random::new(7 << 32 | seed);
        let mut state = random_state(&mut r, 0);
        if !Settings::of(&state).is_running() {
            continue;
        }
        state[8] = 65535 - r.below(4) as u16;
        let mut pair = Pair::new(&mut r, Board::begin(&state, &[0; TOTALS]).unwrap());
        for _ in 0..40 {
            if r.percent(20) {
                assert_eq!(pair.command(r.pick(&[0x2F, 0x37]), 0), Err(1));
            }
            let (powers, mut out) = (random_powers(&mut r), random_out(&mut r));
            if let Ok(dfb::Tick::Reported(report)) = pair.tick(&powers, &mut out) {
                stayed += (report.number == 65535) as usize;
            }
        }
    }
    assert!(stayed > 200, "only {stayed} reports have the last number");
}

/// The methods of a board from reset, beside the functions on memory of the caller, and so beside the model.
#[test]
fn methods_of_a_board() {
    let mut reports = 0;
    for seed in seeds(150) {
        let mut r = Random::new(6 << 32 | seed);
        let (mut methods, mut pair) = (dfb::Board::reset(), Pair::new(&mut r, Board::reset()));
        for _ in 0..r.pick(&[1, 10, 40, 120]) {
            let before = methods.clone();
            let is_refused = match r.below(10) {
                0 | 1 => {
                    let id = r.pick(&[0x2F, 0x30, 0x30, 0x30, 0x31, 0x32, 0x33, 0x34, 0x35, 0x36, 0x37]);
                    let information = random_information(&mut r);
                    let answer = numbered(methods.command(id, information));
                    assert_eq!(answer, pair.command(id, information));
                    answer.is_err()
                }
                2 => {
                    let (powers_len, out_len) = r.pick(&[(POWERS - 1, 1176), (POWERS + 1, 1176), (POWERS, 1175), (0, 0)]);
                    let mut out = Buffer::of_length(out_len, || r.next() as u8);
                    let out_before = out.clone();
                    assert_eq!(numbered(methods.tick(&vec![1; powers_len], out.list())), Err(2));
                    assert_eq!(out, out_before);
                    true
                }
                _ => {
                    let (powers, mut out) = (random_powers(&mut r), random_out(&mut r));
                    let mut expected = out.clone();
                    let answer = numbered(methods.tick(&powers, out.list()));
                    assert_eq!(answer, pair.tick(&powers, &mut expected));
                    assert_eq!(out, expected);
                    reports += matches!(answer, Ok(dfb::Tick::Reported(_))) as usize;
                    answer.is_err()
                }
            };
            if is_refused {
                assert!(methods == before);
            }
            for id in (0x2F..=0x37).chain([r.next() as u8]) {
                assert_eq!(numbered(methods.read(id)), model::read(&pair.board.state(), id));
            }
        }
    }
    assert!(reports > 500, "only {reports} reports");
}
