//! Summed spectra (paper 02, ticket 4), against a plain book that keeps the components and computes the sums anew.
use crate::implementations::{proved, Implementation};
use crate::model::Answer;
use crate::numbered;
use crate::random::{seeds, Buffer, Random};
use crate::sets::random_sample;
use crate::snapshots::every_set;
use std::collections::BTreeMap;

// ---- the model ----

const BINS: usize = 1024;
const TOTALS: usize = 2048;
const PAIRS: usize = 2048;
const OUTPUT: usize = 4096;
/// The greatest power of a pair.
const MOST_POWER: u64 = 1 << 31;

/// Whether a mask has a component.
fn has(mask: u8, component: u8) -> bool {
    mask / 2u8.pow(component.into()) % 2 == 1
}

/// The greatest sound total of a mask: 2^31 for each of its components below the next one.
fn limit(mask: u8, next: u8) -> u64 {
    (0..next.min(8)).filter(|&component| has(mask, component)).map(|_| MOST_POWER).sum()
}

/// Whether a state of three numbers and 2,048 totals are sound.
fn is_sound(state: &[u8], totals: &[u64]) -> bool {
    state[0] <= 7 && totals.chunks(BINS).zip(&state[1..]).all(|(totals, &mask)| totals.iter().all(|&total| total <= limit(mask, state[0])))
}

/// Exponent and mantissa of a sum: the first exponent from 0 upwards that leaves ten bits.
fn code(sum: u64) -> u16 {
    let e = (0..).find(|e| sum >> e < 1024).unwrap();
    e * 1024 + (sum >> e) as u16
}

/// The value of a code.
fn expanded(code: u16) -> u64 {
    (code % 1024) as u64 * 2u64.pow(code as u32 / 1024)
}

/// A plain book: the components since component 0 and the masks that came with it. A book that begins later has the totals of that moment.
#[derive(Clone)]
struct Book {
    begun: u8,
    totals: Vec<u64>,
    masks: [u8; 2],
    components: Vec<Vec<i16>>,
}

impl Book {
    fn start() -> Book {
        Book { begun: 0, totals: vec![0; TOTALS], masks: [0, 0], components: vec![] }
    }

    /// The book of a state and totals. Lists of other lengths have none: their calls are refused.
    fn of(state: &[u8], totals: &[u64]) -> Book {
        match *state {
            [begun, first, second] if totals.len() == TOTALS => {
                Book { begun, totals: totals.to_vec(), masks: [first, second], components: vec![] }
            }
            _ => Book::start(),
        }
    }

    fn next(&self) -> u8 {
        self.begun + self.components.len() as u8
    }

    fn state(&self) -> [u8; 3] {
        [self.next(), self.masks[0], self.masks[1]]
    }

    /// The sums of both masks over the components so far.
    fn sums(&self) -> Vec<u64> {
        let mut sums = self.totals.clone();
        for (component, pairs) in (self.begun..).zip(&self.components) {
            for run in (0..2).filter(|&run| has(self.masks[run], component)) {
                for k in 0..BINS {
                    let (re, im) = (pairs[2 * k] as i64, pairs[2 * k + 1] as i64);
                    sums[run * BINS + k] += (re * re + im * im) as u64;
                }
            }
        }
        sums
    }

    /// Takes a call: the sums after the eighth component, none before it.
    fn take(&mut self, call: &Call) -> Answer<Option<Vec<u64>>> {
        if call.state.len() != 3 || call.totals.len() != TOTALS || call.pairs.len() != PAIRS || call.out_len < OUTPUT {
            return Err(2);
        }
        if !is_sound(&call.state, &call.totals) {
            return Err(3);
        }
        if call.component != self.next() {
            return Err(17);
        }
        if call.component == 0 {
            self.masks = call.masks;
        }
        self.components.push(call.pairs.clone());
        if self.next() < 8 {
            return Ok(None);
        }
        let sums = self.sums();
        *self = Book { masks: self.masks, ..Book::start() };
        Ok(Some(sums))
    }
}

// ---- calls ----

/// A call: its lists, and the length of its output.
#[derive(Clone)]
pub struct Call {
    state: Vec<u8>,
    totals: Vec<u64>,
    component: u8,
    masks: [u8; 2],
    pairs: Vec<i16>,
    out_len: usize,
}

fn random_masks(r: &mut Random) -> [u8; 2] {
    let any = [r.next() as u8, r.next() as u8];
    any.map(|any| r.pick(&[0, 1, 0x80, 0xFF, any, any, any]))
}

/// Pairs of one of five kinds: all alike, with sums about 1024, of any sizes, any, and each at a limit or any.
fn random_pairs(r: &mut Random, kind: usize) -> Vec<i16> {
    let alike = r.pick(&[i16::MIN, i16::MIN, i16::MAX, -1, 0, 1]);
    let mut number = || match kind {
        0 => alike,
        1 => r.below(46) as i16 - 23,
        2 => (r.next() as i16) >> r.below(16),
        3 => r.next() as i16,
        _ => random_sample(r),
    };
    (0..PAIRS).map(|_| number()).collect()
}

/// Sound totals of a state: all 0, all at the limit, or any.
fn random_totals(r: &mut Random, state: [u8; 3]) -> Vec<u64> {
    let mut totals = vec![];
    for mask in &state[1..] {
        let most = limit(*mask, state[0]);
        let kind = r.below(4);
        totals.extend((0..BINS).map(|_| match kind {
            0 => 0,
            1 => most,
            _ => {
                let any = r.any_size() % (most + 1);
                r.pick(&[0, most, any, any])
            }
        }));
    }
    totals
}

impl Call {
    /// A call that is accepted, with any masks and totals.
    fn at(r: &mut Random, next: u8) -> Call {
        let masks = random_masks(r);
        Call::of(r, [next, masks[0], masks[1]])
    }

    /// A call that is accepted by a state, with other masks handed in.
    fn of(r: &mut Random, state: [u8; 3]) -> Call {
        let (totals, kind) = (random_totals(r, state), r.below(5));
        let pairs = random_pairs(r, kind);
        Call { state: state.to_vec(), totals, component: state[0], masks: random_masks(r), pairs, out_len: OUTPUT }
    }

    /// The limit of a total, by the state.
    fn limit(&self, place: usize) -> u64 {
        limit(self.state[1 + place / BINS], self.state[0])
    }

    /// The call in few words.
    fn name(&self) -> String {
        let Call { state, component, masks, .. } = self;
        let lengths = (self.totals.len(), self.pairs.len(), self.out_len);
        format!("state {state:02X?}, component {component}, masks {masks:02X?}, totals, pairs and output of {lengths:?}")
    }
}

// ---- comparisons ----

/// The answer in C.
fn number(answer: Answer<usize>) -> u32 {
    answer.map_or_else(|refusal| 0x10000 + refusal as u32, |bytes| bytes as u32)
}

/// The ticket's bounds: each expanded code is at most the sum, equal to it under 1024, and otherwise short by less than 1/513 of it.
fn check_bounds(sums: &[u64], bytes: &[u8]) {
    for (&sum, pair) in sums.iter().zip(bytes.chunks(2)) {
        let (code, mut value) = (pair[0] as u16 * 256 + pair[1] as u16, [0]);
        dfb::expand_sum(code, &mut value).unwrap();
        assert_eq!(value, [expanded(code)]);
        let short = sum.checked_sub(value[0]).expect("a code over its sum");
        assert!(if sum < 1024 { short == 0 } else { 513 * short < sum }, "code {code:04X} of {sum}");
    }
}

/// Compares a call with the book, refused or not: the answer and every list. The call has then the state and the totals that it left.
fn compare(r: &mut Random, implementation: &Implementation, book: &mut Book, call: &mut Call) -> Answer<usize> {
    let (mut state, mut totals, mut pairs) = (Buffer::lent(&call.state), Buffer::lent(&call.totals), Buffer::lent(&call.pairs));
    let mut out = Buffer::of_length(call.out_len, || r.next() as u8);
    let (mut lists, mut after) = ((state.clone(), totals.clone(), pairs.clone()), out.clone());
    let taken = book.take(call);
    let answer = taken.clone().map(|sums| sums.map_or(0, |_| OUTPUT));
    if answer.is_ok() {
        (lists.0, lists.1) = (state.with(0, &book.state()), totals.with(0, &book.sums()));
    }
    if let Ok(Some(sums)) = &taken {
        let bytes: Vec<u8> = sums.iter().map(|&sum| code(sum)).flat_map(|code| [(code / 256) as u8, (code % 256) as u8]).collect();
        after = out.with(0, &bytes);
    }
    let name = format!("{} of {}", implementation.name, call.name());
    let given = (implementation.sum_component)(state.list(), totals.list(), call.component, call.masks, pairs.list(), out.list());
    assert_eq!(given, number(answer), "{name}");
    if let Ok(Some(sums)) = &taken {
        check_bounds(sums, &out.list()[..OUTPUT]);
    }
    (call.state, call.totals) = (state.list().to_vec(), totals.list().to_vec());
    assert_eq!(state, lists.0, "{name}");
    assert!((totals, pairs) == (lists.1, lists.2) && out == after, "{name}");
    answer
}

/// Compares one call by its own state and totals.
pub fn compare_call(r: &mut Random, implementation: &Implementation, call: &Call) -> Answer<usize> {
    compare(r, implementation, &mut Book::of(&call.state, &call.totals), &mut call.clone())
}

/// The function of the crate.
fn of_the_crate() -> Implementation {
    Implementation {
        name: "the crate's function",
        sum_component: |state, totals, component, [first, second], pairs, out| {
            number(numbered(dfb::sum_component(state, totals, component, first, second, pairs, out)))
        },
        ..proved()
    }
}

/// Compares one call of the library, through C's function and through the crate's.
fn call_both(r: &mut Random, call: &Call) -> Answer<usize> {
    let answer = compare_call(r, &proved(), call);
    assert_eq!(compare_call(r, &of_the_crate(), call), answer);
    answer
}

// ---- faults ----

/// Another number than the next component.
fn wrong_component(r: &mut Random, next: u8) -> u8 {
    let any = r.next() as u8;
    let wrong = r.pick(&[next.wrapping_add(1), next.wrapping_sub(1), next + 8, next ^ 0x80, 0, 7, 8, 0xFF, any]);
    if wrong == next {
        next ^ 1
    } else {
        wrong
    }
}

/// Gives one list of a call a length that is refused.
fn damage_length(r: &mut Random, call: &mut Call) {
    let wrong = r.pick(&[0, 1, 1023, 1024, 2046, 2047, 2049, 2050, 4096]);
    match r.below(4) {
        0 => {
            let wrong = r.pick(&[0, 1, 2, 4, 5, 9]);
            call.state.resize_with(wrong, || r.next() as u8);
        }
        1 => call.totals.resize_with(wrong, || r.pick(&[0, 1, MOST_POWER, u64::MAX])),
        2 => call.pairs.resize_with(wrong, || r.next() as i16),
        _ => call.out_len = r.pick(&[0, 1, 2047, 2048, 4094, 4095]),
    }
}

/// Changes one thing of a call, mostly to one that is refused.
fn damage(r: &mut Random, call: &mut Call) {
    match r.below(8) {
        0 | 1 => damage_length(r, call),
        2 | 3 => {
            let next = call.state.first().map_or(0, |next| next % 8);
            call.component = wrong_component(r, next);
        }
        4 if call.state.len() == 3 => {
            let any = r.next() as u8;
            call.state[0] = r.pick(&[0, 1, 6, 7, 8, 9, 15, 16, 31, 32, 33, 63, 64, 65, 0x80, 0xFE, 0xFF, any]);
            if r.percent(50) {
                call.component = call.state[0];
            }
        }
        _ if call.state.len() == 3 && call.totals.len() == TOTALS => {
            let any = r.below(TOTALS);
            let place = r.pick(&[0, 1, 1022, 1023, 1024, 1025, 2046, 2047, any, any, any]);
            let most = call.limit(place);
            let bit = 1 << r.below(64);
            call.totals[place] = r.pick(&[most, most + 1, most + 1, most + MOST_POWER, most ^ bit, most + (1 << 32), 1 << 63, u64::MAX]);
        }
        _ => {}
    }
}

/// Calls with every set of faults at each component, and the refusal of each.
pub fn faulty_calls(mut take: impl FnMut(&Call, Option<u8>)) {
    let mut r = Random::new(1 << 32);
    for next in 0..8 {
        for _ in 0..4 {
            let (whole, any) = (Call::at(&mut r, next), r.below(TOTALS));
            let (state_len, room) = (r.pick(&[0, 2, 4]), r.pick(&[0, 2048, 4095]));
            let (totals_len, pairs_len) = (r.pick(&[0, 1024, 2047, 2049]), r.pick(&[0, 1024, 2047, 2049]));
            let (over, place) = (r.pick(&[8, 9, 0x80, 0xFF]), r.pick(&[0, 1023, 1024, 2047, any]));
            let (total, component) = (r.pick(&[whole.limit(place) + 1, 1 << 63, u64::MAX]), wrong_component(&mut r, next));
            every_set(
                &whole,
                &[
                    (2, &|call| call.state.resize(state_len, 0)),
                    (2, &|call| call.totals.resize(totals_len, 0)),
                    (2, &|call| call.pairs.resize(pairs_len, 0)),
                    (2, &|call| call.out_len = room),
                    (3, &|call| call.state[0] = over),
                    (3, &|call| call.totals[place] = total),
                    (17, &|call| call.component = component),
                ],
                &mut take,
            );
        }
    }
}

/// A call with any state and totals, longer output, and up to three faults by chance: how often each refusal comes.
pub fn compare_any(r: &mut Random, implementation: &Implementation, refusals: &mut BTreeMap<u8, usize>) {
    let next = r.below(8) as u8;
    let mut call = Call::at(r, next);
    call.out_len += r.pick(&[0, 0, 1, 15, 4096]);
    for _ in 0..r.below(4) {
        damage(r, &mut call);
    }
    let answer = compare_call(r, implementation, &call);
    *refusals.entry(answer.err().unwrap_or(0)).or_insert(0) += 1;
}

/// Rounds of eight components from the start, with refused calls among them; each call is given what the one before left. `run` makes a call.
fn history(r: &mut Random, rounds: usize, mut run: impl FnMut(&mut Random, &mut Book, &mut Call) -> Answer<usize>) {
    let (mut book, mut state, mut totals) = (Book::start(), vec![0; 3], vec![0; TOTALS]);
    for _ in 0..rounds {
        let kind = r.below(8);
        for component in 0..8 {
            let kind = if kind < 5 { kind } else { r.below(5) };
            let (pairs, masks, out_len) = (random_pairs(r, kind), random_masks(r), OUTPUT + r.pick(&[0, 0, 1, 100]));
            let mut call = Call { state, totals, component, masks, pairs, out_len };
            while r.percent(30) {
                let (mut refused, faults) = (call.clone(), r.below(3));
                if faults != 0 {
                    refused.component = wrong_component(r, component);
                }
                if faults != 1 {
                    damage_length(r, &mut refused);
                }
                refused.masks = random_masks(r);
                assert_eq!(run(r, &mut book, &mut refused), Err(if faults == 1 { 17 } else { 2 }));
            }
            assert_eq!(run(r, &mut book, &mut call), Ok(if component == 7 { OUTPUT } else { 0 }));
            (state, totals) = (call.state, call.totals);
        }
    }
}

/// A history of an implementation.
pub fn compare_history(r: &mut Random, implementation: &Implementation, rounds: usize) {
    history(r, rounds, |r, book, call| compare(r, implementation, book, call));
}

/// Compares a round of eight accepted components, with other masks handed in after the first: the bytes written.
fn round(r: &mut Random, masks: [u8; 2], pairs_of: impl Fn(u8) -> Vec<i16>) -> Vec<u8> {
    let (mut book, mut sum, mut out) = (Book::start(), dfb::Summed::start(), vec![0; OUTPUT]);
    let mut call = Call { state: vec![0; 3], totals: vec![0; TOTALS], component: 0, masks, pairs: vec![], out_len: OUTPUT };
    for component in 0..8 {
        (call.component, call.pairs) = (component, pairs_of(component));
        let answer = Ok(if component == 7 { OUTPUT } else { 0 });
        assert_eq!(compare(r, &proved(), &mut book, &mut call), answer);
        assert_eq!(numbered(sum.add(component, call.masks[0], call.masks[1], &call.pairs, &mut out)), answer);
        call.masks = random_masks(r);
    }
    assert!(sum.next_component() == 0 && sum.masks() == (masks[0], masks[1]) && *sum.totals() == [0; TOTALS]);
    out
}

// ---- tests ----

/// Sums worked out by hand, and the constants.
#[test]
fn by_hand() {
    assert_eq!((dfb::SUM_COMPONENTS, dfb::SUM_BINS, dfb::SUM_STATE), (8, BINS, 3));
    assert_eq!((dfb::SUM_TOTALS, dfb::SUM_PAIRS, dfb::SUM_OUTPUT), (TOTALS, PAIRS, OUTPUT));
    let (mut state, mut totals, mut out) = ([0; 3], [0; TOTALS], [0xA5; OUTPUT + 1]);
    let mut pairs = [0; PAIRS];
    (pairs[0], pairs[1]) = (3, -4); // 25 in bin 0
    (pairs[2], pairs[3]) = (-32768, -32768); // 2^31 in bin 1
    (pairs[4], pairs[5]) = (0, 32); // 1024 in bin 2
    (pairs[2046], pairs[2047]) = (-32768, 32767); // 2^31 - 65535 in bin 1023
    for component in 0..8 {
        // masks 0x00 and 0xFF after the first are not looked at
        let masks = if component == 0 { [0xFF, 0x81] } else { [0x00, 0xFF] };
        let answer = (proved().sum_component)(&mut state, &mut totals, component, masks, &pairs, &mut out);
        if component < 7 {
            assert_eq!((answer, state), (0, [component + 1, 0xFF, 0x81]));
            let counted = component as u64 + 1;
            assert_eq!(totals[..4], [25 * counted, counted << 31, 1024 * counted, 0]);
            assert_eq!(totals[1023..1027], [2_147_418_113 * counted, 25, 1 << 31, 1024]);
            assert_eq!(totals[2047], 2_147_418_113);
            assert_eq!(out, [0xA5; OUTPUT + 1]);
        } else {
            assert_eq!((answer, state, totals), (4096, [0, 0xFF, 0x81], [0; TOTALS]));
        }
    }
    assert_eq!(out[..8], [0, 200, 0x66, 0x00, 0x12, 0x00, 0, 0]); // 200; 2^34 = 512 * 2^25; 8192 = 512 * 2^4
    assert_eq!(out[2046..2056], [0x63, 0xFF, 0, 50, 0x5E, 0x00, 0x0A, 0x00, 0, 0]); // 2^34 - 524280 is over 1023 * 2^24; 50; 2^32; 2048
    assert_eq!(out[4094..], [0x5B, 0xFF, 0xA5]); // 2^32 - 131070 is over 1023 * 2^22
}

/// Every mask: component n has the power 4^n, so that each set of components has a sum of its own.
#[test]
fn every_mask() {
    let mut r = Random::new(2 << 32);
    for first in 0..=0xFFu8 {
        let second = first.rotate_left(3) ^ 0x5A;
        let out = round(&mut r, [first, second], |component| [0, 1 << component].repeat(BINS));
        for (mask, run) in [first, second].into_iter().zip(out.chunks(2 * BINS)) {
            let sum = (0..8).filter(|&component| has(mask, component)).map(|component| 4u64.pow(component.into())).sum();
            assert_eq!(run, [(code(sum) / 256) as u8, (code(sum) % 256) as u8].repeat(BINS));
        }
    }
}

/// The greatest powers: after each component the totals are at their limits, which are sound.
#[test]
fn greatest_powers() {
    let mut r = Random::new(3 << 32);
    for masks in [[0xFF, 0xFF], [0xFF, 0], [0x01, 0x80], [0xAA, 0x55]] {
        round(&mut r, masks, |_| vec![i16::MIN; PAIRS]);
    }
}

/// Each bin by itself: a pair of its own in it alone, the real part or the imaginary.
#[test]
fn every_bin() {
    let mut r = Random::new(4 << 32);
    for bin in 0..BINS {
        let mut call = Call::of(&mut r, [7, 0x80, 0xC1]);
        call.pairs.fill(0);
        let part = r.below(2);
        call.pairs[2 * bin + part] = r.pick(&[i16::MIN, i16::MAX, -1, 1000]);
        assert_eq!(compare_call(&mut r, &proved(), &call), Ok(OUTPUT));
    }
}

/// Codes of totals, each value under 4096 and those around each code's own, with an eighth component outside both masks.
#[test]
fn codes_of_totals() {
    let mut r = Random::new(5 << 32);
    let most = limit(0x7F, 7);
    let edges = (0..=code(most)).map(expanded).flat_map(|value| [value.saturating_sub(1), value, value + 1]);
    let values: Vec<u64> = (0..4096).chain(edges).filter(|&value| value <= most).chain([most]).collect();
    for values in values.chunks(TOTALS) {
        let mut call = Call::of(&mut r, [7, 0x7F, 0x7F]);
        call.totals[..values.len()].copy_from_slice(values);
        assert_eq!(compare_call(&mut r, &proved(), &call), Ok(OUTPUT));
    }
}

/// Every number for the component, with every next component and some that are over 7.
#[test]
fn every_component_number() {
    let mut r = Random::new(6 << 32);
    for next in (0..=9).chain([15, 16, 31, 32, 39, 63, 64, 71, 0x80, 0x87, 0xFE, 0xFF]) {
        let mut call = Call::at(&mut r, next % 8);
        call.state[0] = next;
        call.totals.fill(0);
        for component in 0..=0xFF {
            call.component = component;
            let refusal = if next > 7 { Some(3) } else { (component != next).then_some(17) };
            assert_eq!(call_both(&mut r, &call).err(), refusal);
        }
    }
}

/// Every mask of a state at every place, for both runs: all totals at the limit, and one of them over it.
#[test]
fn every_limit() {
    let mut r = Random::new(7 << 32);
    for next in 0..8 {
        for mask in 0..=0xFF {
            let other = r.next() as u8;
            for state in [[next, mask, other], [next, other, mask]] {
                let mut call = Call::of(&mut r, state);
                (0..TOTALS).for_each(|place| call.totals[place] = call.limit(place));
                assert!(compare_call(&mut r, &proved(), &call).is_ok());
                let place = r.below(BINS) + if state[1] == mask { 0 } else { BINS };
                call.totals[place] += 1;
                assert_eq!(compare_call(&mut r, &proved(), &call), Err(3));
            }
        }
    }
}

/// Each of the 2,048 totals alone over its limit, by 1 and by much, with the others sound.
#[test]
fn every_total() {
    let mut r = Random::new(8 << 32);
    for place in 0..TOTALS {
        let next = r.below(8) as u8;
        let mut call = Call::at(&mut r, next);
        let most = call.limit(place);
        call.totals[place] = most;
        assert!(compare_call(&mut r, &proved(), &call).is_ok());
        for total in [most + 1, most + (1 << 32), 1 << 63, (1 << 63) + most, u64::MAX] {
            call.totals[place] = total;
            assert_eq!(compare_call(&mut r, &proved(), &call), Err(3));
        }
    }
}

/// Before component 0 the masks of the state are not looked at: any are sound with totals of 0 alone, and those handed in are taken.
#[test]
fn masks_before_component_0() {
    let mut r = Random::new(9 << 32);
    for mask in 0..=0xFF {
        let mut call = Call::of(&mut r, [0, mask, !mask]);
        assert_eq!(call_both(&mut r, &call), Ok(0));
        call.state[2] = mask;
        assert_eq!(call_both(&mut r, &call), Ok(0));
        let place = r.below(TOTALS);
        call.totals[place] = r.pick(&[1, MOST_POWER, 1 << 63, u64::MAX]);
        assert_eq!(call_both(&mut r, &call), Err(3));
    }
}

/// Lengths at every component: each list alone of another length, those too that 8 and 16 bits would cut to the right one, and longer outputs.
#[test]
fn lengths() {
    let mut r = Random::new(10 << 32);
    for next in 0..8 {
        let whole = Call::at(&mut r, next);
        let mut compare = |change: &dyn Fn(&mut Call), is_accepted: bool| {
            let mut call = whole.clone();
            change(&mut call);
            assert_eq!(call_both(&mut r, &call).err(), (!is_accepted).then_some(2));
        };
        for length in (0..=8).chain([256, 259, 65_536, 65_539]) {
            compare(&|call| call.state.resize(length, 0), length == 3);
        }
        for length in [0, 1, 3, 256, 1023, 1024, 2046, 2047, 2048, 2049, 2304, 4096, 65_536, 67_584] {
            compare(&|call| call.totals.resize(length, 0), length == 2048);
            compare(&|call| call.pairs.resize(length, 0), length == 2048);
        }
        for length in [0, 1, 255, 2047, 2048, 4094, 4095, 4096, 4097, 4352, 5000, 8192, 65_536, 65_537, 69_631, 131_072] {
            compare(&|call| call.out_len = length, length >= 4096);
        }
    }
}

/// Every set of faults at once: the first in the order 2, 3, 17 is the answer.
#[test]
fn order_of_refusals() {
    let mut r = Random::new(11 << 32);
    faulty_calls(|call, refusal| assert_eq!(call_both(&mut r, call).err(), refusal));
}

/// Components outside both masks may hold anything: with others there, all answers, states, totals and bytes are the same.
#[test]
fn components_outside_both_masks() {
    let mut replaced = 0;
    for seed in seeds(150) {
        let mut r = Random::new(12 << 32 | seed);
        let mut sums = [dfb::Summed::start(), dfb::Summed::start()];
        for _ in 0..3 {
            let masks = random_masks(&mut r);
            for component in 0..8 {
                let kinds = [r.below(5), r.below(5)];
                let mut pairs = kinds.map(|kind| random_pairs(&mut r, kind));
                if masks.iter().any(|&mask| has(mask, component)) {
                    pairs[1] = pairs[0].clone();
                } else {
                    replaced += 1;
                }
                let out = r.bytes(OUTPUT + 3);
                let [first, second] = if component == 0 { masks } else { random_masks(&mut r) };
                let mut results = vec![];
                for (sum, pairs) in sums.iter_mut().zip(&pairs) {
                    let mut out = out.clone();
                    let answer = sum.add(component, first, second, pairs, &mut out);
                    results.push((answer, sum.clone(), out));
                }
                assert_eq!(results[0].0, Ok(if component == 7 { OUTPUT } else { 0 }));
                assert!(results[0] == results[1], "component {component} of masks {masks:02X?}");
            }
        }
    }
    assert!(replaced > 300, "{replaced}");
}

#[test]
fn histories() {
    for seed in seeds(200) {
        compare_history(&mut Random::new(13 << 32 | seed), &proved(), 5);
    }
}

/// Histories of the crate's struct, which has lists of the right lengths for state and totals, beside those of the function.
#[test]
fn histories_of_the_struct() {
    for seed in seeds(100) {
        let mut sum = dfb::Summed::start();
        history(&mut Random::new(14 << 32 | seed), 3, |r, book, call| {
            if call.state.len() != 3 || call.totals.len() != TOTALS {
                return compare(r, &of_the_crate(), book, call);
            }
            let before = sum.clone();
            let mut out = Buffer::of_length(call.out_len, || r.next() as u8);
            let untouched = out.clone();
            let answer = numbered(sum.add(call.component, call.masks[0], call.masks[1], &call.pairs, out.list()));
            assert_eq!(compare(r, &of_the_crate(), book, call), answer);
            let (first, second) = sum.masks();
            assert_eq!([sum.next_component(), first, second], call.state[..]);
            assert!(*sum.totals() == call.totals[..] && (answer.is_ok() || sum == before));
            assert_eq!(out == untouched, answer != Ok(OUTPUT));
            answer
        });
    }
}

#[test]
fn random_calls() {
    let mut refusals = BTreeMap::new();
    for seed in seeds(10_000) {
        compare_any(&mut Random::new(15 << 32 | seed), &proved(), &mut refusals);
    }
    assert_eq!(refusals.keys().copied().collect::<Vec<_>>(), [0, 2, 3, 17]);
    assert!(refusals.values().all(|&count| count > 300), "{refusals:?}");
}
