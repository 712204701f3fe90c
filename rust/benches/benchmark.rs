//! Nanoseconds of tick, coarse totals, listing, check of a command list, pack, snapshot packets read and written, components of summed
//! spectra, space packets exported and imported, and a day's log with counts, without them, and counted by the walk: the proved library beside
//! plain C and plain Rust, which make the same checks, in one run on the same inputs. Each figure is the best of many rounds (DFB_ROUNDS, 60
//! unless set; a third of them for the day's log). Before a row is timed, all must agree.
#[path = "../../bench/implementations.rs"]
mod implementations;
#[path = "../tests/differential/model.rs"]
#[allow(dead_code)]
mod model;
#[path = "../../bench/plain.rs"]
mod plain_rust;
#[path = "../tests/differential/random.rs"]
#[allow(dead_code)]
mod random;

use implementations::{Call, Implementation};
use random::Random;
use std::hint::black_box;
use std::time::Instant;

const TICKS: usize = 168;
const LISTINGS: usize = 4;
const CHECKS: usize = 4;
const PACKS: usize = 4000;
const CONVERSIONS: usize = 4000;
const PACKETS: usize = 1000;
const COMPONENTS: usize = 400;

/// Spectra that the ticks take in turn.
struct Spectra(Vec<Vec<u32>>);

impl Spectra {
    fn new() -> Spectra {
        let mut r = Random::new(1);
        Spectra((0..8).map(|_| (0..dfb::POWERS).map(|_| (r.any_size() >> 32) as u32).collect()).collect())
    }

    fn at(&self, tick: usize) -> &[u32] {
        &self.0[tick % self.0.len()]
    }
}

/// The memory of a board.
#[derive(Clone, PartialEq)]
struct Board {
    state: [u16; dfb::STATE],
    totals: Vec<u64>,
    out: Vec<u8>,
}

/// Ticks of one kind: the board's registers, and for waiting ticks the phase that they start from.
struct Ticks {
    name: &'static str,
    navg: u16,
    ncad: u16,
    waiting: bool,
}

const KINDS: [Ticks; 4] = [
    Ticks { name: "N = C = 1: reported", navg: 0, ncad: 0, waiting: false },
    Ticks { name: "N = C = 8: whole periods", navg: 3, ncad: 3, waiting: false },
    Ticks { name: "N = C = 1024: collected", navg: 10, ncad: 10, waiting: false },
    Ticks { name: "N = 1, C = 8: waiting", navg: 0, ncad: 3, waiting: true },
];

impl Ticks {
    fn board(&self, processors: usize, setting: u16) -> Board {
        let mut state = [0; dfb::STATE];
        state[..processors].fill(0x20);
        state[0] |= self.ncad << 12 | self.navg << 8 | setting << 6;
        Board { state, totals: vec![0; dfb::TOTALS], out: vec![0; dfb::OUTPUT] }
    }

    /// Runs ticks on the board; the sum of their answers.
    fn run(&self, implementation: &Implementation, board: &mut Board, spectra: &Spectra) -> u64 {
        let mut answers = 0;
        for tick in 0..TICKS {
            if self.waiting && tick % 7 == 0 {
                board.state[7] = 1;
            }
            let powers = black_box(spectra.at(tick));
            answers += (implementation.tick)(&mut board.state, &mut board.totals, powers, &mut board.out) as u64;
        }
        answers
    }
}

/// The memory of a summed spectrum.
#[derive(Clone, PartialEq)]
struct Sum {
    state: [u8; dfb::SUM_STATE],
    totals: Vec<u64>,
    out: Vec<u8>,
}

/// Components of one kind: the state that they start from, and whether it is put back before each.
struct Components {
    name: &'static str,
    state: [u8; dfb::SUM_STATE],
    again: bool,
}

/// The time of a component has what puts the three numbers of the state back, except for all eight, which come in turn. Totals are not put
/// back. They are 0 at first and stay sound: those at component 1 grow, and those before an eighth component are the zeros of the one before.
const SUMS: [Components; 5] = [
    Components { name: "sum, component outside both masks", state: [1, 0x01, 0x01], again: true },
    Components { name: "sum, component in one mask", state: [1, 0x03, 0x01], again: true },
    Components { name: "sum, component in both masks", state: [1, 0x03, 0x03], again: true },
    Components { name: "sum, eighth component, in both masks", state: [7, 0xFF, 0xFF], again: true },
    Components { name: "sum, mean of eight components, in both masks", state: [0, 0xFF, 0xFF], again: false },
];

impl Components {
    fn start(&self) -> Sum {
        Sum { state: self.state, totals: vec![0; dfb::SUM_TOTALS], out: vec![0; dfb::SUM_OUTPUT] }
    }

    /// Pairs, so small where the totals grow that those of all components stay under 2^31.
    fn pairs(&self) -> Vec<i16> {
        let (mut r, shift) = (Random::new(6), if self.state[0] == 1 { 5 } else { 0 });
        (0..dfb::SUM_PAIRS).map(|_| r.next() as i16 >> shift).collect()
    }

    /// Adds components; the sum of the answers.
    fn run(&self, implementation: &Implementation, sum: &mut Sum, pairs: &[i16]) -> u64 {
        let mut answers = 0;
        for _ in 0..COMPONENTS {
            if self.again {
                sum.state = *black_box(&self.state);
            }
            let ([component, first, second], pairs) = (sum.state, black_box(pairs));
            let Sum { state, totals, out } = &mut *sum;
            answers += (implementation.sum_component)(state, totals, component, [first, second], pairs, out) as u64;
        }
        answers
    }
}

/// Exports of one kind: so many samples, and so many calls in a round. Each goes on with the count that the one before left.
struct Exports {
    apid: u8,
    samples: usize,
    calls: usize,
}

/// Ten full packets; one set; and 100,000 sets, whose last packet is not full.
const EXPORTS: [Exports; 3] = [
    Exports { apid: 0x43, samples: 10 * 681 * 3, calls: 100 },
    Exports { apid: 0x43, samples: 3, calls: 4000 },
    Exports { apid: 0x44, samples: 100_000 * 7, calls: 4 },
];

fn nanoseconds(calls: usize, run: impl FnOnce() -> u64) -> f64 {
    let start = Instant::now();
    black_box(run());
    start.elapsed().as_nanos() as f64 / calls as f64
}

struct Bench {
    implementations: Vec<Implementation>,
    rounds: usize,
    /// The physical limit of seven processors.
    limit: f64,
    /// For each plain implementation the least and the greatest ratio of the ticks.
    ratios: Vec<(f64, f64)>,
}

impl Bench {
    /// The least time of each implementation, taken in turn.
    fn best(&self, time: impl FnMut(&Implementation) -> f64) -> Vec<f64> {
        self.best_of(self.rounds, time)
    }

    fn best_of(&self, rounds: usize, mut time: impl FnMut(&Implementation) -> f64) -> Vec<f64> {
        let mut best = vec![f64::INFINITY; self.implementations.len()];
        for _ in 0..rounds {
            for (best, implementation) in best.iter_mut().zip(&self.implementations) {
                *best = best.min(time(implementation));
            }
        }
        best
    }

    fn heading(&self) {
        print!("{:<46}", "nanoseconds, and the proved one's ratio to each");
        self.implementations.iter().for_each(|implementation| print!("{:>12}", implementation.name));
        self.implementations[1..].iter().for_each(|implementation| print!("{:>14}", format!("/ {}", implementation.name)));
        println!("{:>9}", "/ limit");
    }

    /// Prints a row; the ratios.
    fn row(&self, name: &str, best: &[f64], has_limit: bool) -> Vec<f64> {
        let ratios: Vec<f64> = best[1..].iter().map(|time| best[0] / time).collect();
        print!("{name:<46}");
        best.iter().for_each(|time| print!("{time:>12.1}"));
        ratios.iter().for_each(|ratio| print!("{ratio:>14.2}"));
        println!("{}", if has_limit { format!("{:>9.2}", best[0] / self.limit) } else { String::new() });
        ratios
    }

    /// Prints the row's megabytes a second.
    fn megabytes(&self, best: &[f64], bytes: usize) {
        print!("{:<46}", format!("  in megabytes a second, of {bytes} bytes"));
        best.iter().for_each(|time| print!("{:>12.1}", bytes as f64 * 1000.0 / time));
        println!();
    }

    fn tick(&mut self, kind: &Ticks, processors: usize, setting: u16, spectra: &Spectra) {
        let start = kind.board(processors, setting);
        let mut results: Vec<(u64, Board)> = vec![];
        for implementation in &self.implementations {
            let mut board = start.clone();
            results.push((kind.run(implementation, &mut board, spectra), board));
        }
        let name = format!("tick, {processors} of 7, {} bands, {}", model::BAND_COUNT[setting as usize], kind.name);
        assert!(results.iter().all(|result| *result == results[0]), "{name}: the implementations differ");

        let best = self.best(|implementation| {
            let mut board = start.clone();
            nanoseconds(TICKS, || kind.run(implementation, &mut board, spectra))
        });
        let ratios = self.row(&name, &best, processors == 7 && !kind.waiting);
        for ((least, greatest), ratio) in self.ratios.iter_mut().zip(ratios) {
            (*least, *greatest) = (least.min(ratio), greatest.max(ratio));
        }
    }

    fn coarse_totals(&self, setting: u8) {
        let mut r = Random::new(4);
        let fine: Vec<u64> = (0..dfb::FINE_TOTALS).map(|_| r.any_size() % (dfb::MOST_TOTAL + 1)).collect();
        let mut results = vec![];
        for implementation in &self.implementations {
            let mut out = [0; 64];
            results.push(((implementation.coarse_totals)(setting, &fine, &mut out), out));
        }
        assert!(results.iter().all(|result| *result == results[0]), "coarse totals: the implementations differ");
        let best = self.best(|implementation| {
            let mut out = [0; 64];
            let mut convert = || (implementation.coarse_totals)(setting, black_box(&fine), black_box(&mut out)) as u64;
            nanoseconds(CONVERSIONS, || (0..CONVERSIONS).map(|_| convert()).sum())
        });
        self.row(&format!("totals of 112 bands to {}", model::BAND_COUNT[setting as usize]), &best, false);
    }

    fn listing(&self, name: &str, log: &[u8]) {
        let mut out = vec![0; model::listing_room(log.len())];
        let mut texts = vec![];
        for implementation in &self.implementations {
            let count = (implementation.listing)(log, &mut out);
            texts.push(out[..count as usize].to_vec());
        }
        assert!(texts.iter().all(|text| *text == texts[0]), "{name}: the implementations differ");
        let best = self.best(|implementation| {
            nanoseconds(LISTINGS, || (0..LISTINGS).map(|_| (implementation.listing)(black_box(log), black_box(&mut out))).sum())
        });
        self.row(&format!("listing of {} bytes, {name}", log.len()), &best, false);
    }

    fn check_commands(&self, list: &[u8]) {
        let mut results = vec![];
        for implementation in &self.implementations {
            let mut registers = [0; dfb::REGISTERS];
            results.push(((implementation.check_commands)(list, &mut registers), registers));
        }
        assert!(results.iter().all(|result| *result == results[0]), "check of a command list: the implementations differ");
        assert_eq!(results[0].0, 0, "the command list is refused");
        let best = self.best(|implementation| {
            let mut registers = [0; dfb::REGISTERS];
            let mut check = || (implementation.check_commands)(black_box(list), black_box(&mut registers));
            nanoseconds(CHECKS, || (0..CHECKS).map(|_| check()).sum())
        });
        self.row(&format!("check of a command list of {} bytes", list.len()), &best, false);
    }

    fn pack(&self) {
        let mut r = Random::new(2);
        let samples: Vec<i16> = (0..7).map(|_| r.next() as i16).collect();
        let mut results = vec![];
        for implementation in &self.implementations {
            let mut out = [0; 21];
            results.push(((implementation.pack)(0x44, &samples, &mut out), out));
        }
        assert!(results.iter().all(|result| *result == results[0]), "pack: the implementations differ");
        let best = self.best(|implementation| {
            let mut out = [0; 21];
            nanoseconds(PACKS, || (0..PACKS).map(|_| (implementation.pack)(0x44, black_box(&samples), black_box(&mut out)) as u64).sum())
        });
        self.row("pack of 7 samples", &best, false);
    }

    /// A snapshot packet of so many components, read and written.
    fn snapshot(&self, components: u32) {
        let mut r = Random::new(5);
        let (mask, count) = ((1u32 << components) - 1, 128 * components as usize);
        let header = [1, 0x8000, 7, 0x0102_0304, 5, mask, 3072, 0, 9, 3071];
        let samples: Vec<i16> = (0..count).map(|_| r.next() as i16).collect();
        let mut results = vec![];
        for implementation in &self.implementations {
            let (mut packet, mut numbers, mut again) = (vec![0; 20 + 2 * count], [0; dfb::SNAPSHOT_HEADER], vec![0; count]);
            let answers = (
                (implementation.snapshot_write)(&header, &samples, &mut packet),
                (implementation.snapshot_read)(&packet, &mut numbers, &mut again),
            );
            assert!(answers == (packet.len() as u32, count as u32) && numbers == header && again == samples, "a packet is read as another");
            results.push(packet);
        }
        assert!(results.iter().all(|result| *result == results[0]), "snapshot packets: the implementations differ");

        let best = self.best(|implementation| {
            let (mut numbers, mut again) = ([0; dfb::SNAPSHOT_HEADER], vec![0; count]);
            let mut read = || (implementation.snapshot_read)(black_box(&results[0]), black_box(&mut numbers), black_box(&mut again)) as u64;
            nanoseconds(PACKETS, || (0..PACKETS).map(|_| read()).sum())
        });
        self.row(&format!("snapshot packet of {components} components, read"), &best, false);
        let best = self.best(|implementation| {
            let mut packet = vec![0; 20 + 2 * count];
            let mut write = || (implementation.snapshot_write)(black_box(&header), black_box(&samples), black_box(&mut packet)) as u64;
            nanoseconds(PACKETS, || (0..PACKETS).map(|_| write()).sum())
        });
        self.row(&format!("snapshot packet of {components} components, written"), &best, false);
    }

    fn sum(&self, components: &Components) {
        let (start, pairs) = (components.start(), components.pairs());
        let mut results: Vec<(u64, Sum)> = vec![];
        for implementation in &self.implementations {
            let mut sum = start.clone();
            results.push((components.run(implementation, &mut sum, &pairs), sum));
        }
        let name = components.name;
        assert!(results.iter().all(|result| *result == results[0]), "{name}: the implementations differ");
        let eighths = match components.state[0] {
            0 => COMPONENTS / 8,
            7 => COMPONENTS,
            _ => 0,
        };
        assert_eq!(results[0].0, (eighths * dfb::SUM_OUTPUT) as u64, "{name}: a component is refused");

        let best = self.best(|implementation| {
            let mut sum = start.clone();
            nanoseconds(COMPONENTS, || components.run(implementation, &mut sum, &pairs))
        });
        self.row(name, &best, false);
    }

    fn export(&self, exports: &Exports) {
        let Exports { apid, samples, calls } = *exports;
        let (name, mut r) = (format!("export of {samples} samples of 0x{apid:02X}"), Random::new(7));
        let samples: Vec<i16> = (0..samples).map(|_| r.next() as i16).collect();
        let mut out = vec![0; dfb::packets_room(samples.len())];
        let mut results = vec![];
        for implementation in &self.implementations {
            let mut count = [dfb::LAST_PACKET_COUNT];
            out.fill(0);
            results.push(((implementation.export_packets)(apid, &mut count, &samples, &mut out), count, out.clone()));
        }
        assert!(results.iter().all(|result| *result == results[0]), "{name}: the implementations differ");
        let bytes = results[0].0 as usize;
        assert!(bytes <= out.len(), "{name}: it is refused");

        let best = self.best(|implementation| {
            let mut count = [0];
            let mut export = || (implementation.export_packets)(apid, &mut count, black_box(&samples), black_box(&mut out));
            nanoseconds(calls, || (0..calls).map(|_| export()).sum())
        });
        self.row(&name, &best, false);
        self.megabytes(&best, bytes);
    }

    /// The import of a packet of so many samples.
    fn import(&self, apid: u8, samples: usize) {
        let mut r = Random::new(8);
        let samples: Vec<i16> = (0..samples).map(|_| r.next() as i16).collect();
        let mut packet = vec![0; dfb::PACKET_HEADER + 2 * samples.len()];
        assert_eq!(dfb::export_packets(apid, 7, &samples, &mut packet), Ok((packet.len(), 8)));
        let name = format!("import of a packet of {} bytes of 0x{apid:02X}", packet.len());
        for implementation in &self.implementations {
            let (mut header, mut again) = ([0; dfb::PACKET_NUMBERS], vec![0; samples.len()]);
            let answer = (implementation.import_packet)(&packet, &mut header, &mut again);
            assert_eq!((answer, header), (samples.len() as u32, [apid.into(), 7]), "{name} by {}", implementation.name);
            assert!(again == samples, "{name}: {} gives other samples", implementation.name);
        }

        let best = self.best(|implementation| {
            let (mut header, mut again) = ([0; dfb::PACKET_NUMBERS], vec![0; samples.len()]);
            let mut import = || (implementation.import_packet)(black_box(&packet), black_box(&mut header), black_box(&mut again)) as u64;
            nanoseconds(PACKETS, || (0..PACKETS).map(|_| import()).sum())
        });
        self.row(&name, &best, false);
        self.megabytes(&best, packet.len());
    }

    /// A day's log, written with counts, written by append one record at a time, and counted by the walk.
    fn day(&self, day: &Day) {
        let (rounds, mut log) = (self.rounds.div_ceil(3), vec![0; Day::BYTES]);
        let mut results = vec![];
        for implementation in &self.implementations {
            let mut tally = ([0; dfb::COUNTS], [0; dfb::REGISTERS]);
            log.fill(0);
            assert_eq!(day.appended(implementation, &mut log), Day::BYTES, "the day's records are refused");
            let appended = log.clone();
            log.fill(0);
            let used = day.counted(implementation, &mut log, &mut tally.0, &mut tally.1);
            assert!(used == Day::BYTES && log == appended, "the day's log is another with counts");
            let mut walked = ([0; dfb::COUNTS], [0; dfb::REGISTERS]);
            let answer = (implementation.count_sets)(&log, &mut walked.0, &mut walked.1);
            assert!(answer == 0 && walked == tally, "the walk counts other sets");
            let (_, walk, item) = items(implementation, &log);
            assert!(walk[0] == Day::BYTES as u64 && item == [0, walk[0], 0, walk[1], 0], "the walk ends elsewhere");
            results.push((appended, tally));
        }
        assert!(results.iter().all(|result| *result == results[0]), "a day's log: the implementations differ");

        let best = self.best_of(rounds, |implementation| {
            let mut tally = ([0; dfb::COUNTS], [0; dfb::REGISTERS]);
            nanoseconds(1, || day.counted(implementation, black_box(&mut log), &mut tally.0, &mut tally.1) as u64)
        });
        self.row("a day's log with counts", &best, false);
        let best = self.best_of(rounds, |implementation| nanoseconds(1, || day.appended(implementation, black_box(&mut log)) as u64));
        self.row("a day's log by append, record by record", &best, false);
        let best = self.best_of(rounds, |implementation| {
            let mut tally = ([0; dfb::COUNTS], [0; dfb::REGISTERS]);
            nanoseconds(1, || (implementation.count_sets)(black_box(&log), &mut tally.0, &mut tally.1))
        });
        self.row("counts of the day's log by the walk", &best, false);
        self.megabytes(&best, Day::BYTES);
        let best = self.best_of(rounds, |implementation| nanoseconds(1, || items(implementation, black_box(&log)).0));
        self.row("the items of the day's log, one a call", &best, false);
        self.megabytes(&best, Day::BYTES);
    }
}

/// The items of a log, one a call: how many, the walk and the last item.
fn items(implementation: &Implementation, log: &[u8]) -> (u64, [u64; dfb::WALK], [u64; dfb::ITEM]) {
    let (mut count, mut walk, mut item) = (0, [0; dfb::WALK], [0; dfb::ITEM]);
    while (implementation.walk_next)(log, &mut walk, &mut item) == 0 && item[0] != 0 {
        count += 1;
    }
    (count, walk, item)
}

/// The best time of one plain loop over the powers of seven processors.
fn sum_of_powers(rounds: usize, spectra: &Spectra) -> f64 {
    let mut best = f64::INFINITY;
    for _ in 0..rounds {
        for sum in implementations::sums() {
            best = best.min(nanoseconds(TICKS, || (0..TICKS).fold(0, |all, tick| all ^ sum(black_box(spectra.at(tick))))));
        }
    }
    best
}

/// Nanoseconds of an interval that grows over a whole index of 16,000 criteria.
fn interval(rounds: usize) -> f64 {
    let index: Vec<u32> = (0..16_000).map(|i| i * 7919 % 1013).collect();
    assert_eq!(dfb::choose_interval(&index, u32::MAX, u32::MAX), Ok((0, 15_999)));
    let chosen = || dfb::choose_interval(black_box(&index), u32::MAX, u32::MAX).map_or(0, |(first, last)| (first + last) as u64);
    (0..rounds).map(|_| nanoseconds(1, chosen)).fold(f64::INFINITY, f64::min)
}

// ---- logs of at most 65,536 bytes ----

/// Repeats a part behind a head while it fits.
fn repeated(head: &[u8], part: &[u8]) -> Vec<u8> {
    let mut log = head.to_vec();
    while log.len() + part.len() <= 65536 {
        log.extend_from_slice(part);
    }
    log
}

fn legal_code(r: &mut Random) -> u8 {
    (r.below(29) * 8 + 12 + r.below(4)) as u8
}

fn spec_words(r: &mut Random, words: usize) -> Vec<u8> {
    (0..words).flat_map(|_| [2, 0x4E, legal_code(r), legal_code(r)]).collect()
}

/// Seconds of a survey: a mark, eight ticks, the survey's waveform sets, and a SPEC set of one processor at 36 bands.
fn survey_log(r: &mut Random) -> Vec<u8> {
    let mut second = vec![3, 0x47, 0xC9, 0x9A, 0x40, 4, 4, 4, 4, 4, 4, 4, 4];
    for (apid, words) in [(0x43, 3), (0x44, 7), (0x45, 3)] {
        (0..words).for_each(|_| second.extend([2, apid, r.next() as u8, r.next() as u8]));
    }
    second.extend(spec_words(r, 18));
    repeated(&[1, 0x30, 0x33, 0x23], &second)
}

/// Seconds of a plan: a mark, and a command to each register, with N = 4 and C = 8.
fn command_list(r: &mut Random) -> Vec<u8> {
    let mut list = vec![];
    for second in 0..65536 / 33u32 {
        list.push(3);
        list.extend(second.to_be_bytes());
        for id in 0x30..=0x36 {
            let value = model::stored(id, 0x3200 | r.next() as u16 & 0xFF).unwrap();
            list.extend([1, id, (value >> 8) as u8, value as u8]);
        }
    }
    list
}

/// A day of 86,400 seconds: each has a mark, a tick and a set of each waveform APID, every eighth a report of one processor at 36 bands.
struct Day {
    /// Samples that the sets take in turn.
    samples: Vec<[i16; 7]>,
    report: Vec<u8>,
}

impl Day {
    const SECONDS: usize = 86_400;
    const BYTES: usize = 4 + Day::SECONDS * (5 + 1 + 26 * 4) + Day::SECONDS / 8 * 18 * 4;

    fn new(r: &mut Random) -> Day {
        let samples = (0..61).map(|_| [(); 7].map(|()| r.next() as i16)).collect();
        Day { samples, report: (0..18).flat_map(|_| [0x4E, legal_code(r), legal_code(r)]).collect() }
    }

    fn calls(&self, mut take: impl FnMut(Call)) {
        take(Call::Command(0x30, 0x0020));
        for second in 0..Day::SECONDS {
            take(Call::Mark(1_204_416_000 + second as u32));
            take(Call::Tick);
            for (apid, words) in model::WAVEFORMS {
                take(Call::Set(apid, &self.samples[(second + apid as usize) % self.samples.len()][..words]));
            }
            if second % 8 == 7 {
                take(Call::Report(&self.report));
            }
        }
    }

    /// Writes the day with counts: the bytes used.
    fn counted(&self, implementation: &Implementation, log: &mut [u8], counts: &mut [u64], registers: &mut [u16]) -> usize {
        let mut used = 0;
        self.calls(|call| used = (implementation.counted)(log, used, counts, registers, call) as usize);
        used
    }

    /// Writes the day's records by append: the bytes used.
    fn appended(&self, implementation: &Implementation, log: &mut [u8]) -> usize {
        let mut used = 0;
        let mut append = |kind, a, b| used = (implementation.append)(log, used, kind, a, b) as usize;
        self.calls(|call| match call {
            Call::Command(id, information) => append(1, id, information.into()),
            Call::Mark(seconds) => append(3, 0, seconds),
            Call::Tick => append(4, 0, 0),
            Call::Set(apid, samples) => samples.iter().for_each(|&sample| append(2, apid, sample as u16 as u32)),
            Call::Report(words) => words.chunks_exact(3).for_each(|word| append(2, word[0], (word[1] as u32) << 8 | word[2] as u32)),
        });
        used
    }
}

fn main() {
    let rounds = std::env::var("DFB_ROUNDS").map_or(60, |rounds| rounds.parse().expect("DFB_ROUNDS is a number"));
    let mut implementations = vec![implementations::proved()];
    implementations.extend(implementations::plain_c());
    implementations.push(implementations::plain_rust());
    let ratios = vec![(f64::INFINITY, 0.0); implementations.len() - 1];
    let spectra = Spectra::new();
    let limit = sum_of_powers(4 * rounds, &spectra);
    let mut bench = Bench { implementations, rounds, limit, ratios };

    println!("limit of 7 of 7, one plain loop over 7,168 powers: {limit:.1} ns");
    bench.heading();
    for kind in &KINDS {
        for processors in [1, 7] {
            for setting in 0..3 {
                bench.tick(kind, processors, setting, &spectra);
            }
        }
    }
    (0..2).for_each(|setting| bench.coarse_totals(setting));
    let mut r = Random::new(3);
    bench.listing("a survey", &survey_log(&mut r));
    bench.listing("ticks", &[4; 65536]);
    bench.listing("112 bands", &repeated(&[1, 0x30, 0x00, 0xA0], &spec_words(&mut r, 56)));
    bench.check_commands(&command_list(&mut r));
    bench.pack();
    [8, 0].into_iter().for_each(|components| bench.snapshot(components));
    SUMS.iter().for_each(|components| bench.sum(components));
    EXPORTS.iter().for_each(|exports| bench.export(exports));
    [681 * 3, 3].into_iter().for_each(|samples| bench.import(0x43, samples));
    bench.day(&Day::new(&mut r));
    println!("interval of 16,000 criteria: {:.1} ns", interval(rounds));

    for (implementation, (least, greatest)) in bench.implementations[1..].iter().zip(&bench.ratios) {
        println!("tick, proved / {}: {least:.2} to {greatest:.2}", implementation.name);
    }
}
