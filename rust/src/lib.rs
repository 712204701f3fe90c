//! The stand-in for the Digital Fields Board: a safe interface to the proved library libdfb.a (include/dfb.h).
//!
//! Each function here calls the one of the same name there. Its answer and the later contents of every list are those of the rules for
//! every input; a refusal changes nothing. Lists of any length may be passed: a wrong length is refused.
//!
//! ```
//! let mut board = dfb::Board::reset();
//! board.command(0x30, 0x0020)?;
//! let mut out = [0u8; dfb::OUTPUT];
//! let answer = board.tick(&[0; dfb::POWERS], &mut out)?;
//! assert_eq!(answer, dfb::Tick::Reported(dfb::Report { words: 18, number: 1 }));
//! assert_eq!(board.read(0x30)?, 0x0020);
//! assert_eq!(board.command(0x37, 0), Err(dfb::Refusal::UnknownCommand));
//! # Ok::<(), dfb::Refusal>(())
//! ```
use std::fmt;

/// The length of a state: registers 0x30 to 0x36, the phase, and the reports since the last accepted command. All 0 after reset.
pub const STATE: usize = 9;
/// The length of the totals. All 0 after reset.
pub const TOTALS: usize = 784;
/// The length of a tick's powers: 7 rows of 1,024.
pub const POWERS: usize = 7168;
/// The least length of a tick's output.
pub const OUTPUT: usize = 1176;

/// The number of registers, 0x30 to 0x36, in a list of registers alone.
pub const REGISTERS: usize = 7;
/// The length of a walk: the place, the records before it and the seven registers. All 0 at the start of a log.
pub const WALK: usize = 9;
/// The numbers of an item: kind, offset, bytes, a and b.
pub const ITEM: usize = 5;
/// The number of counts that are kept with a log: one for each APID, 0x43 to 0x48 and 0x4E.
pub const COUNTS: usize = 7;

/// The number of fine totals that `coarse_totals` converts.
pub const FINE_TOTALS: usize = 112;
/// The greatest total that it takes: 2^49.
pub const MOST_TOTAL: u64 = 0x2_0000_0000_0000;

/// The length of the header of a snapshot packet, as a list of numbers.
pub const SNAPSHOT_HEADER: usize = 10;
/// No snapshot packet has more samples.
pub const MOST_SNAPSHOT_SAMPLES: usize = 1024;
/// No snapshot packet has more bytes.
pub const MOST_SNAPSHOT_BYTES: usize = 2068;

/// The number of components of a summed spectrum.
pub const SUM_COMPONENTS: u8 = 8;
/// The number of bins of each.
pub const SUM_BINS: usize = 1024;
/// The length of a sum's state: the next component, the first and the second mask. All 0 at the start.
pub const SUM_STATE: usize = 3;
/// The length of a sum's totals: 1,024 of the first mask, then 1,024 of the second. All 0 at the start.
pub const SUM_TOTALS: usize = 2048;
/// The length of a component: 1,024 pairs, real part first.
pub const SUM_PAIRS: usize = 2048;
/// The least length of a sum's output.
pub const SUM_OUTPUT: usize = 4096;

/// The length of a space packet's primary header.
pub const PACKET_HEADER: usize = 6;
/// No space packet has more bytes, with its header.
pub const PACKET_BYTES: usize = 4096;
/// The greatest count of a space packet: 0 comes after it.
pub const LAST_PACKET_COUNT: u16 = 16383;
/// No space packet has more samples.
pub const PACKET_SAMPLES: usize = 2044;
/// The numbers of a space packet's header, as a list: APID and count.
pub const PACKET_NUMBERS: usize = 2;

/// A refusal, with its number in the rules. 13 is not used.
#[derive(Clone, Copy, Debug, PartialEq, Eq)]
#[repr(u8)]
pub enum Refusal {
    UnknownCommand = 1,
    WrongLength = 2,
    UnsoundState = 3,
    UnknownApid = 4,
    IncompleteSet = 5,
    NoProcessorEnabled = 6,
    IllegalBandCode = 7,
    SumCodeOverflow = 8,
    UnknownRecordKind = 9,
    TruncatedBody = 10,
    InputTooLong = 11,
    OutOfRange = 12,
    UnknownPacket = 14,
    PacketOutOfRange = 15,
    WrongPacketLength = 16,
    ComponentOutOfOrder = 17,
    KindNotInProfile = 18,
    SecondFalls = 19,
    ValueAltered = 20,
    AveragesOverPeriod = 21,
    WrongHeaderField = 22,
    WrongDataLength = 23,
    TotalTooLarge = 24,
    TurnedAway = 25,
    NothingToSend = 26,
    AlreadySending = 27,
    NoneSending = 28,
    ZeroLimit = 29,
}

impl Refusal {
    /// The refusal's number.
    pub fn number(self) -> u8 {
        self as u8
    }

    /// The refusal in words.
    pub fn meaning(self) -> &'static str {
        match self {
            Refusal::UnknownCommand => "the command ID is outside 0x30 to 0x36",
            Refusal::WrongLength => "a list has a wrong length, an output is too small, or a place or number does not fit",
            Refusal::UnsoundState => "the state is not one that the board, the slots, the counting writer or a sum can have left",
            Refusal::UnknownApid => "the APID is none of the seven, or 0x4E where a waveform's is wanted",
            Refusal::IncompleteSet => "the words are not exactly one set",
            Refusal::NoProcessorEnabled => "a SPEC word with no processor enabled",
            Refusal::IllegalBandCode => "the band code is not legal",
            Refusal::SumCodeOverflow => "the sum code's value is 2^64 or more",
            Refusal::UnknownRecordKind => "the record kind is none of 1 to 4",
            Refusal::TruncatedBody => "the log ends within a record",
            Refusal::InputTooLong => "the log is over 65,536 bytes",
            Refusal::OutOfRange => "a bin setting, band, FFT bin or NCAD choice is out of range, or a target is not 36 or 64 bands",
            Refusal::UnknownPacket => "the packet's SID is not 33 or its auxiliary length is not 8",
            Refusal::PacketOutOfRange => "the total of packets is over 3072, or the packet number is not below the total",
            Refusal::WrongPacketLength => "the packet is under 20 bytes, or its bytes or samples are not as many as its mask says",
            Refusal::ComponentOutOfOrder => "the component is not the next one",
            Refusal::KindNotInProfile => "the record is neither a command nor a second mark",
            Refusal::SecondFalls => "the second is smaller than that of the mark before it",
            Refusal::ValueAltered => "the register would store another value than the one sent",
            Refusal::AveragesOverPeriod => "a processor is enabled and N is above C",
            Refusal::WrongHeaderField => "a space packet's header field is not as stated, or the first count is over 16383",
            Refusal::WrongDataLength => "a space packet has a wrong length, or its samples are none or not whole sets",
            Refusal::TotalTooLarge => "a band total is over 2^49",
            Refusal::TurnedAway => "no slot is free and no held slot has a smaller criterion",
            Refusal::NothingToSend => "nothing is held to send, or no criterion is above 0",
            Refusal::AlreadySending => "a slot is already sending",
            Refusal::NoneSending => "no slot is sending",
            Refusal::ZeroLimit => "the limit is 0 blocks",
        }
    }

    fn of(number: u64) -> Refusal {
        match number {
            1 => Refusal::UnknownCommand,
            2 => Refusal::WrongLength,
            3 => Refusal::UnsoundState,
            4 => Refusal::UnknownApid,
            5 => Refusal::IncompleteSet,
            6 => Refusal::NoProcessorEnabled,
            7 => Refusal::IllegalBandCode,
            8 => Refusal::SumCodeOverflow,
            9 => Refusal::UnknownRecordKind,
            10 => Refusal::TruncatedBody,
            11 => Refusal::InputTooLong,
            12 => Refusal::OutOfRange,
            14 => Refusal::UnknownPacket,
            15 => Refusal::PacketOutOfRange,
            16 => Refusal::WrongPacketLength,
            17 => Refusal::ComponentOutOfOrder,
            18 => Refusal::KindNotInProfile,
            19 => Refusal::SecondFalls,
            20 => Refusal::ValueAltered,
            21 => Refusal::AveragesOverPeriod,
            22 => Refusal::WrongHeaderField,
            23 => Refusal::WrongDataLength,
            24 => Refusal::TotalTooLarge,
            25 => Refusal::TurnedAway,
            26 => Refusal::NothingToSend,
            27 => Refusal::AlreadySending,
            28 => Refusal::NoneSending,
            29 => Refusal::ZeroLimit,
            _ => panic!("libdfb answered {number} above its answers, which is no refusal"),
        }
    }
}

impl fmt::Display for Refusal {
    fn fmt(&self, f: &mut fmt::Formatter) -> fmt::Result {
        write!(f, "refusal {}: {}", self.number(), self.meaning())
    }
}

impl std::error::Error for Refusal {}

/// A refusal with the offset of the record at fault, or with the list's length where its end is at fault.
#[derive(Clone, Copy, Debug, PartialEq, Eq)]
pub struct RefusedAt {
    pub refusal: Refusal,
    pub offset: u64,
}

impl fmt::Display for RefusedAt {
    fn fmt(&self, f: &mut fmt::Formatter) -> fmt::Result {
        write!(f, "{}, at offset {}", self.refusal, self.offset)
    }
}

impl std::error::Error for RefusedAt {}

/// A report.
#[derive(Clone, Copy, Debug, PartialEq, Eq)]
pub struct Report {
    /// How many words of three bytes were written.
    pub words: usize,
    /// 1 for the first report since the last accepted command, and 65,535 from the 65,535th on.
    pub number: u16,
}

/// What a tick did.
#[derive(Clone, Copy, Debug, PartialEq, Eq)]
pub enum Tick {
    Idle,
    Collected,
    Waiting,
    Reported(Report),
}

/// What the number of a cadence is.
#[derive(Clone, Copy, Debug, PartialEq, Eq)]
pub enum Cadence {
    /// Reports per second.
    Rate,
    /// Seconds.
    Period,
}

/// What an offer to the burst slots did, and how many slots it looked at.
#[derive(Clone, Copy, Debug, PartialEq, Eq)]
pub enum Offer {
    Taken {
        slot: usize,
        looked: usize,
    },
    /// Refusal 25.
    TurnedAway {
        looked: usize,
    },
}

/// The header of a snapshot packet.
#[derive(Clone, Copy, Debug, PartialEq, Eq)]
pub struct SnapshotHeader {
    pub coarse_difference: u16,
    pub fine_time: u16,
    pub sequence: u16,
    /// The switches at byte 8.
    pub switches_8: u32,
    /// Those at byte 12.
    pub switches_12: u8,
    /// The packet has 128 samples for each one bit.
    pub component_mask: u8,
    /// 1 to 3072.
    pub total_packets: u16,
    pub artefacts: u8,
    pub snapshot_number: u8,
    /// From 0, below the total.
    pub packet_number: u16,
}

/// The ten numbers in the order of the fields.
impl From<SnapshotHeader> for [u32; SNAPSHOT_HEADER] {
    fn from(header: SnapshotHeader) -> [u32; SNAPSHOT_HEADER] {
        [
            header.coarse_difference.into(),
            header.fine_time.into(),
            header.sequence.into(),
            header.switches_8,
            header.switches_12.into(),
            header.component_mask.into(),
            header.total_packets.into(),
            header.artefacts.into(),
            header.snapshot_number.into(),
            header.packet_number.into(),
        ]
    }
}

/// The header of ten numbers. Refusal 2 where one does not fit its field.
impl TryFrom<[u32; SNAPSHOT_HEADER]> for SnapshotHeader {
    type Error = Refusal;

    fn try_from(numbers: [u32; SNAPSHOT_HEADER]) -> Result<SnapshotHeader, Refusal> {
        let eight = |place: usize| u8::try_from(numbers[place]).map_err(|_| Refusal::WrongLength);
        let sixteen = |place: usize| u16::try_from(numbers[place]).map_err(|_| Refusal::WrongLength);
        Ok(SnapshotHeader {
            coarse_difference: sixteen(0)?,
            fine_time: sixteen(1)?,
            sequence: sixteen(2)?,
            switches_8: numbers[3],
            switches_12: eight(4)?,
            component_mask: eight(5)?,
            total_packets: sixteen(6)?,
            artefacts: eight(7)?,
            snapshot_number: eight(8)?,
            packet_number: sixteen(9)?,
        })
    }
}

/// What the header of a space packet says of it.
#[derive(Clone, Copy, Debug, PartialEq, Eq)]
pub struct PacketHeader {
    pub apid: u16,
    /// At most `LAST_PACKET_COUNT`.
    pub count: u16,
}

/// What an item of a log is.
#[derive(Clone, Copy, Debug, PartialEq, Eq)]
pub enum ItemKind {
    /// The log's end, and the number of its records.
    End {
        records: u64,
    },
    /// A command, and the value that it stored.
    Command {
        id: u8,
        stored: u16,
    },
    /// A finished set. Its words stand in the log from the item's offset on, four bytes each.
    Set {
        apid: u8,
        words: usize,
    },
    SecondMark {
        seconds: u32,
    },
    Tick,
}

/// An item of a log, and where its records stand.
#[derive(Clone, Copy, Debug, PartialEq, Eq)]
pub struct Item {
    pub offset: usize,
    pub bytes: usize,
    pub kind: ItemKind,
}

impl Item {
    fn of([kind, offset, bytes, a, b]: [u64; ITEM]) -> Item {
        let kind = match kind {
            0 => ItemKind::End { records: a },
            1 => ItemKind::Command { id: a as u8, stored: b as u16 },
            2 => ItemKind::Set { apid: a as u8, words: b as usize },
            3 => ItemKind::SecondMark { seconds: a as u32 },
            _ => ItemKind::Tick,
        };
        Item { offset: offset as usize, bytes: bytes as usize, kind }
    }
}

/// The items of a log from reset on, without its end; a refusal is the last that comes.
///
/// ```
/// use dfb::ItemKind::{Command, Tick};
/// let log = [1, 0x31, 0, 0x1F, 4, 9];
/// let mut walk = dfb::Walk::new(&log);
/// assert_eq!(walk.next(), Some(Ok(dfb::Item { offset: 0, bytes: 4, kind: Command { id: 0x31, stored: 0x12 } })));
/// assert_eq!(walk.next(), Some(Ok(dfb::Item { offset: 4, bytes: 1, kind: Tick })));
/// assert_eq!(walk.registers(), [0, 0x12, 0, 0, 0, 0, 0]);
/// let refused = dfb::RefusedAt { refusal: dfb::Refusal::UnknownRecordKind, offset: 5 };
/// assert_eq!(walk.next(), Some(Err(refused)));
/// assert_eq!(walk.next(), None);
/// ```
#[derive(Clone, Debug)]
pub struct Walk<'a> {
    log: &'a [u8],
    numbers: [u64; WALK],
    ended: bool,
}

impl<'a> Walk<'a> {
    pub fn new(log: &'a [u8]) -> Walk<'a> {
        Walk { log, numbers: [0; WALK], ended: false }
    }

    /// The bytes of the items that came.
    pub fn place(&self) -> usize {
        self.numbers[0] as usize
    }

    /// The records of the items that came.
    pub fn records(&self) -> u64 {
        self.numbers[1]
    }

    /// The registers 0x30 to 0x36 after the items that came, which are those in force at the last of them.
    pub fn registers(&self) -> [u16; REGISTERS] {
        std::array::from_fn(|n| self.numbers[2 + n] as u16)
    }
}

impl Iterator for Walk<'_> {
    type Item = Result<Item, RefusedAt>;

    fn next(&mut self) -> Option<Self::Item> {
        if self.ended {
            return None;
        }
        let item = walk_next(self.log, &mut self.numbers);
        let is_end = matches!(item, Ok(Item { kind: ItemKind::End { .. }, .. }));
        self.ended = is_end || item.is_err();
        (!is_end).then_some(item)
    }
}

/// The functions of libdfb.a as C declares them.
pub mod ffi {
    extern "C" {
        pub fn dfb_command(state: *mut u16, state_len: usize, totals: *mut u64, totals_len: usize, id: u8, information: u16) -> u32;
        pub fn dfb_read(state: *const u16, state_len: usize, id: u8) -> u32;
        pub fn dfb_tick(
            state: *mut u16,
            state_len: usize,
            totals: *mut u64,
            totals_len: usize,
            powers: *const u32,
            powers_len: usize,
            out: *mut u8,
            out_len: usize,
        ) -> u32;
        pub fn dfb_pack(apid: u8, samples: *const i16, samples_len: usize, out: *mut u8, out_len: usize) -> u32;
        pub fn dfb_unpack(apid: u8, bytes: *const u8, bytes_len: usize, samples: *mut i16, samples_len: usize) -> u32;
        pub fn dfb_append(log: *mut u8, log_len: usize, used: usize, kind: u8, a: u8, b: u32) -> u64;
        pub fn dfb_read_record(log: *const u8, log_len: usize, at: usize, numbers: *mut u32, numbers_len: usize) -> u64;
        pub fn dfb_listing(log: *const u8, log_len: usize, out: *mut u8, out_len: usize) -> u64;
        pub fn dfb_walk_next(log: *const u8, log_len: usize, walk: *mut u64, walk_len: usize, item: *mut u64, item_len: usize) -> u64;
        pub fn dfb_check_commands(log: *const u8, log_len: usize, registers: *mut u16, registers_len: usize) -> u64;
        pub fn dfb_counted_command(
            log: *mut u8,
            log_len: usize,
            used: usize,
            counts: *mut u64,
            counts_len: usize,
            registers: *mut u16,
            registers_len: usize,
            id: u8,
            information: u16,
        ) -> u64;
        pub fn dfb_counted_mark(
            log: *mut u8,
            log_len: usize,
            used: usize,
            counts: *mut u64,
            counts_len: usize,
            registers: *mut u16,
            registers_len: usize,
            seconds: u32,
        ) -> u64;
        pub fn dfb_counted_tick(
            log: *mut u8,
            log_len: usize,
            used: usize,
            counts: *mut u64,
            counts_len: usize,
            registers: *mut u16,
            registers_len: usize,
        ) -> u64;
        pub fn dfb_counted_set(
            log: *mut u8,
            log_len: usize,
            used: usize,
            counts: *mut u64,
            counts_len: usize,
            registers: *mut u16,
            registers_len: usize,
            apid: u8,
            samples: *const i16,
            samples_len: usize,
        ) -> u64;
        pub fn dfb_counted_report(
            log: *mut u8,
            log_len: usize,
            used: usize,
            counts: *mut u64,
            counts_len: usize,
            registers: *mut u16,
            registers_len: usize,
            words: *const u8,
            words_len: usize,
        ) -> u64;
        pub fn dfb_count_sets(
            log: *const u8,
            log_len: usize,
            counts: *mut u64,
            counts_len: usize,
            registers: *mut u16,
            registers_len: usize,
        ) -> u64;
        pub fn dfb_band_of(setting: u8, bin: u16) -> u16;
        pub fn dfb_compress_band(value: u32) -> u8;
        pub fn dfb_expand_band(code: u8) -> u64;
        pub fn dfb_compress_sum(value: u64) -> u16;
        pub fn dfb_expand_sum(code: u16, value: *mut u64, value_len: usize) -> u32;
        pub fn dfb_describe_band(setting: u8, band: u8, three: *mut f32, three_len: usize) -> u32;
        pub fn dfb_cadence_of(choice: u8, value: *mut f32, value_len: usize) -> u32;
        pub fn dfb_coarse_totals(setting: u8, fine: *const u64, fine_len: usize, out: *mut u64, out_len: usize) -> u32;
        pub fn dfb_burst_offer(status: *mut u8, status_len: usize, criteria: *mut u32, criteria_len: usize, criterion: u32) -> u32;
        pub fn dfb_burst_choose(status: *mut u8, status_len: usize, criteria: *mut u32, criteria_len: usize) -> u32;
        pub fn dfb_burst_finish(status: *mut u8, status_len: usize, criteria: *mut u32, criteria_len: usize) -> u32;
        pub fn dfb_choose_interval(index: *const u32, index_len: usize, bonus: u32, limit: u32) -> u64;
        pub fn dfb_snapshot_read(
            packet: *const u8,
            packet_len: usize,
            header: *mut u32,
            header_len: usize,
            samples: *mut i16,
            samples_len: usize,
        ) -> u32;
        pub fn dfb_snapshot_write(
            header: *const u32,
            header_len: usize,
            samples: *const i16,
            samples_len: usize,
            packet: *mut u8,
            packet_len: usize,
        ) -> u32;
        pub fn dfb_sum_component(
            state: *mut u8,
            state_len: usize,
            totals: *mut u64,
            totals_len: usize,
            component: u8,
            first_mask: u8,
            second_mask: u8,
            pairs: *const i16,
            pairs_len: usize,
            out: *mut u8,
            out_len: usize,
        ) -> u32;
        pub fn dfb_export_packets(
            apid: u8,
            count: *mut u16,
            count_len: usize,
            samples: *const i16,
            samples_len: usize,
            out: *mut u8,
            out_len: usize,
        ) -> u64;
        pub fn dfb_import_packet(
            packet: *const u8,
            packet_len: usize,
            header: *mut u16,
            header_len: usize,
            samples: *mut i16,
            samples_len: usize,
        ) -> u32;
    }
}

/// A board: its state and its totals, kept between the calls.
#[derive(Clone, Debug, PartialEq, Eq)]
pub struct Board {
    state: [u16; STATE],
    totals: [u64; TOTALS],
}

impl Board {
    /// The board after reset.
    pub fn reset() -> Board {
        Board { state: [0; STATE], totals: [0; TOTALS] }
    }

    /// As the function `command`.
    pub fn command(&mut self, id: u8, information: u16) -> Result<u16, Refusal> {
        command(&mut self.state, &mut self.totals, id, information)
    }

    /// As the function `read`.
    pub fn read(&self, id: u8) -> Result<u16, Refusal> {
        read(&self.state, id)
    }

    /// As the function `tick`.
    pub fn tick(&mut self, powers: &[u32], out: &mut [u8]) -> Result<Tick, Refusal> {
        tick(&mut self.state, &mut self.totals, powers, out)
    }

    /// The totals of the spectra that this period has collected: 112 for each processor, those past the number of bands being 0.
    pub fn totals(&self) -> &[u64; TOTALS] {
        &self.totals
    }
}

/// What is kept with a log: the number of finished sets of each APID (0x43 to 0x48, then 0x4E), and the registers 0x30 to 0x36.
#[derive(Clone, Copy, Debug, PartialEq, Eq)]
pub struct Tally {
    pub counts: [u64; COUNTS],
    pub registers: [u16; REGISTERS],
}

impl Tally {
    /// The number of finished sets of an APID; None for an APID that is not one of the seven.
    pub fn count(&self, apid: u8) -> Option<u64> {
        match apid {
            0x43..=0x48 => Some(self.counts[usize::from(apid - 0x43)]),
            0x4E => Some(self.counts[6]),
            _ => None,
        }
    }
}

/// A log with the number of its sets: the log's memory, its bytes used and its tally, kept between the calls.
///
/// ```
/// let mut memory = [0; 100];
/// let mut log = dfb::CountedLog::begin(&mut memory);
/// log.command(0x30, 0x0020)?; // processor 1, 36 bands
/// log.mark(7)?;
/// log.set(0x43, &[1, -1, -32768])?;
/// log.report(&[0x4E, 0x0C, 0x0D].repeat(18))?;
/// assert_eq!(log.set(0x43, &[1, -1]), Err(dfb::Refusal::IncompleteSet));
/// assert_eq!((log.count(0x43), log.count(0x4E), log.count(0x42)), (Some(1), Some(1), None));
/// assert_eq!(dfb::count_sets(log.bytes()), Ok(*log.tally()));
/// # Ok::<(), dfb::Refusal>(())
/// ```
#[derive(Debug)]
pub struct CountedLog<'a> {
    log: &'a mut [u8],
    used: usize,
    tally: Tally,
}

impl<'a> CountedLog<'a> {
    /// An empty log in this memory.
    pub fn begin(log: &'a mut [u8]) -> CountedLog<'a> {
        CountedLog { log, used: 0, tally: Tally { counts: [0; COUNTS], registers: [0; REGISTERS] } }
    }

    /// A log made elsewhere, of which so many bytes are used: its sets are counted. Refused as `count_sets` refuses, and by 2 with offset 0
    /// where `used` is past the end.
    pub fn open(log: &'a mut [u8], used: usize) -> Result<CountedLog<'a>, RefusedAt> {
        let bytes = log.get(..used).ok_or(RefusedAt { refusal: Refusal::WrongLength, offset: 0 })?;
        let tally = count_sets(bytes)?;
        Ok(CountedLog { log, used, tally })
    }

    /// As the function `counted_command`.
    pub fn command(&mut self, id: u8, information: u16) -> Result<usize, Refusal> {
        let Tally { counts, registers } = &mut self.tally;
        self.used = counted_command(self.log, self.used, counts, registers, id, information)?;
        Ok(self.used)
    }

    /// As the function `counted_mark`.
    pub fn mark(&mut self, seconds: u32) -> Result<usize, Refusal> {
        let Tally { counts, registers } = &mut self.tally;
        self.used = counted_mark(self.log, self.used, counts, registers, seconds)?;
        Ok(self.used)
    }

    /// As the function `counted_tick`.
    pub fn tick(&mut self) -> Result<usize, Refusal> {
        let Tally { counts, registers } = &mut self.tally;
        self.used = counted_tick(self.log, self.used, counts, registers)?;
        Ok(self.used)
    }

    /// As the function `counted_set`.
    pub fn set(&mut self, apid: u8, samples: &[i16]) -> Result<usize, Refusal> {
        let Tally { counts, registers } = &mut self.tally;
        self.used = counted_set(self.log, self.used, counts, registers, apid, samples)?;
        Ok(self.used)
    }

    /// As the function `counted_report`.
    pub fn report(&mut self, words: &[u8]) -> Result<usize, Refusal> {
        let Tally { counts, registers } = &mut self.tally;
        self.used = counted_report(self.log, self.used, counts, registers, words)?;
        Ok(self.used)
    }

    /// The bytes written so far.
    pub fn bytes(&self) -> &[u8] {
        &self.log[..self.used]
    }

    /// How many they are.
    pub fn used(&self) -> usize {
        self.used
    }

    /// Counts and registers.
    pub fn tally(&self) -> &Tally {
        &self.tally
    }

    /// The number of finished sets of each APID.
    pub fn counts(&self) -> &[u64; COUNTS] {
        &self.tally.counts
    }

    /// The registers 0x30 to 0x36.
    pub fn registers(&self) -> &[u16; REGISTERS] {
        &self.tally.registers
    }

    /// The number of finished sets of an APID; None for an APID that is not one of the seven.
    pub fn count(&self, apid: u8) -> Option<u64> {
        self.tally.count(apid)
    }
}

/// A summed spectrum of the LFR (FSUM): its state and its totals, kept between the calls.
///
/// ```
/// let mut sum = dfb::Summed::start();
/// let mut out = [0; dfb::SUM_OUTPUT];
/// let pairs = [3, -4].repeat(dfb::SUM_BINS); // power 25 in each bin
/// for component in 0..7 {
///     assert_eq!(sum.add(component, 0xFF, 0x01, &pairs, &mut out)?, 0);
/// }
/// assert_eq!((sum.next_component(), sum.masks()), (7, (0xFF, 0x01)));
/// assert_eq!((sum.totals()[0], sum.totals()[dfb::SUM_BINS]), (7 * 25, 25));
/// assert_eq!(sum.add(0, 0xFF, 0x01, &pairs, &mut out), Err(dfb::Refusal::ComponentOutOfOrder));
/// assert_eq!(sum.add(7, 0xFF, 0x01, &pairs, &mut out)?, dfb::SUM_OUTPUT);
/// assert_eq!((&out[..2], &out[2048..2050]), (&[0, 8 * 25][..], &[0, 25][..])); // the first code of each mask
/// assert_eq!((sum.next_component(), *sum.totals()), (0, [0; dfb::SUM_TOTALS]));
/// # Ok::<(), dfb::Refusal>(())
/// ```
#[derive(Clone, Debug, PartialEq, Eq)]
pub struct Summed {
    state: [u8; SUM_STATE],
    totals: [u64; SUM_TOTALS],
}

impl Summed {
    /// Nothing summed: component 0 is next, masks and totals are 0.
    pub fn start() -> Summed {
        Summed { state: [0; SUM_STATE], totals: [0; SUM_TOTALS] }
    }

    /// As the function `sum_component`.
    pub fn add(&mut self, component: u8, first_mask: u8, second_mask: u8, pairs: &[i16], out: &mut [u8]) -> Result<usize, Refusal> {
        sum_component(&mut self.state, &mut self.totals, component, first_mask, second_mask, pairs, out)
    }

    /// The component that is next, 0 to 7.
    pub fn next_component(&self) -> u8 {
        self.state[0]
    }

    /// The first and the second mask, those of the last component 0; both 0 before it.
    pub fn masks(&self) -> (u8, u8) {
        (self.state[1], self.state[2])
    }

    /// The totals of the components so far: 1,024 of the first mask, then 1,024 of the second.
    pub fn totals(&self) -> &[u64; SUM_TOTALS] {
        &self.totals
    }
}

// Refusals start at these, above 8-bit, 16-bit and 63-bit answers.
const REFUSED_8: u64 = 0x100;
const REFUSED_16: u64 = 0x1_0000;
const REFUSED_63: u64 = 1 << 63;
// A report is this, 65,536 for each word, and its number.
const REPORTED: u32 = 0x8000_0000;

/// An answer below `refused`, or the refusal whose number is above it.
fn answer(number: u64, refused: u64) -> Result<u64, Refusal> {
    if number < refused {
        Ok(number)
    } else {
        Err(Refusal::of(number - refused))
    }
}

/// 0, or a refusal that has an offset.
fn answer_at(number: u64) -> Result<(), RefusedAt> {
    if number < REFUSED_63 {
        return Ok(());
    }
    Err(RefusedAt { refusal: Refusal::of(number & 0xFF), offset: (number - REFUSED_63) >> 8 })
}

/// Sends a command: the value stored. Phase, number of reports and totals become 0. Refusals 2, 3, 1.
pub fn command(state: &mut [u16], totals: &mut [u64], id: u8, information: u16) -> Result<u16, Refusal> {
    // SAFETY: each pointer is valid for its length, and no two slices overlap. So it is in each call below.
    let number = unsafe { ffi::dfb_command(state.as_mut_ptr(), state.len(), totals.as_mut_ptr(), totals.len(), id, information) };
    answer(number.into(), REFUSED_16).map(|value| value as u16)
}

/// Reads a register. Refusals 2, 3, 1.
pub fn read(state: &[u16], id: u8) -> Result<u16, Refusal> {
    // SAFETY: as in command.
    let number = unsafe { ffi::dfb_read(state.as_ptr(), state.len(), id) };
    answer(number.into(), REFUSED_16).map(|value| value as u16)
}

/// One tick with 7 rows of 1,024 powers; a report is written at the start of `out`. Refusals 2, 3.
pub fn tick(state: &mut [u16], totals: &mut [u64], powers: &[u32], out: &mut [u8]) -> Result<Tick, Refusal> {
    // SAFETY: as in command.
    let number = unsafe {
        ffi::dfb_tick(
            state.as_mut_ptr(),
            state.len(),
            totals.as_mut_ptr(),
            totals.len(),
            powers.as_ptr(),
            powers.len(),
            out.as_mut_ptr(),
            out.len(),
        )
    };
    if number >= REPORTED {
        return Ok(Tick::Reported(Report { words: ((number - REPORTED) >> 16) as usize, number: number as u16 }));
    }
    match answer(number.into(), REFUSED_16)? {
        0 => Ok(Tick::Idle),
        1 => Ok(Tick::Collected),
        2 => Ok(Tick::Waiting),
        other => panic!("libdfb answered {other}, which is no answer of a tick"),
    }
}

/// Packs one waveform set: the bytes written. Refusals 4, 2.
pub fn pack(apid: u8, samples: &[i16], out: &mut [u8]) -> Result<usize, Refusal> {
    // SAFETY: as in command.
    let number = unsafe { ffi::dfb_pack(apid, samples.as_ptr(), samples.len(), out.as_mut_ptr(), out.len()) };
    answer(number.into(), REFUSED_16).map(|count| count as usize)
}

/// Unpacks one waveform set: the samples written. Refusals 4, 2, 5.
pub fn unpack(apid: u8, bytes: &[u8], samples: &mut [i16]) -> Result<usize, Refusal> {
    // SAFETY: as in command.
    let number = unsafe { ffi::dfb_unpack(apid, bytes.as_ptr(), bytes.len(), samples.as_mut_ptr(), samples.len()) };
    answer(number.into(), REFUSED_16).map(|count| count as usize)
}

/// Appends one record behind the bytes used: the new number of bytes used. `a` is the ID or the APID, `b` the 16 bits or the seconds.
/// Refusals 9, then 1 or 4, then 2.
pub fn append(log: &mut [u8], used: usize, kind: u8, a: u8, b: u32) -> Result<usize, Refusal> {
    // SAFETY: as in command.
    let number = unsafe { ffi::dfb_append(log.as_mut_ptr(), log.len(), used, kind, a, b) };
    answer(number, REFUSED_63).map(|used| used as usize)
}

/// Reads the record at a place of the log: the place after it. `numbers[0..3]` becomes kind, `a` and `b` as in `append`, with 0 for what the
/// kind lacks; at the log's end all three are 0 and the place stays. Refusals 2 for a place past the log, 9, 10, 1 or 4, then 2 where
/// `numbers` is shorter.
pub fn read_record(log: &[u8], at: usize, numbers: &mut [u32]) -> Result<usize, Refusal> {
    // SAFETY: as in command.
    let number = unsafe { ffi::dfb_read_record(log.as_ptr(), log.len(), at, numbers.as_mut_ptr(), numbers.len()) };
    answer(number, REFUSED_63).map(|place| place as usize)
}

/// Lists a log: the bytes of text written. Refusal 2 where `out` is under 6 bytes for each byte of the log and 64 more (64 where the log
/// is over 65,536 bytes).
pub fn listing(log: &[u8], out: &mut [u8]) -> Result<usize, Refusal> {
    // SAFETY: as in command.
    let number = unsafe { ffi::dfb_listing(log.as_ptr(), log.len(), out.as_mut_ptr(), out.len()) };
    answer(number, REFUSED_63).map(|count| count as usize)
}

/// Gives the item at a walk's place and moves the walk behind it; at the log's end the walk stays. A walk is the place, the records before it
/// and the registers 0x30 to 0x36. Refused with the offset of the record at fault: 9, 10, 5, then 1 for a command, 4, 6, 7 for a word; 5 with
/// the log's length for a set cut by its end. Before these 2 with the offset 0 for a place of 2^55 or more, 2 with the place for one past the
/// log, and 3 with the place for a walk that is not sound, a register over 16 bits among them.
pub fn walk_next(log: &[u8], walk: &mut [u64; WALK]) -> Result<Item, RefusedAt> {
    let mut numbers = [0; ITEM];
    // SAFETY: as in command.
    let number = unsafe { ffi::dfb_walk_next(log.as_ptr(), log.len(), walk.as_mut_ptr(), walk.len(), numbers.as_mut_ptr(), numbers.len()) };
    answer_at(number).map(|()| Item::of(numbers))
}

/// Checks a planner's command list from reset: the final registers 0x30 to 0x36, or the refusal of the first record at fault with its offset.
/// Refusals of a record 9, 10, then 18, of a command 1, 20, of a second mark 19, 21; at the end 21, with the list's length as offset.
///
/// ```
/// let list = [1, 0x30, 0x32, 0x23, 3, 0, 0, 0, 7]; // processor 1, N = 4, C = 8; second 7
/// assert_eq!(dfb::check_commands(&list)?, [0x3223, 0, 0, 0, 0, 0, 0]);
/// let swapped = [1, 0x30, 0x23, 0x23, 3, 0, 0, 0, 7]; // N = 8, C = 4
/// let refused = dfb::RefusedAt { refusal: dfb::Refusal::AveragesOverPeriod, offset: 4 };
/// assert_eq!(dfb::check_commands(&swapped), Err(refused));
/// # Ok::<(), dfb::RefusedAt>(())
/// ```
pub fn check_commands(log: &[u8]) -> Result<[u16; REGISTERS], RefusedAt> {
    let mut registers = [0; REGISTERS];
    // SAFETY: as in command.
    let number = unsafe { ffi::dfb_check_commands(log.as_ptr(), log.len(), registers.as_mut_ptr(), registers.len()) };
    answer_at(number).map(|()| registers)
}

// Calls a function of the counting writer on a log, its bytes used, counts and registers.
macro_rules! counted {
    ($function:ident, $log:ident, $used:ident, $counts:ident, $registers:ident $(, $argument:expr)*) => {{
        let (log_len, counts_len, registers_len) = ($log.len(), $counts.len(), $registers.len());
        let (log, counts, registers) = ($log.as_mut_ptr(), $counts.as_mut_ptr(), $registers.as_mut_ptr());
        // SAFETY: as in command.
        let number = unsafe { ffi::$function(log, log_len, $used, counts, counts_len, registers, registers_len $(, $argument)*) };
        answer(number, REFUSED_63).map(|used| used as usize)
    }};
}

/// Writes a command to a counted log behind the bytes used, as it is sent; its register then has the value stored. The new number of bytes
/// used. Refusals 2 where `counts` or `registers` are not 7, 3, 1, then 2 for room.
pub fn counted_command(
    log: &mut [u8],
    used: usize,
    counts: &mut [u64],
    registers: &mut [u16],
    id: u8,
    information: u16,
) -> Result<usize, Refusal> {
    counted!(dfb_counted_command, log, used, counts, registers, id, information)
}

/// Writes a second mark: the new number of bytes used. Refusals 2, 3, 2.
pub fn counted_mark(log: &mut [u8], used: usize, counts: &mut [u64], registers: &mut [u16], seconds: u32) -> Result<usize, Refusal> {
    counted!(dfb_counted_mark, log, used, counts, registers, seconds)
}

/// Writes a tick: the new number of bytes used. Refusals 2, 3, 2.
pub fn counted_tick(log: &mut [u8], used: usize, counts: &mut [u64], registers: &mut [u16]) -> Result<usize, Refusal> {
    counted!(dfb_counted_tick, log, used, counts, registers)
}

/// Writes one waveform set, and raises the count of its APID by 1: the new number of bytes used. Refusals 2, 3, 4, 5, 2.
pub fn counted_set(
    log: &mut [u8],
    used: usize,
    counts: &mut [u64],
    registers: &mut [u16],
    apid: u8,
    samples: &[i16],
) -> Result<usize, Refusal> {
    counted!(dfb_counted_set, log, used, counts, registers, apid, samples.as_ptr(), samples.len())
}

/// Writes one SPEC set, the words of a report by the registers, and raises the last count by 1: the new number of bytes used. Refusals 2, 3,
/// 6, 5, 7, 2.
pub fn counted_report(log: &mut [u8], used: usize, counts: &mut [u64], registers: &mut [u16], words: &[u8]) -> Result<usize, Refusal> {
    counted!(dfb_counted_report, log, used, counts, registers, words.as_ptr(), words.len())
}

/// Counts the sets of a whole log of any length, read from reset: its tally, or the refusal of the record at fault with its offset. Refusals
/// of a record 9, 10, 5, then 1 for a command, 4, 6, 7 for a word; 5 with the log's length as offset for a set cut by its end.
pub fn count_sets(log: &[u8]) -> Result<Tally, RefusedAt> {
    let (mut counts, mut registers) = ([0; COUNTS], [0; REGISTERS]);
    // SAFETY: as in command.
    let number =
        unsafe { ffi::dfb_count_sets(log.as_ptr(), log.len(), counts.as_mut_ptr(), counts.len(), registers.as_mut_ptr(), registers.len()) };
    answer_at(number).map(|()| Tally { counts, registers })
}

/// The band of an FFT bin. Refusal 12.
pub fn band_of(setting: u8, bin: u16) -> Result<u8, Refusal> {
    // SAFETY: numbers only. So it is in each call below that has no slice.
    let number = unsafe { ffi::dfb_band_of(setting, bin) };
    answer(number.into(), REFUSED_8).map(|band| band as u8)
}

/// The band code of a value: the nearer of the two neighbouring legal values, and the upper one halfway.
pub fn compress_band(value: u32) -> u8 {
    // SAFETY: as in band_of.
    unsafe { ffi::dfb_compress_band(value) }
}

/// The value of a band code, at most 2^32. Refusal 7.
pub fn expand_band(code: u8) -> Result<u64, Refusal> {
    // SAFETY: as in band_of.
    answer(unsafe { ffi::dfb_expand_band(code) }, REFUSED_63)
}

/// The sum code of a value.
pub fn compress_sum(value: u64) -> u16 {
    // SAFETY: as in band_of.
    unsafe { ffi::dfb_compress_sum(value) }
}

/// Writes the value of a sum code to `value[0]`. Refusals 8, then 2 where `value` is empty.
pub fn expand_sum(code: u16, value: &mut [u64]) -> Result<(), Refusal> {
    // SAFETY: as in command.
    let number = unsafe { ffi::dfb_expand_sum(code, value.as_mut_ptr(), value.len()) };
    answer(number.into(), REFUSED_16).map(|_| ())
}

/// Writes low edge, centre and width of a band in hertz to `three[0..3]`. Refusals 12, then 2 where `three` is shorter.
pub fn describe_band(setting: u8, band: u8, three: &mut [f32]) -> Result<(), Refusal> {
    // SAFETY: as in command.
    let number = unsafe { ffi::dfb_describe_band(setting, band, three.as_mut_ptr(), three.len()) };
    answer(number.into(), REFUSED_16).map(|_| ())
}

/// Writes the cadence of an NCAD choice to `value[0]`: a rate per second or a period in seconds, as the answer says. Refusals 12, then 2
/// where `value` is empty.
pub fn cadence_of(choice: u8, value: &mut [f32]) -> Result<Cadence, Refusal> {
    // SAFETY: as in command.
    let number = unsafe { ffi::dfb_cadence_of(choice, value.as_mut_ptr(), value.len()) };
    match answer(number.into(), REFUSED_16)? {
        0 => Ok(Cadence::Rate),
        1 => Ok(Cadence::Period),
        other => panic!("libdfb answered {other}, which is no answer of a cadence"),
    }
}

/// Converts 112 totals to those of 36 bands (setting 0) or 64 (setting 1) of the same spectra: how many were written to `out`. Refusals 12, 2,
/// then 24 for a total over `MOST_TOTAL`.
///
/// ```
/// let mut board = dfb::Board::reset();
/// board.command(0x30, 0x11A0)?; // processor 1, 112 bands, N = C = 2
/// board.tick(&[3; dfb::POWERS], &mut [0; dfb::OUTPUT])?;
/// let mut coarse = [0; 36];
/// assert_eq!(dfb::coarse_totals(0, &board.totals()[..dfb::FINE_TOTALS], &mut coarse)?, 36);
/// assert_eq!((coarse[0], coarse[8], coarse[35]), (3, 2 * 3, 128 * 3));
/// # Ok::<(), dfb::Refusal>(())
/// ```
pub fn coarse_totals(setting: u8, fine: &[u64], out: &mut [u64]) -> Result<usize, Refusal> {
    // SAFETY: as in command.
    let number = unsafe { ffi::dfb_coarse_totals(setting, fine.as_ptr(), fine.len(), out.as_mut_ptr(), out.len()) };
    answer(number.into(), REFUSED_16).map(|count| count as usize)
}

/// Offers a block to the burst slots (status 0 free, 1 held, 2 sending). Refusals 2, 3; a block that is turned away is an `Offer` too.
pub fn burst_offer(status: &mut [u8], criteria: &mut [u32], criterion: u32) -> Result<Offer, Refusal> {
    // SAFETY: as in command.
    let number = unsafe { ffi::dfb_burst_offer(status.as_mut_ptr(), status.len(), criteria.as_mut_ptr(), criteria.len(), criterion) };
    let (low, looked) = (u64::from(number & 0xF_FFFF), (number >> 20) as usize);
    match answer(low, REFUSED_16) {
        Ok(slot) => Ok(Offer::Taken { slot: slot as usize, looked }),
        Err(Refusal::TurnedAway) => Ok(Offer::TurnedAway { looked }),
        Err(refusal) => Err(refusal),
    }
}

/// Chooses the burst slot to send next. Refusals 2, 3, 27, 26.
pub fn burst_choose(status: &mut [u8], criteria: &mut [u32]) -> Result<usize, Refusal> {
    // SAFETY: as in command.
    let number = unsafe { ffi::dfb_burst_choose(status.as_mut_ptr(), status.len(), criteria.as_mut_ptr(), criteria.len()) };
    answer(number.into(), REFUSED_16).map(|slot| slot as usize)
}

/// Frees the burst slot that was sending. Refusals 2, 3, 28.
pub fn burst_finish(status: &mut [u8], criteria: &mut [u32]) -> Result<usize, Refusal> {
    // SAFETY: as in command.
    let number = unsafe { ffi::dfb_burst_finish(status.as_mut_ptr(), status.len(), criteria.as_mut_ptr(), criteria.len()) };
    answer(number.into(), REFUSED_16).map(|slot| slot as usize)
}

/// First and last block of the Burst 1 interval to send. Refusals 2, 29, 26.
pub fn choose_interval(index: &[u32], bonus: u32, limit: u32) -> Result<(usize, usize), Refusal> {
    // SAFETY: as in command.
    let number = unsafe { ffi::dfb_choose_interval(index.as_ptr(), index.len(), bonus, limit) };
    answer(number, REFUSED_63).map(|ends| ((ends & 0xFFFF) as usize, (ends >> 16) as usize))
}

/// Reads one packet of an LFR snapshot (TM_LF_RSWF): its header, and how many samples were written, in the order of the packet. Refusals 16
/// for a packet under 20 bytes, 14, 15, 16 for a length that is not what the mask says, then 2 where `samples` are fewer.
pub fn snapshot_read(packet: &[u8], samples: &mut [i16]) -> Result<(SnapshotHeader, usize), Refusal> {
    let mut numbers = [0; SNAPSHOT_HEADER];
    // SAFETY: as in command.
    let number = unsafe {
        ffi::dfb_snapshot_read(packet.as_ptr(), packet.len(), numbers.as_mut_ptr(), numbers.len(), samples.as_mut_ptr(), samples.len())
    };
    let count = answer(number.into(), REFUSED_16)?;
    let header = numbers.try_into().unwrap_or_else(|_| panic!("libdfb gave {numbers:?}, which is no header of a snapshot packet"));
    Ok((header, count as usize))
}

/// Writes one packet of an LFR snapshot: how many bytes were written. Refusals 15, 16 for a number of samples that is not what the mask says,
/// then 2 where `packet` is shorter.
///
/// ```
/// let header = dfb::SnapshotHeader {
///     coarse_difference: 1,
///     fine_time: 0x8000,
///     sequence: 7,
///     switches_8: 0x0102_0304,
///     switches_12: 5,
///     component_mask: 0x81, // two components
///     total_packets: 3,
///     artefacts: 0,
///     snapshot_number: 9,
///     packet_number: 2,
/// };
/// let mut packet = [0; dfb::MOST_SNAPSHOT_BYTES];
/// let bytes = dfb::snapshot_write(&header, &[-2; 256], &mut packet)?;
/// assert_eq!(bytes, 20 + 2 * 256);
/// assert_eq!(packet[..8], [33, 0, 1, 0x80, 0, 0, 7, 8]);
/// assert_eq!(packet[18..22], [0, 2, 0xFF, 0xFE]);
///
/// let mut samples = [0; dfb::MOST_SNAPSHOT_SAMPLES];
/// assert_eq!(dfb::snapshot_read(&packet[..bytes], &mut samples)?, (header, 256));
/// assert_eq!(samples[..256], [-2; 256]);
/// assert_eq!(dfb::snapshot_read(&packet, &mut samples), Err(dfb::Refusal::WrongPacketLength));
/// # Ok::<(), dfb::Refusal>(())
/// ```
pub fn snapshot_write(header: &SnapshotHeader, samples: &[i16], packet: &mut [u8]) -> Result<usize, Refusal> {
    let numbers: [u32; SNAPSHOT_HEADER] = (*header).into();
    // SAFETY: as in command.
    let number = unsafe {
        ffi::dfb_snapshot_write(numbers.as_ptr(), numbers.len(), samples.as_ptr(), samples.len(), packet.as_mut_ptr(), packet.len())
    };
    answer(number.into(), REFUSED_16).map(|bytes| bytes as usize)
}

/// Adds one component of a summed spectrum to the totals of each mask that has it: the bytes written to the start of `out`, `SUM_OUTPUT` with
/// component 7 and 0 before it. The masks of component 0 hold for all eight. Refusals 2, 3, 17.
pub fn sum_component(
    state: &mut [u8],
    totals: &mut [u64],
    component: u8,
    first_mask: u8,
    second_mask: u8,
    pairs: &[i16],
    out: &mut [u8],
) -> Result<usize, Refusal> {
    // SAFETY: as in command.
    let number = unsafe {
        ffi::dfb_sum_component(
            state.as_mut_ptr(),
            state.len(),
            totals.as_mut_ptr(),
            totals.len(),
            component,
            first_mask,
            second_mask,
            pairs.as_ptr(),
            pairs.len(),
            out.as_mut_ptr(),
            out.len(),
        )
    };
    answer(number.into(), REFUSED_16).map(|bytes| bytes as usize)
}

/// Bytes that are enough for the space packets of so many samples, whatever their APID.
pub const fn packets_room(samples: usize) -> usize {
    2 * samples + PACKET_HEADER * (samples / 2043 + 1)
}

/// How many bytes the space packet at the front of a list has, by its own length field; the next packet begins behind them. 0 where the list
/// is shorter than that, or than a header.
pub fn packet_bytes(bytes: &[u8]) -> usize {
    match *bytes {
        [_, _, _, _, high, low, ..] => {
            let packet = PACKET_HEADER + 1 + u16::from_be_bytes([high, low]) as usize;
            if packet <= bytes.len() {
                packet
            } else {
                0
            }
        }
        _ => 0,
    }
}

/// Exports whole sets of a waveform APID as space packets (CCSDS 133.0-B), one after the other, each with as many sets as fit: the bytes
/// written to the start of `out`, and the next count. `first` is the count of the first packet. Refusals 4 (0x4E too), 22 for a first count
/// over `LAST_PACKET_COUNT`, 23 for samples that are none or not whole sets, then 2 where `out` is shorter than the packets.
///
/// ```
/// let samples = [1, -2, 256].repeat(682); // 682 sets of 3: one more than fit
/// let mut out = vec![0; dfb::packets_room(samples.len())];
/// assert_eq!(dfb::export_packets(0x43, dfb::LAST_PACKET_COUNT, &samples, &mut out)?, (4092 + 12, 1));
/// assert_eq!(out[..12], [0x00, 0x43, 0xFF, 0xFF, 0x0F, 0xF5, 0x00, 0x01, 0xFF, 0xFE, 0x01, 0x00]);
/// assert_eq!(out[4092..4098], [0x00, 0x43, 0xC0, 0x00, 0x00, 0x05]);
///
/// let (first, last) = out[..4104].split_at(dfb::packet_bytes(&out));
/// let mut imported = [0; dfb::PACKET_SAMPLES];
/// assert_eq!(dfb::import_packet(first, &mut imported)?, (dfb::PacketHeader { apid: 0x43, count: 16383 }, 2043));
/// assert_eq!(imported[..2043], samples[..2043]);
/// assert_eq!(dfb::import_packet(last, &mut imported)?, (dfb::PacketHeader { apid: 0x43, count: 0 }, 3));
/// assert_eq!(dfb::import_packet(&last[..11], &mut imported), Err(dfb::Refusal::WrongDataLength));
/// # Ok::<(), dfb::Refusal>(())
/// ```
pub fn export_packets(apid: u8, first: u16, samples: &[i16], out: &mut [u8]) -> Result<(usize, u16), Refusal> {
    let mut count = [first];
    // SAFETY: as in command.
    let number = unsafe {
        ffi::dfb_export_packets(apid, count.as_mut_ptr(), count.len(), samples.as_ptr(), samples.len(), out.as_mut_ptr(), out.len())
    };
    answer(number, REFUSED_63).map(|bytes| (bytes as usize, count[0]))
}

/// Imports one space packet: its header, and how many samples were written. Refusals 23 for a packet under 6 bytes, 4 (0x4E too), 22 for another
/// field of the header that is not as stated, 23 for bytes behind the header that are not as many as its length field says, too many for
/// `PACKET_BYTES`, not whole sets, or none, then 2 where `samples` are fewer.
pub fn import_packet(packet: &[u8], samples: &mut [i16]) -> Result<(PacketHeader, usize), Refusal> {
    let mut numbers = [0; PACKET_NUMBERS];
    // SAFETY: as in command.
    let number = unsafe {
        ffi::dfb_import_packet(packet.as_ptr(), packet.len(), numbers.as_mut_ptr(), numbers.len(), samples.as_mut_ptr(), samples.len())
    };
    let [apid, count] = numbers;
    answer(number.into(), REFUSED_16).map(|written| (PacketHeader { apid, count }, written as usize))
}
