//! The implementations that tests and benchmark set side by side, under one interface. Answers are the numbers of include/dfb.h.
use crate::{model, plain_rust};

/// State, totals, powers and output.
type Tick = fn(&mut [u16], &mut [u64], &[u32], &mut [u8]) -> u32;

/// A call of the counting writer.
#[derive(Clone, Copy, Debug)]
pub enum Call<'a> {
    Command(u8, u16),
    Mark(u32),
    Tick,
    Set(u8, &'a [i16]),
    Report(&'a [u8]),
}

/// State, totals, component, the two masks, pairs and output.
type SumComponent = fn(&mut [u8], &mut [u64], u8, [u8; 2], &[i16], &mut [u8]) -> u32;

/// Log, bytes used, counts and registers, and the call.
type Counted = fn(&mut [u8], usize, &mut [u64], &mut [u16], Call) -> u64;

pub struct Implementation {
    pub name: &'static str,
    pub tick: Tick,
    pub coarse_totals: fn(u8, &[u64], &mut [u64]) -> u32,
    pub pack: fn(u8, &[i16], &mut [u8]) -> u32,
    pub append: fn(&mut [u8], usize, u8, u8, u32) -> u64,
    pub listing: fn(&[u8], &mut [u8]) -> u64,
    pub check_commands: fn(&[u8], &mut [u16]) -> u64,
    pub counted: Counted,
    pub count_sets: fn(&[u8], &mut [u64], &mut [u16]) -> u64,
    pub walk_next: fn(&[u8], &mut [u64], &mut [u64]) -> u64,
    pub snapshot_read: fn(&[u8], &mut [u32], &mut [i16]) -> u32,
    pub snapshot_write: fn(&[u32], &[i16], &mut [u8]) -> u32,
    pub sum_component: SumComponent,
    pub export_packets: fn(u8, &mut [u16], &[i16], &mut [u8]) -> u64,
    pub import_packet: fn(&[u8], &mut [u16], &mut [i16]) -> u32,
}

/// An implementation over the C functions of a module.
macro_rules! over_c {
    ($name:literal, $module:ident) => {
        // SAFETY: each pointer is valid for its length, and no two slices overlap.
        Implementation {
            name: $name,
            tick: |state, totals, powers, out| unsafe {
                let (state_len, totals_len, out_len) = (state.len(), totals.len(), out.len());
                $module::tick(
                    state.as_mut_ptr(),
                    state_len,
                    totals.as_mut_ptr(),
                    totals_len,
                    powers.as_ptr(),
                    powers.len(),
                    out.as_mut_ptr(),
                    out_len,
                )
            },
            coarse_totals: |setting, fine, out| unsafe {
                $module::coarse_totals(setting, fine.as_ptr(), fine.len(), out.as_mut_ptr(), out.len())
            },
            pack: |apid, samples, out| unsafe { $module::pack(apid, samples.as_ptr(), samples.len(), out.as_mut_ptr(), out.len()) },
            append: |log, used, kind, a, b| unsafe { $module::append(log.as_mut_ptr(), log.len(), used, kind, a, b) },
            listing: |log, out| unsafe { $module::listing(log.as_ptr(), log.len(), out.as_mut_ptr(), out.len()) },
            check_commands: |log, registers| unsafe {
                $module::check_commands(log.as_ptr(), log.len(), registers.as_mut_ptr(), registers.len())
            },
            counted: |log, used, counts, registers, call| unsafe {
                let (log, log_len, counts, counts_len) = (log.as_mut_ptr(), log.len(), counts.as_mut_ptr(), counts.len());
                let (registers, registers_len) = (registers.as_mut_ptr(), registers.len());
                match call {
                    Call::Command(id, information) => {
                        $module::counted_command(log, log_len, used, counts, counts_len, registers, registers_len, id, information)
                    }
                    Call::Mark(seconds) => $module::counted_mark(log, log_len, used, counts, counts_len, registers, registers_len, seconds),
                    Call::Tick => $module::counted_tick(log, log_len, used, counts, counts_len, registers, registers_len),
                    Call::Set(apid, samples) => {
                        let (samples, samples_len) = (samples.as_ptr(), samples.len());
                        $module::counted_set(log, log_len, used, counts, counts_len, registers, registers_len, apid, samples, samples_len)
                    }
                    Call::Report(words) => {
                        let (words, words_len) = (words.as_ptr(), words.len());
                        $module::counted_report(log, log_len, used, counts, counts_len, registers, registers_len, words, words_len)
                    }
                }
            },
            count_sets: |log, counts, registers| unsafe {
                let (counts, counts_len, registers, registers_len) =
                    (counts.as_mut_ptr(), counts.len(), registers.as_mut_ptr(), registers.len());
                $module::count_sets(log.as_ptr(), log.len(), counts, counts_len, registers, registers_len)
            },
            walk_next: |log, walk, item| unsafe {
                $module::walk_next(log.as_ptr(), log.len(), walk.as_mut_ptr(), walk.len(), item.as_mut_ptr(), item.len())
            },
            snapshot_read: |packet, header, samples| unsafe {
                let (header, header_len, samples, samples_len) = (header.as_mut_ptr(), header.len(), samples.as_mut_ptr(), samples.len());
                $module::snapshot_read(packet.as_ptr(), packet.len(), header, header_len, samples, samples_len)
            },
            snapshot_write: |header, samples, packet| unsafe {
                let (header, header_len, samples, samples_len) = (header.as_ptr(), header.len(), samples.as_ptr(), samples.len());
                $module::snapshot_write(header, header_len, samples, samples_len, packet.as_mut_ptr(), packet.len())
            },
            sum_component: |state, totals, component, [first, second], pairs, out| unsafe {
                let (state_len, totals_len, out_len) = (state.len(), totals.len(), out.len());
                $module::sum_component(
                    state.as_mut_ptr(),
                    state_len,
                    totals.as_mut_ptr(),
                    totals_len,
                    component,
                    first,
                    second,
                    pairs.as_ptr(),
                    pairs.len(),
                    out.as_mut_ptr(),
                    out_len,
                )
            },
            export_packets: |apid, count, samples, out| unsafe {
                let (count, count_len, out, out_len) = (count.as_mut_ptr(), count.len(), out.as_mut_ptr(), out.len());
                $module::export_packets(apid, count, count_len, samples.as_ptr(), samples.len(), out, out_len)
            },
            import_packet: |packet, header, samples| unsafe {
                let (header, header_len, samples, samples_len) = (header.as_mut_ptr(), header.len(), samples.as_mut_ptr(), samples.len());
                $module::import_packet(packet.as_ptr(), packet.len(), header, header_len, samples, samples_len)
            },
        }
    };
}

/// The functions that one compiler made of plain.c, under the names with its prefix.
#[cfg(any(gcc, clang))]
macro_rules! declare {
    ($module:ident, $prefix:literal) => {
        mod $module {
            extern "C" {
                #[link_name = concat!($prefix, "tick")]
                pub fn tick(
                    state: *mut u16,
                    state_len: usize,
                    totals: *mut u64,
                    totals_len: usize,
                    powers: *const u32,
                    powers_len: usize,
                    out: *mut u8,
                    out_len: usize,
                ) -> u32;
                #[link_name = concat!($prefix, "coarse_totals")]
                pub fn coarse_totals(setting: u8, fine: *const u64, fine_len: usize, out: *mut u64, out_len: usize) -> u32;
                #[link_name = concat!($prefix, "pack")]
                pub fn pack(apid: u8, samples: *const i16, samples_len: usize, out: *mut u8, out_len: usize) -> u32;
                #[link_name = concat!($prefix, "append")]
                pub fn append(log: *mut u8, log_len: usize, used: usize, kind: u8, a: u8, b: u32) -> u64;
                #[link_name = concat!($prefix, "listing")]
                pub fn listing(log: *const u8, log_len: usize, out: *mut u8, out_len: usize) -> u64;
                #[link_name = concat!($prefix, "check_commands")]
                pub fn check_commands(log: *const u8, log_len: usize, registers: *mut u16, registers_len: usize) -> u64;
                #[link_name = concat!($prefix, "counted_command")]
                pub fn counted_command(
                    log: *mut u8,
                    log_len: usize,
                    used: usize,
                    counts: *mut u64,
                    counts_len: usize,
                    registers: *mut u16,
                    registers_len: usize,
                    id: u8,
                    information: u16,
                ) -> u64;
                #[link_name = concat!($prefix, "counted_mark")]
                pub fn counted_mark(
                    log: *mut u8,
                    log_len: usize,
                    used: usize,
                    counts: *mut u64,
                    counts_len: usize,
                    registers: *mut u16,
                    registers_len: usize,
                    seconds: u32,
                ) -> u64;
                #[link_name = concat!($prefix, "counted_tick")]
                pub fn counted_tick(
                    log: *mut u8,
                    log_len: usize,
                    used: usize,
                    counts: *mut u64,
                    counts_len: usize,
                    registers: *mut u16,
                    registers_len: usize,
                ) -> u64;
                #[link_name = concat!($prefix, "counted_set")]
                pub fn counted_set(
                    log: *mut u8,
                    log_len: usize,
                    used: usize,
                    counts: *mut u64,
                    counts_len: usize,
                    registers: *mut u16,
                    registers_len: usize,
                    apid: u8,
                    samples: *const i16,
                    samples_len: usize,
                ) -> u64;
                #[link_name = concat!($prefix, "counted_report")]
                pub fn counted_report(
                    log: *mut u8,
                    log_len: usize,
                    used: usize,
                    counts: *mut u64,
                    counts_len: usize,
                    registers: *mut u16,
                    registers_len: usize,
                    words: *const u8,
                    words_len: usize,
                ) -> u64;
                #[link_name = concat!($prefix, "count_sets")]
                pub fn count_sets(
                    log: *const u8,
                    log_len: usize,
                    counts: *mut u64,
                    counts_len: usize,
                    registers: *mut u16,
                    registers_len: usize,
                ) -> u64;
                #[link_name = concat!($prefix, "walk_next")]
                pub fn walk_next(log: *const u8, log_len: usize, walk: *mut u64, walk_len: usize, item: *mut u64, item_len: usize) -> u64;
                #[link_name = concat!($prefix, "snapshot_read")]
                pub fn snapshot_read(
                    packet: *const u8,
                    packet_len: usize,
                    header: *mut u32,
                    header_len: usize,
                    samples: *mut i16,
                    samples_len: usize,
                ) -> u32;
                #[link_name = concat!($prefix, "snapshot_write")]
                pub fn snapshot_write(
                    header: *const u32,
                    header_len: usize,
                    samples: *const i16,
                    samples_len: usize,
                    packet: *mut u8,
                    packet_len: usize,
                ) -> u32;
                #[link_name = concat!($prefix, "sum_component")]
                pub fn sum_component(
                    state: *mut u8,
                    state_len: usize,
                    totals: *mut u64,
                    totals_len: usize,
                    component: u8,
                    first_mask: u8,
                    second_mask: u8,
                    pairs: *const i16,
                    pairs_len: usize,
                    out: *mut u8,
                    out_len: usize,
                ) -> u32;
                #[link_name = concat!($prefix, "export_packets")]
                pub fn export_packets(
                    apid: u8,
                    count: *mut u16,
                    count_len: usize,
                    samples: *const i16,
                    samples_len: usize,
                    out: *mut u8,
                    out_len: usize,
                ) -> u64;
                #[link_name = concat!($prefix, "import_packet")]
                pub fn import_packet(
                    packet: *const u8,
                    packet_len: usize,
                    header: *mut u16,
                    header_len: usize,
                    samples: *mut i16,
                    samples_len: usize,
                ) -> u32;
                #[link_name = concat!($prefix, "sum")]
                pub fn sum(powers: *const u32, powers_len: usize) -> u64;
            }
        }
    };
}

#[cfg(gcc)]
declare!(gcc, "gcc_");
#[cfg(clang)]
declare!(clang, "clang_");

/// The library's functions under the same names.
mod library {
    pub use dfb::ffi::{
        dfb_append as append, dfb_check_commands as check_commands, dfb_coarse_totals as coarse_totals, dfb_count_sets as count_sets,
        dfb_counted_command as counted_command, dfb_counted_mark as counted_mark, dfb_counted_report as counted_report,
        dfb_counted_set as counted_set, dfb_counted_tick as counted_tick, dfb_export_packets as export_packets,
        dfb_import_packet as import_packet, dfb_listing as listing, dfb_pack as pack, dfb_snapshot_read as snapshot_read,
        dfb_snapshot_write as snapshot_write, dfb_sum_component as sum_component, dfb_tick as tick, dfb_walk_next as walk_next,
    };
}

/// The proved library.
pub fn proved() -> Implementation {
    over_c!("proved", library)
}

/// Plain C by each compiler that is there.
pub fn plain_c() -> Vec<Implementation> {
    vec![
        #[cfg(gcc)]
        over_c!("gcc -O3", gcc),
        #[cfg(clang)]
        over_c!("clang -O3", clang),
    ]
}

/// Plain Rust: pack and listing are the model's.
pub fn plain_rust() -> Implementation {
    Implementation {
        name: "plain Rust",
        tick: plain_rust::tick,
        coarse_totals: plain_rust::coarse_totals,
        pack: |apid, samples, out| match model::pack(apid, samples, out) {
            Ok(count) => count as u32,
            Err(refusal) => 0x10000 + refusal as u32,
        },
        append: plain_rust::append,
        listing: |log, out| match model::listing(log, out) {
            Ok(count) => count as u64,
            Err(refusal) => (1 << 63) + refusal as u64,
        },
        check_commands: plain_rust::check_commands,
        counted: plain_rust::counted,
        count_sets: plain_rust::count_sets,
        walk_next: plain_rust::walk_next,
        snapshot_read: plain_rust::snapshot_read,
        snapshot_write: plain_rust::snapshot_write,
        sum_component: plain_rust::sum_component,
        export_packets: plain_rust::export_packets,
        import_packet: plain_rust::import_packet,
    }
}

/// One plain loop that sums powers, by each compiler.
pub fn sums() -> Vec<fn(&[u32]) -> u64> {
    vec![
        // SAFETY: each pointer is valid for its length.
        #[cfg(gcc)]
        |powers| unsafe { gcc::sum(powers.as_ptr(), powers.len()) },
        #[cfg(clang)]
        |powers| unsafe { clang::sum(powers.as_ptr(), powers.len()) },
        plain_rust::sum,
    ]
}
