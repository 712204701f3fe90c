"""The stand-in for the Digital Fields Board, for scripts: a thin module over the proved library libdfb.so (include/dfb.h).

Each function calls the C function of its name. A refusal raises Refused with its number and changes nothing. A number that does not fit
its C type raises OverflowError. libdfb.so is looked for in the folder DFB_LIB, or beside this file, in dist/ of the repository, or in lib/
of an installation.
"""
import array
import ctypes
import os
import typing

__version__ = "0.13.0"

STATE, TOTALS, POWERS, OUTPUT = 9, 784, 7168, 1176
RECORD, MOST_WORDS = 3, 7
REGISTERS = 7
WALK, ITEM = 9, 5
COUNTS = 7
FINE_TOTALS, MOST_TOTAL = 112, 1 << 49
SNAPSHOT_HEADER, MOST_SNAPSHOT_SAMPLES, MOST_SNAPSHOT_BYTES = 10, 1024, 2068
SUM_COMPONENTS, SUM_BINS = 8, 1024
SUM_STATE, SUM_TOTALS, SUM_PAIRS, SUM_OUTPUT = 3, 2048, 2048, 4096
PACKET_HEADER, PACKET_BYTES, PACKET_SAMPLES, PACKET_NUMBERS, LAST_PACKET_COUNT = 6, 4096, 2044, 2, 16383
END, COMMAND, WORD, SECOND_MARK, TICK = 0, 1, 2, 3, 4
SET = 2
FREE, HELD, SENDING = 0, 1, 2

MEANINGS = {
    1: "the command ID is outside 0x30 to 0x36",
    2: "a list has a wrong length, an output is too small, or a place or number does not fit",
    3: "the state is not one that the board, the slots, the counting writer or a sum can have left",
    4: "the APID is none of the seven, or 0x4E where a waveform's is wanted",
    5: "the words are not exactly one set",
    6: "a SPEC word with no processor enabled",
    7: "the band code is not legal",
    8: "the sum code's value is 2^64 or more",
    9: "the record kind is none of 1 to 4",
    10: "the log ends within a record",
    11: "the log is over 65,536 bytes",
    12: "a bin setting, band, FFT bin or NCAD choice is out of range, or a target is not 36 or 64 bands",
    14: "the packet's SID is not 33 or its auxiliary length is not 8",
    15: "the total of packets is over 3072, or the packet number is not below the total",
    16: "the packet is under 20 bytes, or its bytes or samples are not as many as its mask says",
    17: "the component is not the next one",
    18: "the record is neither a command nor a second mark",
    19: "the second is smaller than that of the mark before it",
    20: "the register would store another value than the one sent",
    21: "a processor is enabled and N is above C",
    22: "a space packet's header field is not as stated, or the first count is over 16383",
    23: "a space packet has a wrong length, or its samples are none or not whole sets",
    24: "a band total is over 2^49",
    25: "no slot is free and no held slot has a smaller criterion",
    26: "nothing is held to send, or no criterion is above 0",
    27: "a slot is already sending",
    28: "no slot is sending",
    29: "the limit is 0 blocks",
}


class Refused(Exception):
    """A refusal; `number` is its number in the rules, `offset` that of the record at fault, or None where the function gives no offset."""

    def __init__(self, number, offset=None):
        place = "" if offset is None else ", at offset %d" % offset
        super().__init__("refusal %d: %s%s" % (number, MEANINGS[number], place))
        self.number, self.offset = number, offset


def _load():
    here = os.path.dirname(os.path.abspath(__file__))
    folders = [here, os.path.join(here, "..", "dist"), os.path.join(here, "..", "..", "lib")]
    if "DFB_LIB" in os.environ:
        folders = [os.environ["DFB_LIB"]]
    for folder in folders:
        path = os.path.join(folder, "libdfb.so")
        if os.path.exists(path):
            return ctypes.CDLL(path)
    raise ImportError("libdfb.so is not in " + " nor in ".join(folders))


U8, U16, U32, U64, SIZE = ctypes.c_uint8, ctypes.c_uint16, ctypes.c_uint32, ctypes.c_uint64, ctypes.c_size_t


def _list(c_type):
    return [ctypes.POINTER(c_type), SIZE]


# A log, its bytes used, counts and registers.
_counted = _list(U8) + [SIZE] + _list(U64) + _list(U16)

_library = _load()
for _name, _answer, _arguments in (
    ("command", U32, _list(U16) + _list(U64) + [U8, U16]),
    ("read", U32, _list(U16) + [U8]),
    ("tick", U32, _list(U16) + _list(U64) + _list(U32) + _list(U8)),
    ("pack", U32, [U8] + _list(ctypes.c_int16) + _list(U8)),
    ("unpack", U32, [U8] + _list(U8) + _list(ctypes.c_int16)),
    ("append", U64, _list(U8) + [SIZE, U8, U8, U32]),
    ("read_record", U64, _list(U8) + [SIZE] + _list(U32)),
    ("listing", U64, _list(U8) + _list(U8)),
    ("walk_next", U64, _list(U8) + _list(U64) + _list(U64)),
    ("check_commands", U64, _list(U8) + _list(U16)),
    ("counted_command", U64, _counted + [U8, U16]),
    ("counted_mark", U64, _counted + [U32]),
    ("counted_tick", U64, _counted),
    ("counted_set", U64, _counted + [U8] + _list(ctypes.c_int16)),
    ("counted_report", U64, _counted + _list(U8)),
    ("count_sets", U64, _list(U8) + _list(U64) + _list(U16)),
    ("band_of", U16, [U8, U16]),
    ("compress_band", U8, [U32]),
    ("expand_band", U64, [U8]),
    ("compress_sum", U16, [U64]),
    ("expand_sum", U32, [U16] + _list(U64)),
    ("describe_band", U32, [U8, U8] + _list(ctypes.c_float)),
    ("cadence_of", U32, [U8] + _list(ctypes.c_float)),
    ("coarse_totals", U32, [U8] + _list(U64) + _list(U64)),
    ("burst_offer", U32, _list(U8) + _list(U32) + [U32]),
    ("burst_choose", U32, _list(U8) + _list(U32)),
    ("burst_finish", U32, _list(U8) + _list(U32)),
    ("choose_interval", U64, _list(U32) + [U32, U32]),
    ("snapshot_read", U32, _list(U8) + _list(U32) + _list(ctypes.c_int16)),
    ("snapshot_write", U32, _list(U32) + _list(ctypes.c_int16) + _list(U8)),
    ("sum_component", U32, _list(U8) + _list(U64) + [U8, U8, U8] + _list(ctypes.c_int16) + _list(U8)),
    ("export_packets", U64, [U8] + _list(U16) + _list(ctypes.c_int16) + _list(U8)),
    ("import_packet", U32, _list(U8) + _list(U16) + _list(ctypes.c_int16)),
):
    _function = getattr(_library, "dfb_" + _name)
    _function.restype, _function.argtypes = _answer, _arguments


def _number(value, bits):
    """The number, which ctypes by itself would cut to its bits."""
    if not 0 <= value < 1 << bits:
        raise OverflowError("%d does not fit %d bits" % (value, bits))
    return value


def _numbers(type_code, c_type, values):
    """A C list of numbers; array raises OverflowError where one does not fit."""
    values = array.array(type_code, values)
    return (c_type * len(values)).from_buffer_copy(values)


def _answer_below(refused, answer):
    if answer >= refused:
        raise Refused(answer - refused)
    return answer


def _below_8(answer):
    return _answer_below(0x100, answer)


def _below_16(answer):
    return _answer_below(0x10000, answer)


def _below_63(answer):
    return _answer_below(1 << 63, answer)


def _below_63_at(answer):
    """The same where refusals have an offset."""
    if answer >= 1 << 63:
        raise Refused(answer & 0xFF, answer - (1 << 63) >> 8)
    return answer


class Report(typing.NamedTuple):
    """A report: its words as bytes, three for each, and its number: 1 for the first since the last accepted command, and 65,535 from the
    65,535th on."""

    words: bytes
    number: int


class Board:
    """A board after reset. Its state (registers 0x30 to 0x36, the phase, and the reports since the last accepted command) and totals are
    kept here between the calls."""

    def __init__(self):
        self.state = (U16 * STATE)()
        self.totals = (U64 * TOTALS)()

    def command(self, ident, information):
        """Sends a command: the value stored."""
        return _below_16(_library.dfb_command(self.state, STATE, self.totals, TOTALS, _number(ident, 8), _number(information, 16)))

    def read(self, ident):
        """The value of a register."""
        return _below_16(_library.dfb_read(self.state, STATE, _number(ident, 8)))

    def tick(self, powers):
        """One tick with 7 rows of 1,024 powers: "idle", "collected", "waiting", or a Report."""
        powers, out = _numbers("I", U32, powers), (U8 * OUTPUT)()
        answer = _library.dfb_tick(self.state, STATE, self.totals, TOTALS, powers, len(powers), out, OUTPUT)
        if answer >= 0x80000000:
            return Report(bytes(out[: 3 * (answer - 0x80000000 >> 16)]), answer & 0xFFFF)
        return ("idle", "collected", "waiting")[_below_16(answer)]


def pack(apid, samples):
    """The bytes of one waveform set."""
    samples, out = _numbers("h", ctypes.c_int16, samples), (U8 * (3 * MOST_WORDS))()
    return bytes(out[: _below_16(_library.dfb_pack(_number(apid, 8), samples, len(samples), out, len(out)))])


def unpack(apid, data):
    """The samples of one waveform set."""
    data, samples = _numbers("B", U8, data), (ctypes.c_int16 * MOST_WORDS)()
    return samples[: _below_16(_library.dfb_unpack(_number(apid, 8), data, len(data), samples, len(samples)))]


def append(log, used, kind, a=0, b=0):
    """Writes one record to the bytearray `log` behind the bytes used: the new number of bytes used. `a` is the ID or the APID, `b` the 16
    bits or the seconds."""
    numbers = _number(used, 64), _number(kind, 8), _number(a, 8), _number(b, 32)
    buffer = (U8 * len(log)).from_buffer(log)
    answer = _library.dfb_append(buffer, len(log), *numbers)
    del buffer  # a refusal's traceback would keep it, and the log's length fixed
    return _below_63(answer)


def _record_at(log, at):
    record = (U32 * RECORD)()
    following = _below_63(_library.dfb_read_record(log, len(log), _number(at, 64), record, RECORD))
    return (following, *record)


def read_record(log, at):
    """The record at a place of a log: the place after it, its kind, and a and b as in append. At the end the place stays, and kind is END."""
    return _record_at(_numbers("B", U8, log), at)


def records(log):
    """The records of a log, one after the other: the place, kind, a and b of each. Raises Refused at a record that is refused."""
    log, at = _numbers("B", U8, log), 0
    following, *record = _record_at(log, at)
    while record[0] != END:
        yield (at, *record)
        at = following
        following, *record = _record_at(log, at)


def listing(log):
    """The text that setlist prints for a log."""
    log = _numbers("B", U8, log)
    out = (U8 * (6 * len(log) + 64))()
    return bytes(out[: _below_63(_library.dfb_listing(log, len(log), out, len(out)))]).decode("ascii")


class Item(typing.NamedTuple):
    """An item of a log: END, COMMAND, SET, SECOND_MARK or TICK, its offset and bytes. a is the ID of a command, the APID of a set, a second
    mark's seconds or, at the end, the records of the log; b the value that a command stored or the words of a set."""

    kind: int
    offset: int
    bytes: int
    a: int
    b: int


def _item_at(log, numbers):
    item = (U64 * ITEM)()
    _below_63_at(_library.dfb_walk_next(log, len(log), numbers, len(numbers), item, ITEM))
    return Item(*item)


def walk_next(log, walk):
    """The Item at a walk's place, and the walk after it: nine numbers, the place, the records before it and the registers 0x30 to 0x36, all 0
    at the start. Raises Refused with the offset of the record at fault, or with the walk's place where it is past the
    log or the walk is not sound."""
    numbers = _numbers("Q", U64, walk)
    item = _item_at(_numbers("B", U8, log), numbers)
    return item, tuple(numbers)


def walk(log):
    """The items of a log of any length, one after the other, without the end. Raises Refused with the offset of the record at fault."""
    log, numbers = _numbers("B", U8, log), (U64 * WALK)()
    item = _item_at(log, numbers)
    while item.kind != END:
        yield item
        item = _item_at(log, numbers)


def check_commands(log):
    """Checks a planner's command list from reset: the final registers 0x30 to 0x36. Raises Refused with the offset of the first record at
    fault, or with the list's length where the end is at fault."""
    log, registers = _numbers("B", U8, log), (U16 * REGISTERS)()
    _below_63_at(_library.dfb_check_commands(log, len(log), registers, REGISTERS))
    return tuple(registers)


class Tally(typing.NamedTuple):
    """The number of finished sets of each APID of a log (0x43 to 0x48, then 0x4E), and the registers 0x30 to 0x36 at its end."""

    counts: tuple
    registers: tuple


def count_sets(log):
    """The Tally of a whole log of any length, read from reset. Raises Refused with the offset of the record at fault, or with the log's length
    for a set cut by its end."""
    log, counts, registers = _numbers("B", U8, log), (U64 * COUNTS)(), (U16 * REGISTERS)()
    _below_63_at(_library.dfb_count_sets(log, len(log), counts, COUNTS, registers, REGISTERS))
    return Tally(tuple(counts), tuple(registers))


class CountedLog:
    """A log with the number of its sets, begun empty in the bytearray `log`. The bytes used, counts and registers are kept here between the
    calls. Each call writes its records, all or none, behind the bytes used: the new number of bytes used."""

    def __init__(self, log):
        self.log, self.used = log, 0
        self._counts, self._registers = (U64 * COUNTS)(), (U16 * REGISTERS)()

    @classmethod
    def open(cls, log, used):
        """A log made elsewhere, of which so many bytes are used: its sets are counted. Raises Refused as count_sets does, and 2 at offset 0
        where `used` is past the end."""
        if _number(used, 64) > len(log):
            raise Refused(2, 0)
        counted, tally = cls(log), count_sets(log[:used])
        counted.used, counted._counts[:], counted._registers[:] = used, tally.counts, tally.registers
        return counted

    def command(self, ident, information):
        """Writes a command as it is sent; its register then has the value stored."""
        return self._write(_library.dfb_counted_command, _number(ident, 8), _number(information, 16))

    def mark(self, seconds):
        """Writes a second mark."""
        return self._write(_library.dfb_counted_mark, _number(seconds, 32))

    def tick(self):
        """Writes a tick."""
        return self._write(_library.dfb_counted_tick)

    def set(self, apid, samples):
        """Writes one waveform set."""
        samples = _numbers("h", ctypes.c_int16, samples)
        return self._write(_library.dfb_counted_set, _number(apid, 8), samples, len(samples))

    def report(self, words):
        """Writes one SPEC set: the words of a report, three bytes for each."""
        words = _numbers("B", U8, words)
        return self._write(_library.dfb_counted_report, words, len(words))

    @property
    def counts(self):
        """The number of finished sets of each APID: 0x43 to 0x48, then 0x4E."""
        return tuple(self._counts)

    @property
    def registers(self):
        """The registers 0x30 to 0x36."""
        return tuple(self._registers)

    def count(self, apid):
        """The number of finished sets of an APID; None for an APID that is not one of the seven."""
        place = 6 if apid == 0x4E else apid - 0x43 if 0x43 <= apid <= 0x48 else None
        return None if place is None else self._counts[place]

    def _write(self, function, *arguments):
        used = _number(self.used, 64)
        buffer = (U8 * len(self.log)).from_buffer(self.log)
        answer = function(buffer, len(self.log), used, self._counts, COUNTS, self._registers, REGISTERS, *arguments)
        del buffer  # as in append
        self.used = _below_63(answer)
        return self.used


def band_of(setting, fft_bin):
    """The band of an FFT bin."""
    return _below_8(_library.dfb_band_of(_number(setting, 8), _number(fft_bin, 16)))


def compress_band(value):
    """The band code of a value: the nearer of the two neighbouring legal values, and the upper one halfway."""
    return _library.dfb_compress_band(_number(value, 32))


def expand_band(code):
    """The value of a band code."""
    return _below_63(_library.dfb_expand_band(_number(code, 8)))


def compress_sum(value):
    """The sum code of a value."""
    return _library.dfb_compress_sum(_number(value, 64))


def expand_sum(code):
    """The value of a sum code."""
    value = (U64 * 1)()
    _below_16(_library.dfb_expand_sum(_number(code, 16), value, 1))
    return value[0]


def describe_band(setting, band):
    """Low edge, centre and width of a band in hertz."""
    three = (ctypes.c_float * 3)()
    _below_16(_library.dfb_describe_band(_number(setting, 8), _number(band, 8), three, 3))
    return tuple(three)


def cadence_of(choice):
    """The cadence of an NCAD choice: ("rate", so many per second) or ("period", so many seconds)."""
    value = (ctypes.c_float * 1)()
    kind = _below_16(_library.dfb_cadence_of(_number(choice, 8), value, 1))
    return ("rate", "period")[kind], value[0]


def coarse_totals(setting, fine):
    """The totals of 36 bands (setting 0) or 64 (setting 1), from the 112 totals of the same spectra."""
    fine, out = _numbers("Q", U64, fine), (U64 * FINE_TOTALS)()
    return out[: _below_16(_library.dfb_coarse_totals(_number(setting, 8), fine, len(fine), out, len(out)))]


class BurstSlots:
    """Burst slots, all free. Status (FREE, HELD or SENDING) and criterion of each are kept here between the calls."""

    def __init__(self, count):
        self.count = count
        self.status = (U8 * count)()
        self.criteria = (U32 * count)()

    def offer(self, criterion):
        """Offers a block: the slot that takes it, or None where it is turned away (25), and the number of slots looked at."""
        answer = _library.dfb_burst_offer(self.status, self.count, self.criteria, self.count, _number(criterion, 32))
        low, looked = answer & 0xFFFFF, answer >> 20
        return (None, looked) if low == 0x10000 + 25 else (_below_16(low), looked)

    def choose(self):
        """Chooses the block to send next: its slot."""
        return _below_16(_library.dfb_burst_choose(self.status, self.count, self.criteria, self.count))

    def finish(self):
        """Frees the slot that was sending: the slot."""
        return _below_16(_library.dfb_burst_finish(self.status, self.count, self.criteria, self.count))


def choose_interval(index, bonus, limit):
    """First and last block of the interval of Burst 1 to send next, from criteria with the oldest first."""
    index = _numbers("I", U32, index)
    answer = _below_63(_library.dfb_choose_interval(index, len(index), _number(bonus, 32), _number(limit, 32)))
    return answer & 0xFFFF, answer >> 16


class SnapshotHeader(typing.NamedTuple):
    """The header of a packet of a snapshot of the LFR, in the order of the packet; `switches_8` and `switches_12` are those at these bytes."""

    coarse_difference: int
    fine_time: int
    sequence: int
    switches_8: int
    switches_12: int
    component_mask: int
    total_packets: int
    artefacts: int
    snapshot_number: int
    packet_number: int


class Snapshot(typing.NamedTuple):
    """A packet of a snapshot: its SnapshotHeader, and its samples as one list in the order of the packet, 128 for each one bit of the mask."""

    header: SnapshotHeader
    samples: list


def snapshot_read(packet):
    """The Snapshot of one packet."""
    packet, header, samples = _numbers("B", U8, packet), (U32 * SNAPSHOT_HEADER)(), (ctypes.c_int16 * MOST_SNAPSHOT_SAMPLES)()
    count = _below_16(_library.dfb_snapshot_read(packet, len(packet), header, len(header), samples, len(samples)))
    return Snapshot(SnapshotHeader(*header), samples[:count])


def snapshot_write(header, samples):
    """The bytes of one packet, by a SnapshotHeader and its samples. A number that fits 32 bits but not its field is refused by 2."""
    header, samples, out = _numbers("I", U32, header), _numbers("h", ctypes.c_int16, samples), (U8 * MOST_SNAPSHOT_BYTES)()
    return bytes(out[: _below_16(_library.dfb_snapshot_write(header, len(header), samples, len(samples), out, len(out)))])


class Sums(typing.NamedTuple):
    """Two summed spectra of the LFR: 1,024 sum codes of the first mask and 1,024 of the second. expand_sum gives the value of a code."""

    first: list
    second: list


class Summed:
    """Sums of components of the LFR, begun at component 0. The state (next component, first and second mask) and the totals, 1,024 of each
    mask, are kept here between the calls."""

    def __init__(self):
        self.state = (U8 * SUM_STATE)()
        self.totals = (U64 * SUM_TOTALS)()

    def add(self, component, first_mask, second_mask, pairs):
        """Adds a component, 0 to 7 in turn, to the totals of each mask that has it: Sums of all eight at the eighth, and None before it. The
        pairs are one list of 2,048 numbers, each bin's real part and then its imaginary part. The masks are taken with component 0 and hold
        for all eight; those of later calls are not looked at."""
        numbers = _number(component, 8), _number(first_mask, 8), _number(second_mask, 8)
        pairs, out = _numbers("h", ctypes.c_int16, pairs), (U8 * SUM_OUTPUT)()
        answer = _library.dfb_sum_component(self.state, SUM_STATE, self.totals, SUM_TOTALS, *numbers, pairs, len(pairs), out, SUM_OUTPUT)
        if _below_16(answer) == 0:
            return None
        codes = [high << 8 | low for high, low in zip(out[::2], out[1::2])]
        return Sums(codes[:SUM_BINS], codes[SUM_BINS:])

    @property
    def next_component(self):
        """The component that the next call must have."""
        return self.state[0]

    @property
    def masks(self):
        """The first and the second mask, those of the last component 0; both 0 before it."""
        return self.state[1], self.state[2]


class SpacePacket(typing.NamedTuple):
    """A space packet: its APID and count, and its samples as one list, whole sets one after the other."""

    apid: int
    count: int
    samples: list


def export_packets(apid, first, samples):
    """Whole sets of a waveform APID as space packets, the first with this count: the bytes of the packets one after the other, and the count of
    the packet that comes next."""
    samples, count = _numbers("h", ctypes.c_int16, samples), (U16 * 1)(_number(first, 16))
    out = (U8 * (2 * len(samples) + PACKET_HEADER * (len(samples) // 2043 + 1)))()
    written = _below_63(_library.dfb_export_packets(_number(apid, 8), count, len(count), samples, len(samples), out, len(out)))
    return bytes(out[:written]), count[0]


def packet_bytes(data):
    """How many bytes the packet at the front of `data` has, by its own length field; the next packet begins behind them. 0 where `data` is
    shorter than that, or than a header."""
    if len(data) < PACKET_HEADER:
        return 0
    high, low = _numbers("B", U8, data[4:PACKET_HEADER])
    packet = PACKET_HEADER + 1 + 256 * high + low
    return packet if packet <= len(data) else 0


def import_packet(packet):
    """The SpacePacket of the bytes of one packet."""
    packet, header, samples = _numbers("B", U8, packet), (U16 * PACKET_NUMBERS)(), (ctypes.c_int16 * PACKET_SAMPLES)()
    count = _below_16(_library.dfb_import_packet(packet, len(packet), header, len(header), samples, len(samples)))
    return SpacePacket(*header, samples[:count])


if __name__ == "__main__":
    # Two spectra are averaged (N = C = 2, 36 bands, processor 1), and the report is logged and listed.
    board, log, used = Board(), bytearray(1000), 0
    print("stored 0x%04X" % board.command(0x30, 0x1120))
    used = append(log, used, COMMAND, 0x30, 0x1120)
    for power in (8, 11):
        report = board.tick([power] * POWERS)
        used = append(log, used, TICK)
    print("report %d has %d words" % (report.number, len(report.words) // 3))
    for at in range(0, len(report.words), 3):
        apid, high, low = report.words[at : at + 3]
        used = append(log, used, WORD, apid, high << 8 | low)
    print("band 0 starts at %g Hz, has its centre at %g Hz and is %g Hz wide" % describe_band(0, 0))
    print(listing(log[:used]), end="")
    try:
        board.command(0x37, 0)
    except Refused as refused:
        print(refused)
