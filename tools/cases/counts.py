#!/usr/bin/env python3
"""Writes the input of crates/counts_cases from the histories below, and its expected output from counts_model.py (02, ticket 12). The refusal
of each call that is not random also stands here by hand.

An operation in the input has 8 bytes, numbers high byte first: its number, a (1 byte), b (2) and c (4). Then its data, if any.

    0 begin     a new log of b bytes, each 0xEE, with used, counts and registers 0
    1 command   ID a, information b
    3 mark      seconds c
    4 tick
    5 set       APID a and b samples of two bytes
    6 report    b bytes
    7 show
    2, 8, 9     count a, register a, the bytes used become b

A call (1, 3, 4, 5, 6) prints the new bytes used (U) or the refusal (R), the counts, the registers, and what the walk finds in the bytes used:
counts and registers (E), refusal and offset (B), or - where used is past the log's end. All numbers have four hexadecimal digits. Show prints the log.
"""
import os
import random
import struct

from counts_model import STORABLE, CountedLog, Refused, count_sets, random_call
from listing_model import APIDS, BANDS, LEGAL, SPEC, WAVEFORM_WORDS, Bad, spec_words

CRATE = os.path.join(os.path.dirname(os.path.abspath(__file__)), "..", "..", "crates", "counts_cases")
ANY = object()


def hexadecimal(numbers):
    return "".join("%04x" % number for number in numbers)


class Script:
    """Operations, and the lines that they print."""

    def __init__(self):
        self.data, self.lines = bytearray(), []
        self.counted, self.is_own = None, False

    def operation(self, number, a=0, b=0, c=0, data=b""):
        self.data += struct.pack(">BBHI", number, a, b, c) + data

    def begin(self, capacity):
        assert capacity <= 4096
        self.operation(0, b=capacity)
        self.counted, self.is_own = CountedLog(bytearray(b"\xEE" * capacity)), True

    def give(self, number, a, b):
        """Hands the next call a state that is not its own."""
        self.operation(number, a=a, b=b)
        self.is_own = False

    def give_count(self, place, count):
        self.give(2, place, count)
        self.counted.counts[place] = count

    def give_register(self, n, value):
        self.give(8, n, value)
        self.counted.registers[n] = value

    def give_used(self, used):
        self.give(9, 0, used)
        self.counted.used = used

    def call(self, name, arguments, refused=None):
        """refused: the refusal expected, None where the call is accepted, or ANY."""
        refusal = None
        try:
            getattr(self.counted, name)(*arguments)
        except Refused as caught:
            refusal = caught.number
        assert refused is ANY or refusal == refused, (name, arguments, refusal, refused)
        answer = "U%04x" % self.counted.used if refusal is None else "R%04x" % refusal
        self.lines.append(" ".join([answer, hexadecimal(self.counted.counts), hexadecimal(self.counted.registers), self.walked()]))

    def walked(self):
        counted = self.counted
        if counted.used > len(counted.log):
            return "-"
        try:
            counts, registers = count_sets(bytes(counted.log[:counted.used]))
        except Bad as bad:
            assert not self.is_own
            return "B" + hexadecimal([bad.refusal, bad.offset])
        assert not self.is_own or (counts, registers) == (counted.counts, counted.registers)
        return "E" + hexadecimal(counts + registers)

    def command(self, ident, information, refused=None):
        self.operation(1, a=ident, b=information)
        self.call("command", (ident, information), refused)

    def mark(self, seconds, refused=None):
        self.operation(3, c=seconds)
        self.call("mark", (seconds,), refused)

    def tick(self, refused=None):
        self.operation(4)
        self.call("tick", (), refused)

    def set(self, apid, samples, refused=None):
        assert len(samples) <= 16
        self.operation(5, a=apid, b=len(samples), data=b"".join(struct.pack(">h", sample) for sample in samples))
        self.call("set", (apid, samples), refused)

    def report(self, data, refused=None):
        assert len(data) <= 1500
        self.operation(6, b=len(data), data=data)
        self.call("report", (data,), refused)

    def show(self):
        self.operation(7)
        self.lines.append("L " + self.counted.log.hex())


def samples(words):
    return [1, -1, -32768, 32767, 256, -256, 0, 255][:words]


def report(words, code=0x0C, apid=SPEC):
    return bytes([apid, code, code]) * words


def by_place(words):
    """A report with each legal code in turn."""
    return b"".join(bytes([SPEC, LEGAL[(2 * j + 1) % len(LEGAL)], LEGAL[2 * j % len(LEGAL)]]) for j in range(words))


def with_byte(data, at, byte):
    return data[:at] + bytes([byte]) + data[at + 1:]


def enable(s, setting, processors):
    """Enables processors, counted from 0, at a bin setting: the words of a report."""
    s.command(0x30, setting << 6 | (0x20 if 0 in processors else 0))
    for n in processors:
        if n != 0:
            s.command(0x30 + n, 0x20)
    return len(processors) * BANDS[setting] // 2


# A call of each kind, by its refusal; each is accepted behind begin_enabled.
CALLS = [
    lambda s, refused=None: s.command(0x31, 0x001F, refused),
    lambda s, refused=None: s.mark(7, refused),
    lambda s, refused=None: s.tick(refused),
    lambda s, refused=None: s.set(0x45, samples(3), refused),
    lambda s, refused=None: s.report(report(18), refused),
]
SIZES = [4, 5, 1, 12, 72]


def begin_enabled(s, capacity=400):
    """A log with processor 1 enabled at 36 bands: 4 bytes."""
    s.begin(capacity)
    s.command(0x30, 0x0020)


# ---- what each call writes, stores and counts


def commands(s):
    """As sent in the log, and as stored in the register."""
    values = [0x0001, 0x0016, 0x0017, 0x0018, 0x001F, 0x0036, 0x003F, 0x0040, 0x00C0, 0x0AA0, 0x0B00, 0xA000, 0xB000, 0xAB16, 0x6363, 0xFFFF, 0]
    for n in range(7):
        s.begin(4 * len(values))
        for value in values:
            s.command(0x30 + n, value)
        s.show()
    s.begin(28)
    for n in range(7):
        s.command(0x36 - n, 0x0020 + n)
    s.show()


def marks_and_ticks(s):
    s.begin(40)
    s.tick()
    for seconds in (0, 1, 0x89ABCDEF, 2**32 - 1, 0):
        s.mark(seconds)
    s.tick()
    s.tick()
    s.show()


def sets(s):
    """Each APID, twice; and two APIDs in turn."""
    s.begin(300)
    for apid, words in WAVEFORM_WORDS.items():
        s.set(apid, samples(words))
        s.set(apid, samples(8)[8 - words:])
    s.set(0x43, samples(3))
    s.set(0x48, samples(3))
    s.show()


def reports(s):
    """Each bin setting with some processors."""
    for setting in range(3):
        for processors in ([0], [1], [6], [0, 6], [1, 3, 5], list(range(7))):
            s.begin(4 * 8 + 4 * 392 + 5)
            words = enable(s, setting, processors)
            s.report(by_place(words))
        s.show()
    s.begin(4 * 3 + 4 * 72 + 5)
    s.command(0x30, 0x00E0)  # bins 3, stored as 1
    s.command(0x33, 0xFFFF)
    s.report(report(64))
    s.show()


def changed_sizes(s):
    """Commands between reports change the size of the next."""
    s.begin(1200)
    s.report(report(18), 6)
    s.command(0x30, 0x0020)
    s.report(report(32), 5)
    s.report(report(18))
    s.command(0x30, 0x0060)
    s.report(report(18), 5)
    s.report(report(32))
    s.command(0x36, 0x0020)
    s.report(report(32), 5)
    s.report(report(64))
    s.command(0x30, 0x00A3)
    s.report(report(64), 5)
    s.command(0x36, 0x0016)
    s.report(report(56))
    s.command(0x37, 0x0040, 1)
    s.command(0x30, 0x0003)
    s.report(report(56), 6)
    s.command(0x31, 0x0020)
    s.report(report(18))
    s.show()


# ---- each refusal


def refused_by_1(s):
    s.begin(12)
    for ident in (0x00, 0x01, 0x2F, 0x37, 0x43, 0x4E, 0xB0, 0xFF):
        s.command(ident, 0x0020, 1)
    s.show()
    s.command(0x30, 0x0020)
    s.command(0x2F, 0x0000, 1)
    s.command(0x36, 0x0020)
    s.show()


def refused_by_4(s):
    s.begin(20)
    for apid in (0x00, 0x02, 0x30, 0x42, 0x49, 0x4D, SPEC, 0x4F, 0xC3, 0xFF):
        for words in (3, 7):
            s.set(apid, samples(words), 4)
    s.show()
    s.command(0x30, 0x0020)
    s.set(SPEC, [0x0C0C] * 16, 4)  # with a processor enabled too
    s.set(0x43, samples(3))
    s.show()


def refused_by_5_of_samples(s):
    for apid, words in WAVEFORM_WORDS.items():
        s.begin(60)
        for size in (0, 1, words - 1, words + 1, 10 - words, 2 * words):
            s.set(apid, (2 * samples(8))[:size], 5)
        s.show()
        s.set(apid, samples(words))


def refused_by_6(s):
    s.begin(200)
    for data in (report(18), report(32), report(56), report(1), b""):
        s.report(data, 6)
    s.command(0x30, 0x0080)
    s.command(0x36, 0x0016)
    s.report(report(56), 6)
    s.command(0x36, 0x0036)
    s.command(0x36, 0x0000)
    s.report(report(56), 6)
    s.show()


def refused_by_5_of_bytes(s):
    """The length: a word or a byte less or more, none, twice, and that of another setting or of another number of processors."""
    for setting, processors in ((0, [0]), (0, [2, 5]), (1, [4]), (2, [6])):
        s.begin(300)
        words = enable(s, setting, processors)
        for count in (words - 1, words + 1, 0, 2 * words, 18, 32, 56, 36, 1):
            if count != words:
                s.report(report(count), 5)
        for size in (1, 3 * words - 1, 3 * words - 2, 3 * words + 1, 3 * words + 2, 4 * words):
            s.report(report(2 * words)[:size], 5)
        s.show()
        s.report(report(words))
    begin_enabled(s)
    s.report(b"\x02" + report(18)[:53], 5)  # records of a log, and words without their APIDs, are no report
    s.report(report(18).replace(b"\x4E", b"\x02\x4E"), 5)
    s.report(report(18).replace(b"\x4E", b""), 5)
    s.show()


def refused_by_5_of_words(s):
    """A word under another APID: the first, one in the middle, the last, all."""
    begin_enabled(s)
    for apid in (0x43, 0x48, 0x4D, 0x4F, 0x00, 0xCE, 0xFF):
        for place in (0, 1, 9, 17):
            s.report(with_byte(report(18), 3 * place, apid), 5)
    s.report(report(18, apid=0x43), 5)
    s.show()
    s.report(report(18))
    s.begin(1600)
    words = enable(s, 2, list(range(7)))
    s.report(with_byte(report(words), 3 * (words - 1), 0x44), 5)
    s.report(with_byte(report(words), 3 * (words // 2), 0x44), 5)


def refused_by_7(s):
    """An illegal code in the high and in the low byte, of the first word, of one in the middle and of the last."""
    begin_enabled(s)
    for code in (0x08, 0x0B, 0x13, 0xE8, 0xEB, 0xF0, 0xF3, 0xF5, 0xF7, 0xF8, 0xFC, 0xFF):
        for place in (1, 2, 28, 29, 52, 53):
            s.report(with_byte(report(18), place, code), 7)
    s.report(report(18, code=0x08), 7)
    s.show()
    for code in (0x07, 0x0C, 0xEF, 0xF4):
        s.report(report(18, code=code))
    s.begin(1600)
    words = enable(s, 2, list(range(7)))
    s.report(with_byte(report(words), 3 * words - 1, 0x08), 7)
    s.report(with_byte(report(words), 3 * words - 2, 0xF5), 7)


def refused_by_2(s):
    """Room for all the records exactly, and for one byte less; used at the end, and past it."""
    for call, size in zip(CALLS, SIZES):
        begin_enabled(s, 4 + size)
        call(s)
        call(s, 2)
        s.tick(2)
        s.show()
        begin_enabled(s, 4 + size - 1)
        call(s, 2)
        s.show()
        for used in (0x0005, 4 + size - 1, 4 + size, 0x1000, 0xFFFF):
            s.give_used(used)
            call(s, 2)
        s.show()
        s.begin(0)
        s.give_register(0, 0x0020)
        call(s, 2)
    for apid, words in WAVEFORM_WORDS.items():
        for lack in range(4 * words + 1):
            s.begin(4 * words - lack)
            s.set(apid, samples(words), 2 if lack else None)
        s.begin(8 * words - 1)
        s.set(apid, samples(words))
        s.set(apid, samples(words), 2)
        s.show()
    for lack in (0, 1, 2, 3, 4, 5, 71, 72):
        begin_enabled(s, 76 - lack)
        s.report(by_place(18), 2 if lack else None)
        s.show()
    s.begin(0)
    s.tick(2)
    s.mark(0, 2)
    s.command(0x30, 0, 2)
    s.set(0x43, samples(3), 2)
    s.show()


def refused_by_3_for_counts(s):
    """A count equal to the bytes used, and one more; each count with each call. The sum of the counts is not asked."""
    for place in range(7):
        for call in CALLS:
            begin_enabled(s, 100)
            s.give_count(place, 4)
            call(s)
            begin_enabled(s, 100)
            s.give_count(place, 5)
            call(s, 3)
            s.give_count(place, 0xFFFF)
            call(s, 3)
        s.show()
    begin_enabled(s, 100)
    for place in range(7):
        s.give_count(place, 4)
    for call in CALLS:
        call(s)
    s.begin(20)
    s.give_count(6, 1)  # used is 0
    s.tick(3)
    s.give_count(6, 0)
    s.tick()
    s.give_count(0, 1)
    s.set(0x43, samples(3))
    s.give_used(1)
    s.tick(3)
    s.give_used(2)
    s.tick()
    s.show()


def refused_by_3_for_registers(s):
    """Values that a register cannot hold, with each call; and the greatest of those that it can."""
    for n in range(7):
        unsound = [0x0017, 0x003F, 0xFFFF] + ([0x00C0, 0x0B20, 0xB020] if n == 0 else [0x0040, 0x0060, 0x0120, 0x8000])
        for value in unsound:
            assert value not in STORABLE[n]
            begin_enabled(s, 12)
            s.give_register(n, value)
            for call in CALLS:
                call(s, 3)
        s.show()
        begin_enabled(s, 5 + 4 * 112)
        greatest = 0xAAB6 if n == 0 else 0x0036
        s.give_register(n, greatest)
        s.tick()
        s.report(report(18), 5)
        s.report(report(56 if n == 0 else 36))


def refused_walks(s):
    """Logs that no history leaves: a mark's first byte becomes a tick, so that its body is read as a record. Each refusal of the walk, with
    its offset."""
    for first, body, refusal, offset in (
        (0x0020, 0x01370000, 1, 5), (0x0020, 0x02420000, 4, 5), (0x0020, 0x024E0C0C, 5, 9),
        (0x0000, 0x024E0000, 6, 5), (0x0020, 0x024E0008, 7, 5), (0x0020, 0x024E0800, 7, 5), (0x0020, 0x00000000, 9, 5),
        (0x0020, 0x04040405, 9, 8), (0x0020, 0x04040403, 10, 8), (0x0020, 0x04010000, 10, 6), (0x0020, 0x02430001, 5, 9),
    ):
        s.begin(12)
        s.command(0x30, first)
        s.mark(body)
        s.give_used(4)
        s.tick()
        s.give_used(9)
        s.set(SPEC, [], 4)  # changes nothing
        assert s.lines[-1].endswith("B" + hexadecimal([refusal, offset])), body
    s.tick()  # cuts the set
    assert s.lines[-1].endswith("B00050009")


# ---- the order of refusals


def two_faults(s):
    """Each refusal with each that comes behind it."""
    unsound = [lambda: s.give_register(3, 0x0040), lambda: s.give_count(2, 0xFFFF), lambda: s.give_register(0, 0x00C0)]
    for fault in unsound:
        # 3 before 1, 4, 5, 6, 7 and 2
        begin_enabled(s, 30)
        fault()
        s.command(0x37, 0, 3)
        s.set(SPEC, samples(3), 3)
        s.set(0x43, samples(2), 3)
        s.report(report(17), 3)
        s.report(report(18, code=0x08), 3)
        s.give_used(30)
        for call in CALLS:
            call(s, 3)
        s.give_used(31)
        s.tick(3)
        s.begin(30)
        fault()
        s.report(report(18), 3)  # 6 too
        s.show()
    for used in (8, 9):
        # 1 before 2; 4 before 5 and 2; 5 before 2
        s.begin(8)
        s.give_used(used)
        s.command(0x2F, 0x0020, 1)
        s.set(0x42, samples(3), 4)
        s.set(SPEC, [], 4)
        s.set(0x43, samples(7), 5)
        s.set(0x43, samples(3), 2)
        # 6 before 5, 7 and 2
        s.report(report(18), 6)
        s.report(report(17), 6)
        s.report(report(18, apid=0x43), 6)
        s.report(report(18, code=0x08), 6)
        # 5 before 7 and 2; 7 before 2
        s.give_register(6, 0x0020)
        s.report(report(17), 5)
        s.report(report(17, code=0x08), 5)
        s.report(report(18, apid=0x4D), 5)
        s.report(report(18, code=0xF5), 7)
        s.report(report(18), 2)
        s.show()
    # 4 before 5; 6 before 5, 6 before 7
    s.begin(100)
    s.set(0x49, [], 4)
    s.set(SPEC, samples(8), 4)
    s.report(b"", 6)
    s.report(report(18, apid=0x43), 6)
    s.report(report(18, code=0x08), 6)
    # 5 before 7: the length, and another APID before the illegal code, in its word and behind it
    s.command(0x31, 0x0020)
    s.report(report(32, code=0x08), 5)
    s.report(report(18, code=0x08)[:53], 5)
    s.report(with_byte(with_byte(report(18), 0, 0x43), 53, 0x08), 5)
    s.report(with_byte(with_byte(report(18), 27, 0x43), 28, 0x08), 5)
    s.report(with_byte(with_byte(report(18), 1, 0x08), 51, 0x43), 5)
    s.report(with_byte(with_byte(report(18), 2, 0xF5), 3, 0x4D), 5)
    s.show()


# ---- whole histories


def refused_and_accepted(s):
    """Calls that are refused between calls that are not: the log is that of the accepted ones."""
    s.begin(133)
    s.mark(7)
    s.command(0x37, 0x0020, 1)
    s.set(0x44, samples(7))
    s.set(0x44, samples(6), 5)
    s.report(report(18), 6)
    s.command(0x34, 0x003F)
    s.set(0x4E, samples(3), 4)
    s.report(report(17), 5)
    s.tick()
    s.report(with_byte(report(18), 53, 0x08), 7)
    s.report(report(18))
    s.show()
    s.set(0x47, samples(7), 2)
    s.report(report(18), 2)
    s.set(0x46, samples(3))
    s.set(0x48, samples(3), 2)
    s.mark(8)
    s.mark(9)
    s.command(0x30, 0x0020, 2)
    s.mark(10, 2)
    s.tick()
    s.tick(2)
    s.show()


def a_day(s):
    """Seconds with a mark, a tick and a set of each APID."""
    s.begin(2000)
    s.command(0x30, 0x3223)
    for second in range(8):
        s.mark(1_204_416_000 + second)
        s.tick()
        for apid, words in WAVEFORM_WORDS.items():
            s.set(apid, samples(words))
        if second % 3 == 2:
            s.report(by_place(18))
    s.show()


def random_histories(s):
    r = random.Random(12)
    for _ in range(75):
        s.begin(r.choice([0, 30, 100, 200, 400, 700]))
        gives = r.random() < 0.3
        for _ in range(r.choice([3, 8, 15])):
            if gives and r.random() < 0.15:
                give_any(r, s)
            if spec_words(s.counted.registers) > 60:  # keeps the input short
                s.command(0x30 + r.randrange(7), 0x0000, ANY)
            name, arguments = random_call(r, s.counted)
            getattr(s, name)(*arguments, refused=ANY)
        s.show()


def give_any(r, s):
    choice = r.randrange(3)
    if choice == 0:
        s.give_count(r.randrange(7), r.choice([0, 1, s.counted.used, s.counted.used + 1]))
    elif choice == 1:
        s.give_register(r.randrange(7), r.choice([0x0000, 0x0020, 0x0036, 0x0017, 0x0040]))
    else:
        s.give_used(r.choice([0, len(s.counted.log), len(s.counted.log) + 1, r.randrange(len(s.counted.log) + 1)]))


HISTORIES = [
    commands, marks_and_ticks, sets, reports, changed_sizes, refused_by_1, refused_by_4, refused_by_5_of_samples, refused_by_6,
    refused_by_5_of_bytes, refused_by_5_of_words, refused_by_7, refused_by_2, refused_by_3_for_counts, refused_by_3_for_registers, refused_walks,
    two_faults, refused_and_accepted, a_day, random_histories,
]


def main():
    assert APIDS == [0x43, 0x44, 0x45, 0x46, 0x47, 0x48, 0x4E]
    s = Script()
    for history in HISTORIES:
        history(s)
    assert len(s.data) <= 65536
    with open(os.path.join(CRATE, "stdin"), "wb") as out:
        out.write(s.data)
    with open(os.path.join(CRATE, "stdout"), "w", encoding="utf8") as out:
        out.write("".join(line + "\n" for line in s.lines))


if __name__ == "__main__":
    main()
