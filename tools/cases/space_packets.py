#!/usr/bin/env python3
"""Writes crates/space_packets_cases: the cases in stdin, and stdout, what the program must print (02, ticket 7).

The first packets stand here by hand with APID, count and samples, and so does the refusal of each case that is not random, and the number of
bytes and the next count of exports of several packets. The rest of the output is that of space_packets_model.py, and both are compared.

A case in the input has 18 bytes, numbers high byte first, and then its body:

    call                1 byte: 1 import, 2 export
    APID                1 byte, of an export
    first count         2 bytes, of an export
    body                2 bytes: how many bytes it has
    further, start, step    2 bytes each: so many elements behind those of the body, made from a number and a step that is added by 16 bits
    lent                2 bytes: the length of the output lent
    shown from, up to   2 bytes each: the part of the output's memory that is printed

The body of an import is the packet; a further byte is the high byte of its number. The body of an export is the samples, two bytes each; each
sample, further ones too, is given plus 32,768. An import prints what read_header and import_packet answer, and samples; an export prints what
export_packets answers, and bytes; each a sum over all memory of the output too, which holds samples of 7777, or bytes 0x77, before the call.
"""
import os
import random
import struct

from space_packets_model import (HEADER, WORDS, Refused, damaged, data_bytes, export_packets, header_bytes, import_packet, random_export,
                                 random_packet, read_header, with_length)

CRATE = os.path.join(os.path.dirname(os.path.abspath(__file__)), "..", "..", "crates", "space_packets_cases")
SAMPLES, BYTES, OLD_SAMPLE, OLD_BYTE = 6200, 12500, 7777, 0x77
ANY = object()


def stepped(start, step, count):
    return [(start + place * step) % 65536 for place in range(count)]


def mixed(numbers):
    """The program's sum over a list."""
    total = 0
    for number in numbers:
        total = (31 * total + number) % (2**32 - 5)
    return total


class Made:
    """Elements that the program makes from a number and a step, behind those that are given."""

    def __init__(self, given, further=0, start=0, step=0):
        self.given, self.numbers = given, (further, start, step)

    def samples(self):
        further, start, step = self.numbers
        return list(self.given) + [number - 32768 for number in stepped(start, step, further)]

    def packet(self):
        further, start, step = self.numbers
        return bytes(self.given) + bytes(number // 256 for number in stepped(start, step, further))


class Cases:
    """The cases, and the lines that they print."""

    def __init__(self):
        self.data, self.lines = bytearray(), []

    def case(self, call, apid, first, made, body, lent, shown):
        self.data += struct.pack(">BBHHHHHHHH", call, apid, first, len(body), *made.numbers, lent, *shown) + body

    def imports(self, packet, lent, expected=ANY, shown=None):
        """packet: bytes, or Made. expected: a refusal, or APID, count and samples, or ANY. Without shown, all that was lent and two samples
        behind it are."""
        made = packet if isinstance(packet, Made) else Made(packet)
        packet, shown = made.packet(), shown or (0, min(lent + 2, SAMPLES))
        self.case(1, 0, 0, made, bytes(made.given), lent, shown)
        samples = []
        try:
            found = " %d %d" % read_header(packet)
        except Refused as refused:
            found = " refused %d" % refused.number
        try:
            answer = *numbers, samples = import_packet(packet, lent)
            text = " %d %d %d" % (*numbers, len(samples))
        except Refused as refused:
            answer = refused.number
            text = " refused %d" % answer
        assert expected is ANY or answer == expected, (packet.hex(), answer, expected)
        memory = samples + [OLD_SAMPLE] * (SAMPLES - len(samples))
        part = "".join(" %d" % sample for sample in memory[slice(*shown)])
        self.lines.append("header%s; import%s;%s; all %08x" % (found, text, part, mixed(2 * abs(n) + (n < 0) for n in memory)))

    def exports(self, apid, first, samples, lent, expected=ANY, shown=None):
        """samples: a list, or Made. expected: a refusal, or the bytes and the next count, or their number and the next count, or ANY."""
        made = samples if isinstance(samples, Made) else Made(samples)
        samples, shown = made.samples(), shown or (0, min(lent + 2, BYTES))
        self.case(2, apid, first, made, b"".join((sample + 32768).to_bytes(2, "big") for sample in made.given), lent, shown)
        data = b""
        try:
            answer = data, count = export_packets(apid, first, samples, lent)
            text = " %d %d" % (len(data), count)
        except Refused as refused:
            answer = refused.number
            text = " refused %d" % answer
        if isinstance(expected, tuple) and isinstance(expected[0], int):
            answer = len(answer[0]), answer[1]
        assert expected is ANY or answer == expected, (apid, first, len(samples), answer, expected)
        memory = (data + bytes([OLD_BYTE]) * BYTES)[:BYTES]
        self.lines.append("export%s; %s; all %08x" % (text, memory[slice(*shown)].hex(), mixed(memory)))

    def both(self, apid, count, samples, packet):
        """One packet, there and back."""
        self.exports(apid, count, samples, len(packet), (packet, (count + 1) % 16384))
        self.imports(packet, len(samples), (apid, count, samples))


# ---- by hand: APID, count, samples, and their packet


def digits(*parts):
    return bytes.fromhex("".join(parts))


ONE = (0x43, 0, [1, -1, -32768], digits("0043 C000 0005", "0001 FFFF 8000"))
LAST = (0x44, 16383, [1, 2, 3, 4, 5, 6, 32767], digits("0044 FFFF 000D", "0001 0002 0003 0004 0005 0006 7FFF"))
BY_HAND = [
    ONE,
    LAST,
    (0x45, 1, [256, -256, 4660], digits("0045 C001 0005", "0100 FF00 1234")),
    (0x46, 255, [0, 0, 0], digits("0046 C0FF 0005", "0000 0000 0000")),
    (0x46, 256, [-2, 127, 128], digits("0046 C100 0005", "FFFE 007F 0080")),
    (0x47, 0x1234, [-1] * 7, digits("0047 D234 000D", 7 * "FFFF")),
    (0x48, 0x2AAA, [32767, -32767, 255], digits("0048 EAAA 0005", "7FFF 8001 00FF")),
    (0x48, 0x1555, [1, 2, 3, 4, 5, 6], digits("0048 D555 000B", "0001 0002 0003 0004 0005 0006")),
    (0x45, 16382, [1, 2, 3] * 3, digits("0045 FFFE 0011", 3 * "0001 0002 0003")),
    (0x44, 0, [-5] * 14, digits("0044 C000 001B", 14 * "FFFB")),
    # 43 sets are 258 bytes: the length field is 257, and has a high byte
    (0x43, 7, list(range(129)), digits("0043 C007 0101", *("%04X" % n for n in range(129)))),
    (0x47, 8, list(range(-1, -134, -1)), digits("0047 C008 0109", *("%04X" % (65536 + n) for n in range(-1, -134, -1)))),
]


def by_hand(c):
    for case in BY_HAND:
        c.both(*case)
    for apid, count, samples, packet in (ONE, LAST):
        for more in (1, 2, 3, 100):
            c.exports(apid, count, samples, len(packet) + more, (packet, (count + 1) % 16384))
            c.imports(packet, len(samples) + more, (apid, count, samples))
        c.exports(apid, count, samples, BYTES, (packet, (count + 1) % 16384), shown=(0, 40))
        c.imports(packet, SAMPLES, (apid, count, samples), shown=(0, 20))


def every_count(c):
    """Each bit of the count by itself, and what the next count is."""
    counts = [1 << bit for bit in range(14)] + [16383 - (1 << bit) for bit in range(14)] + [16382, 16383]
    for number, count in enumerate(counts):
        apid = 0x43 + number % 6
        samples = list(range(number, number + WORDS[apid]))
        c.both(apid, count, samples, digits("00%02X" % apid, "%04X" % (0xC000 + count), "00%02X" % (2 * len(samples) - 1)) + data_bytes(samples))


# ---- full packets, and several

# By the samples of a set: the most samples of a packet, and its bytes.
FULL = {3: (2043, 4092), 7: (2044, 4094)}


def several(c):
    for number, (apid, words) in enumerate(WORDS.items()):
        most, length = FULL[words]
        start, step = 1000 * number, 40503 + 2 * number
        # count of samples, bytes, packets
        for samples, written, packets in (
            (most - words, length - 2 * words, 1),
            (most, length, 1),
            (most + words, length + 6 + 2 * words, 2),
            (2 * most - words, 2 * length - 2 * words, 2),
            (2 * most, 2 * length, 2),
            (2 * most + words, 2 * length + 6 + 2 * words, 3),
            (3 * most, 3 * length, 3),
        ):
            made = Made([], samples, start, step)
            shown = (max(length * (packets - 1) - 4, 0), length * (packets - 1) + 20)
            for first in (0, 16383) if samples == most else (16381, 16382, 16383):
                c.exports(apid, first, made, written, (written, (first + packets) % 16384), shown)
            c.exports(apid, 77, made, written - 1, 2, shown)
            c.exports(apid, 77, made, written + 9, (written, 77 + packets), (written - 8, written + 17))
        # the second of three packets by itself, and the third
        c.exports(apid, 16383, Made([], 3 * most, start, step), 3 * length, (3 * length, 2), (length - 2, length + 10))
        c.exports(apid, 16382, Made([], 3 * most, start, step), 3 * length, (3 * length, 1), (2 * length - 2, 2 * length + 10))
        # a full packet, and one set less, is taken
        for samples in (most, most - words):
            packet = Made(header_bytes(apid=apid, count=16383 - number, length=2 * samples - 1), 2 * samples, start, step)
            taken = apid, 16383 - number, import_packet(packet.packet())[2]
            assert len(taken[2]) == samples
            for lent in (samples, samples + 5, SAMPLES):
                c.imports(packet, lent, taken, (samples - 3, samples + 4))
            c.imports(packet, samples - 1, 2, (samples - 3, samples + 4))


# ---- each refusal at its boundary


OTHER_APIDS = [apid for apid in range(256) if apid not in WORDS]


def exports_refused(c):
    three, seven = [1, 2, 3], [1, 2, 3, 4, 5, 6, 7]
    # 4
    for apid in OTHER_APIDS:
        c.exports(apid, 0, Made([], 21, 1, 1), 48, 4, (0, 8))
    # 22
    for apid in WORDS:
        for first in (16384, 16385, 32767, 32768, 49152, 65535):
            c.exports(apid, first, Made([], 21, 1, 1), 48, 22, (0, 8))
        # 23: none, and not whole sets
        for samples in range(22):
            expected = 23 if samples == 0 or samples % WORDS[apid] else (6 + 2 * samples, 6)
            c.exports(apid, 5, Made([], samples, 32000, 200), 48, expected)
        for samples in (2042, 2044, 2043, 4085, 4086, 4087, 4088, 4089, 6129, 6132):
            if samples % WORDS[apid]:
                c.exports(apid, 5, Made([], samples, 1, 1), BYTES, 23, (0, 8))
    # 2
    for lent in range(12):
        c.exports(0x45, 3, three, lent, 2)
    for lent in range(20):
        c.exports(0x47, 3, seven, lent, 2)


def imports_refused(c):
    one, last = ONE[3], LAST[3]
    # 23: under 6 bytes, of a good packet and of others
    for packet in (one, last, bytes(6), b"\xFF" * 6):
        for length in range(6):
            c.imports(packet[:length], 7, 23)
    # 4: every other APID of 8 bits, and the six with one of the three high bits and all
    for apid in OTHER_APIDS:
        c.imports(Made(header_bytes(apid=apid, count=0, length=41), 42), 21, 4, (0, 3))
    for apid in WORDS:
        for high in (0x100, 0x200, 0x400, 0x700):
            c.imports(Made(header_bytes(apid=apid + high, count=0, length=41), 42), 21, 4, (0, 3))
    # 22: each of the four fields
    for apid in WORDS:
        for field in ([{"version": n} for n in range(1, 8)] + [{"type": 1}, {"secondary": 1}] + [{"flags": n} for n in range(3)]):
            c.imports(Made(header_bytes(**{"apid": apid, "count": 16383, "length": 41, **field}), 42), 21, 22, (0, 3))
    # 23: no data, whatever the length field says
    for apid in WORDS:
        for length in (0, 1, 5, 13, 4089, 65535):
            c.imports(header_bytes(apid=apid, count=0, length=length), 3, 23)
    # the length field beside the right one, and bytes lost and left over
    for packet in (one, last):
        right = len(packet) - HEADER - 1
        for length in range(45):
            if length != right:
                c.imports(with_length(packet, length), 7, 23, (0, 2))
        for length in (right + 256, right + 0x8000, 255, 256, 4089, 4095, 65535, right << 8):
            c.imports(with_length(packet, length), 7, 23, (0, 2))
        for length in range(6, len(packet)):
            c.imports(packet[:length], 7, 23, (0, 2))
        for more in (1, 2, 6, 14, 42, 256, 4096):
            c.imports(Made(packet, more), 7, 23, (0, 2))
    # not whole sets, with the length field right
    for apid, words in WORDS.items():
        for data in range(1, 45):
            expected = 23 if data % (2 * words) else (apid, 9, data // 2 * [257])
            c.imports(Made(header_bytes(apid=apid, count=9, length=data - 1), data, 300, 0), 22, expected, (0, 3))
        # over 4,090: whole sets too
        for data in (4086, 4087, 4088, 4089, 4090, 4091, 4092, 4094, 4096, 4098, 4102, 4116, 4200, 8190):
            packet = Made(header_bytes(apid=apid, count=9, length=data - 1), data, 300, 0)
            expected = 23 if data > 4090 or data % (2 * words) else (apid, 9, data // 2 * [257])
            c.imports(packet, SAMPLES, expected, (0, 3))
    # 2
    for lent in range(3):
        c.imports(one, lent, 2)
    for lent in range(7):
        c.imports(last, lent, 2)


# ---- two faults at once


def faults_of_exports(c):
    """Each two of the faults; the refusal is that of the one that is first here."""
    faults = [
        (4, {"apid": 0x4E}),
        (4, {"apid": 0x49}),
        (22, {"first": 16384}),
        (23, {"samples": []}),
        (23, {"samples": [1, 2, 3, 4]}),
        (2, {"lent": 0}),
        (2, {"lent": 11}),
    ]
    for place, (refusal, fault) in enumerate(faults):
        for _, other in faults[place:]:
            given = {"apid": 0x46, "first": 1, "samples": [1, 2, 3], "lent": 12, **other, **fault}
            c.exports(given["apid"], given["first"], given["samples"], given["lent"], refusal, (0, 4))


def faults_of_imports(c):
    """The same of imports: a fault changes a field, cuts the data, or the length lent."""
    faults = [
        (23, {"cut": 5}),
        (4, {"apid": 0x4E}),
        (4, {"apid": 0x147}),
        (22, {"version": 1}),
        (22, {"type": 1}),
        (22, {"secondary": 1}),
        (22, {"flags": 1}),
        (23, {"length": 12}),
        (23, {"data": 26}),
        (23, {"data": 0}),
        (23, {"data": 4102}),
        (2, {"lent": 6}),
    ]
    for place, (refusal, fault) in enumerate(faults):
        for _, other in faults[place:]:
            given = {"apid": 0x47, "count": 5, "data": 14, "lent": 7, **other, **fault}
            data, lent, cut = given.pop("data"), given.pop("lent"), given.pop("cut", None)
            header = header_bytes(**{"length": (data - 1) % 65536, **given})
            c.imports(Made(header[:cut]) if cut else Made(header, data, 4000, 7), lent, refusal, (0, 3))


# ---- random and damaged packets


def random_cases(c):
    r = random.Random(7)
    for _ in range(150):
        packet = random_packet(r, 4)
        count = (len(packet) - HEADER) // 2
        c.imports(packet, r.choice([count, count, count + 2, count - 1]))
        c.imports(damaged(r, packet)[:200], 30, shown=(0, 6))
        apid, first, samples = random_export(r, 5)
        needed = HEADER + 2 * len(samples)
        c.exports(apid, first, samples, max(needed + r.choice([0, 0, 1, 7, -1]), 0))
    for _ in range(40):
        apid = r.choice(list(WORDS))
        sets = r.randrange(1, SAMPLES // WORDS[apid])
        made = Made([], WORDS[apid] * sets, r.randrange(65536), r.randrange(65536))
        at = r.randrange(2 * WORDS[apid] * sets)
        c.exports(apid, r.choice([0, 16382, 16383, r.randrange(16384)]), made, BYTES - r.randrange(50), ANY, (at, at + 8))


def main():
    cases = Cases()
    for part in (by_hand, every_count, several, exports_refused, imports_refused, faults_of_exports, faults_of_imports, random_cases):
        part(cases)
    assert len(cases.data) < 65536
    with open(os.path.join(CRATE, "stdin"), "wb") as out:
        out.write(cases.data)
    with open(os.path.join(CRATE, "stdout"), "w", encoding="utf8") as out:
        out.writelines(line + "\n" for line in cases.lines)


if __name__ == "__main__":
    main()
