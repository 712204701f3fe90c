#!/usr/bin/env python3
"""snapshots.py DOCUMENT: writes crates/snapshot_cases: the cases in stdin, and stdout, what the program must print (02, ticket 1).

DOCUMENT is source document 000 as text; its table of TM_LF_RSWF must have the offsets and sizes of snapshot_model.py. The first packets, their
headers and their samples stand here by hand, and so does the refusal of each case that is not random. The rest of the output is the model's.

A case in the input is the call (1 byte), the bytes of its body, the length of the output lent, and the length of its memory that is shown (2
bytes each, high first); then the body:

    1 read      a packet
    2 write     the ten numbers of a header (18 bytes in all), and samples of two bytes, each plus 32,768

A read prints what read_header and read_packet answer, and samples; a write prints what write_packet answers, and bytes. Before each call the
output's memory holds samples of 7777, or bytes 0x77.
"""
import os
import random
import re
import struct
import sys

from snapshot_model import FIELDS, ROWS, START, Refused, damaged, random_packet, random_samples, random_write, read, sample_count, write

CRATE = os.path.join(os.path.dirname(os.path.abspath(__file__)), "..", "..", "crates", "snapshot_cases")
SAMPLES, BYTES, OLD_SAMPLE, OLD_BYTE = 1040, 2100, 7777, b"\x77"
ANY = object()


def table(document):
    """The rows of the document's table, each a list of cells: offset, ID, size, range, description. A cell begins with a tab, and an empty line
    ends a row."""
    with open(document, encoding="utf8", errors="replace") as file:
        section = re.search(r"^\[bookmark: \w+\]TM_LF_RSWF\n(.*?)^\[bookmark", file.read(), re.MULTILINE | re.DOTALL).group(1)
    rows = [["".join(cell.split("\n")).strip() for cell in re.split(r"^\t", row, flags=re.MULTILINE)[1:]] for row in section.split("\n\n")]
    return [row for row in rows if row and row[0].isdigit()]


def check_table(document):
    rows = table(document)
    assert [(int(offset), name, int(size)) for offset, name, size, *_ in rows[:-1]] == list(ROWS)
    assert rows[-1][:3] == [str(START), "DATA", "2*num_comp*128"]
    limits = {name: limit for _, name, _, limit, _ in rows}
    assert (limits["SID"], limits["TOTAL_PACKETS"], limits["DATA"]) == ("33", "Unsigned<= 3072", "Signed int16")


def shown_header(header):
    return "".join(" %0*x" % (2 * size, number) for number, (_, _, size) in zip(header, FIELDS))


class Cases:
    """The cases, and the lines that they print."""

    def __init__(self):
        self.data, self.lines = bytearray(), []

    def case(self, call, lent, shown, body):
        self.data += struct.pack(">BHHH", call, len(body), lent, shown) + body

    def read(self, packet, lent, expected=ANY):
        """expected: a refusal, header and samples, or ANY."""
        shown = min(lent + 2, SAMPLES)
        self.case(1, lent, shown, packet)
        try:
            answer = header, samples = read(packet, lent)
            found, whole = shown_header(header), shown_header(header) + " count %d" % len(samples)
        except Refused as refused:
            answer, samples = refused.number, []
            found = whole = " refused %d" % answer
            if answer == 2:  # for the output, which read_header does not have
                found = shown_header(read(packet)[0])
        assert expected is ANY or answer == expected, (packet, answer, expected)
        memory = samples + [OLD_SAMPLE] * (SAMPLES - len(samples))
        self.lines.append("header%s; read%s;%s" % (found, whole, "".join(" %d" % sample for sample in memory[:shown])))

    def write(self, header, samples, lent, expected=ANY):
        """expected: a refusal, the packet, or ANY."""
        shown = min(lent + 2, BYTES)
        data = b"".join(number.to_bytes(size, "big") for number, (_, _, size) in zip(header, FIELDS))
        self.case(2, lent, shown, data + b"".join((sample + 32768).to_bytes(2, "big") for sample in samples))
        try:
            answer = packet = write(header, samples, lent)
            text = "%d" % len(packet)
        except Refused as refused:
            answer, packet = refused.number, b""
            text = "refused %d" % answer
        assert expected is ANY or answer == expected, (header, answer, expected)
        self.lines.append("write %s; %s" % (text, (packet + OLD_BYTE * (BYTES - len(packet)))[:shown].hex()))


# ---- by hand: a packet, its header, its samples


def digits(*parts):
    return bytes.fromhex("".join(parts))


# No component; the greatest total, and its last packet.
NONE = (digits("21 0102 0304 0506 08 0708090A 0B 00 0C00 0D 0E 0BFF"),
        (0x0102, 0x0304, 0x0506, 0x0708090A, 0x0B, 0, 3072, 0x0D, 0x0E, 3071), [])
# The least number everywhere.
LEAST = (digits("21 0000 0000 0000 08 00000000 00 00 0001 00 00 0000"), (0, 0, 0, 0, 0, 0, 1, 0, 0, 0), [])
# One component, and the greatest number where the rule has no limit.
ONE = (digits("21 FFFF FFFF FFFF 08 FFFFFFFF FF 80 0C00 FF FF 00FF", 16 * "0001 FFFF 8000 7FFF 0100 FF00 0000 1234"),
       (65535, 65535, 65535, 4294967295, 255, 128, 3072, 255, 255, 255), 16 * [1, -1, -32768, 32767, 256, -256, 0, 4660])
# Two components: 0 to 255, each sample by its place.
TWO = (digits("21 0000 8000 0080 08 00800000 80 05 0002 80 7F 0001", *("00%02X" % place for place in range(256))),
       (0, 32768, 128, 8388608, 128, 5, 2, 128, 127, 1), list(range(256)))
# Eight components: 1023 down to 0, and -1 down to -1024.
FALLING = (digits("21 0001 0002 0003 08 00000004 05 FF 0C00 06 07 0000", *("%04X" % (1023 - place) for place in range(1024))),
           (1, 2, 3, 4, 5, 255, 3072, 6, 7, 0), list(range(1023, -1, -1)))
NEGATIVE = (digits("21 FFFE FFFD FFFC 08 FFFFFFFB FA FF 0100 F9 F8 00FF", *("%04X" % (65535 - place) for place in range(1024))),
            (65534, 65533, 65532, 4294967291, 250, 255, 256, 249, 248, 255), list(range(-1, -1025, -1)))
# Each component by itself.
SINGLES = [(digits("21 1111 2222 3333 08 44444444 55 %02X 0777 88 99 0666" % (1 << bit), 128 * ("%02XFF" % bit)),
            (0x1111, 0x2222, 0x3333, 0x44444444, 0x55, 1 << bit, 0x0777, 0x88, 0x99, 0x0666), 128 * [256 * bit + 255]) for bit in range(8)]


def by_hand(c):
    for packet, header, samples in (NONE, LEAST, ONE, TWO, FALLING, NEGATIVE, *SINGLES):
        c.read(packet, len(samples), (header, samples))
        c.write(header, samples, len(packet), packet)
    # outputs that are longer than needed
    for (packet, header, samples), more in ((NONE, 3), (ONE, 1), (ONE, 100), (TWO, 7)):
        c.read(packet, len(samples) + more, (header, samples))
        c.write(header, samples, len(packet) + more, packet)
    c.read(FALLING[0], SAMPLES, FALLING[1:])
    c.write(*FALLING[1:], BYTES, FALLING[0])


# ---- each refusal at its boundary


def changed(packet, *bytes_at):
    """A packet with other bytes at some places."""
    packet = bytearray(packet)
    for place, byte in bytes_at:
        packet[place] = byte
    return bytes(packet)


def header_with(header, **numbers):
    places = {"mask": 5, "total": 6, "number": 9}
    header = list(header)
    for name, number in numbers.items():
        header[places[name]] = number
    return tuple(header)


def with_range(packet, total, number):
    return changed(packet, (14, total >> 8), (15, total & 255), (18, number >> 8), (19, number & 255))


IN_RANGE = [(1, 0), (2, 0), (2, 1), (255, 254), (256, 255), (257, 256), (3071, 3070), (3072, 0), (3072, 3071)]
OUT_OF_RANGE = [(0, 0), (0, 1), (1, 1), (1, 2), (1, 256), (2, 2), (2, 512), (255, 255), (256, 256), (3071, 3071), (3072, 3072), (3072, 65535),
                (3073, 0), (3073, 3072), (3328, 0), (0, 65535), (65535, 0), (65535, 65534), (65535, 65535)]
MASKS = [1, 2, 3, 4, 8, 16, 32, 64, 128, 254, 255]


def reads_refused(c):
    none, one, two = NONE[0], ONE[0], TWO[0]
    # 16: under 20 bytes, of a good packet and of others
    for length in range(START):
        c.read(none[:length], 2, 16)
        c.read(bytes(length), 0, 16)
    # 14: SIDs and auxiliary lengths beside the right ones, SID 34 of a triggered snapshot among them, and others
    for byte in (0, 1, 5, 6, 32, 34, 35, 39, 65, 161, 255):
        c.read(changed(none, (0, byte)), 2, 14)
    for byte in (0, 1, 7, 9, 16, 33, 136, 255):
        c.read(changed(none, (7, byte)), 2, 14)
    c.read(changed(none, (0, 8), (7, 33)), 2, 14)
    # 15, and what is in range
    for total, number in IN_RANGE:
        c.read(with_range(none, total, number), 2, (header_with(NONE[1], total=total, number=number), []))
    for total, number in OUT_OF_RANGE:
        c.read(with_range(none, total, number), 2, 15)
    # 16: other lengths than the mask's
    for more in (1, 2, 255, 256, 257):
        c.read(none + bytes(more), 2, 16)
    for mask in MASKS:
        c.read(changed(none, (13, mask)), 2, 16)
    for length in (20, 21, 22, 148, 274, 275):
        c.read(one[:length], 128, 16)
    for more in (1, 2, 256):
        c.read(one + bytes(more), 130, 16)
    for mask in (0, 3, 255):
        c.read(changed(one, (13, mask)), 128, 16)
    c.read(two[:276], 256, 16)
    c.read(FALLING[0][:-1], 1024, 16)
    # 2: the output
    for lent in (0, 1, 64, 127):
        c.read(one, lent, 2)
    c.read(two, 255, 2)
    c.read(FALLING[0], 1023, 2)


def writes_refused(c):
    none, one, two = NONE[1], ONE[1], TWO[1]
    samples = ONE[2]
    # 15, and what is in range
    for total, number in IN_RANGE:
        c.write(header_with(none, total=total, number=number), [], 20, with_range(NONE[0], total, number))
    for total, number in OUT_OF_RANGE:
        c.write(header_with(none, total=total, number=number), [], 20, 15)
    # 16: other numbers of samples than the mask's
    for count in (1, 2, 127, 128):
        c.write(none, samples[:count], 30, 16)
    for mask in MASKS:
        c.write(header_with(none, mask=mask), [], 30, 16)
    for count in (0, 1, 64, 127):
        c.write(one, samples[:count], 276, 16)
    c.write(one, samples + [5], 280, 16)
    c.write(one, 2 * samples, 280, 16)
    c.write(two, samples, 532, 16)
    c.write(header_with(one, mask=0), samples, 276, 16)
    # 2: the output
    for lent in (0, 1, 7, 18, 19):
        c.write(none, [], lent, 2)
    for lent in (0, 19, 20, 21, 148, 274, 275):
        c.write(one, samples, lent, 2)
    c.write(*FALLING[1:], 2067, 2)


# ---- two faults at once


def faults_of_reads(c):
    """Each two of the faults; the refusal is that of the one that is first here."""
    faults = [
        (16, lambda packet, lent: (packet[:19], lent)),
        (14, lambda packet, lent: (changed(packet, (0, 34)), lent)),
        (14, lambda packet, lent: (changed(packet, (7, 0)), lent)),
        (15, lambda packet, lent: (changed(packet, (14, 0x0C), (15, 0x01)), lent)),
        (15, lambda packet, lent: (changed(packet, (18, 0x0C)), lent)),
        (16, lambda packet, lent: (packet + b"\0", lent)),
        (2, lambda packet, lent: (packet, lent - 1)),
    ]
    for first, (refusal, break_first) in enumerate(faults):
        c.read(*break_first(SINGLES[3][0], 128), refusal)
        for _, break_second in faults[first + 1:]:
            packet, lent = break_second(SINGLES[3][0], 128)
            c.read(*break_first(packet, lent), refusal)


def faults_of_writes(c):
    header, samples = SINGLES[3][1:]
    faults = [
        (15, lambda header, samples, lent: (header_with(header, total=3073), samples, lent)),
        (15, lambda header, samples, lent: (header_with(header, number=3073), samples, lent)),
        (16, lambda header, samples, lent: (header, samples[1:], lent)),
        (16, lambda header, samples, lent: (header_with(header, mask=9), samples, lent)),
        (2, lambda header, samples, lent: (header, samples, lent - 1)),
    ]
    for first, (refusal, break_first) in enumerate(faults):
        c.write(*break_first(header, samples, 276), refusal)
        for _, break_second in faults[first + 1:]:
            c.write(*break_first(*break_second(header, samples, 276)), refusal)


# ---- random and damaged packets


def random_cases(c):
    r = random.Random(1)
    for _ in range(50):
        packet = random_packet(r, 0)
        c.read(packet, r.randrange(3))
        c.read(damaged(r, packet), 2)
        header, _ = random_write(r, 0)
        c.write(header, [], r.choice([19, 20, 20, 23]))
    for _ in range(8):
        packet = random_packet(r, 2)
        count = sample_count(packet[13])
        c.read(packet, count + r.choice([-1, 0, 2]) if count else 0)
        c.read(damaged(r, packet), count)
        header, samples = random_write(r, 2)
        c.write(header, samples, START + 2 * len(samples) + r.choice([-1, 0, 2]))
    header, samples = (9, 8, 7, 6, 5, 0b10010100, 4, 3, 2, 1), random_samples(r, 384)
    c.write(header, samples, 788)
    c.read(write(header, samples), 384, (header, samples))


def main(document):
    check_table(document)
    cases = Cases()
    for part in (by_hand, reads_refused, writes_refused, faults_of_reads, faults_of_writes, random_cases):
        part(cases)
    assert len(cases.data) < 65536
    with open(os.path.join(CRATE, "stdin"), "wb") as out:
        out.write(cases.data)
    with open(os.path.join(CRATE, "stdout"), "w", encoding="utf8") as out:
        out.writelines(line + "\n" for line in cases.lines)


if __name__ == "__main__":
    main(sys.argv[1])
