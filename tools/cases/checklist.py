#!/usr/bin/env python3
"""Writes the input of crates/checklist_cases from the lists below, and its expected output from checklist_model.py (02, ticket 6). The refusal
of each list that is not random also stands here by hand.

In the input each list stands after its length in two bytes, high byte first.
"""
import os
import random
import struct

from checklist_model import Bad, check, command, line, mark, random_list, whole_list

CRATE = os.path.join(os.path.dirname(os.path.abspath(__file__)), "..", "..", "crates", "checklist_cases")
RANDOM = random.Random(6)


def h(text):
    return bytes.fromhex(text)


# N = 4 and C = 8 for processor 1, N = 2 and C = 1 for processor 1, N = 2 and C = 1 with no processor enabled.
WITHIN, OVER, OVER_AND_OFF = command(0x30, 0x3223), command(0x30, 0x0123), command(0x30, 0x0103)
TICK, WORD = h("04"), h("02430001")
START = mark(7) + WITHIN
REST = command(0x33, 0x0032) + mark(9)
LEAST, GREATEST = mark(0), mark(2**32 - 1)


def everywhere(record):
    """As the first record, alone and before others; behind others as the last; and between others."""
    return [record, record + REST, START + record, START + record + REST]


def altered(n):
    """Values that register n does not keep: sources, and in 0x30 bins, NAVG and NCAD, in the others bits 15:6."""
    fields = [0x00C0, 0x0B00, 0x0F20, 0xB000, 0xF020, 0xAB16] if n == 0 else [0x0040, 0x0080, 0x0120, 0x1000, 0x8032]
    return [0x0017, 0x0018, 0x0019, 0x003F, 0xFFFF] + fields


def kept(n):
    """Values that it keeps."""
    return [0x0000, 0x0001, 0x0016, 0x0020, 0x0036] + ([0x6363, 0xAAB6, 0x00A0, 0x1120, 0xA000, 0x0A00] if n == 0 else [])


# What the lists show, their refusal (None: accepted), and the lists.
CASES = [
    ("the empty list", None, [b""]),
    ("commands and second marks", None, [WITHIN, mark(7), START, START + REST, WITHIN + WITHIN, mark(7) + mark(8) + mark(9)]),
    ("each register: what it keeps, one list for each value, and all values in one", None,
     [command(0x30 + n, value) for n in range(7) for value in kept(n)]
     + [b"".join(command(0x30 + n, value) for value in kept(n)) for n in range(7)]
     + [b"".join(command(0x30 + n, n + 1) for n in range(7)), b"".join(command(0x36 - n, 0x20 + n) for n in range(7))]),
    ("9: kinds 00, 05 and FF", 9, [each for kind in ("00", "05", "FF") for each in everywhere(h(kind))]),
    ("9: whatever would be its body", 9, [h("05300020"), h("0030"), START + h("8000000007")]),
    ("10: each body cut after each byte, as the first record and as the last", 10,
     [before + record[:cut] for before in (b"", START) for record in (WITHIN, WORD, mark(8)) for cut in range(1, len(record))]),
    ("18: ticks", 18, everywhere(TICK)),
    ("18: words of each APID that is kept, and of others: 18 comes before 4", 18,
     [START + h("02%02X0001" % apid) + REST for apid in (0x43, 0x44, 0x45, 0x46, 0x47, 0x48, 0x4E, 0x42, 0x49, 0x4D, 0x4F, 0x30, 0x00, 0xFF)]
     + everywhere(WORD) + everywhere(h("02420001"))),
    ("18: a whole set; a SPEC word with no processor enabled; an illegal band code: 5, 6 and 7 never come", 18,
     [3 * WORD, WORD + mark(8), h("024E0000"), START + h("024E0808")]),
    ("1: beside the IDs, 0, 0xFF, and what is an APID", 1,
     [each for ident in (0x2F, 0x37) for each in everywhere(command(ident, 0))]
     + [START + command(ident, 0x20) for ident in (0x00, 0xFF, 0x43)]),
    ("20: each register, alone and behind others", 20,
     [before + command(0x30 + n, value) for n in range(7) for value in altered(n) for before in (b"", START)]),
    ("20: first, last and between others; N and C sent to 0x33 too", 20,
     everywhere(command(0x30, 0x0017)) + everywhere(command(0x33, 0x3232))),
    ("20: a value that is held, but not by this register; one that would be stored as the one held", 20,
     [WITHIN + command(0x31, 0x3223), command(0x30, 0x6363) + command(0x30, 0xFFFF)]),
    ("the first second may be any; seconds that are equal, and that rise", None,
     [LEAST, GREATEST, LEAST + LEAST, GREATEST + GREATEST, LEAST + GREATEST, mark(7) + WITHIN + mark(7), mark(255) + mark(256),
      mark(0x00FFFFFF) + mark(0x01000000), mark(2**31 - 1) + mark(2**31), mark(1) + mark(1) + mark(2) + mark(2)]),
    ("19: by one, by all, by each byte; behind equal ones, behind commands; not only below the first", 19,
     [GREATEST + LEAST, mark(1) + LEAST, GREATEST + mark(2**32 - 2), mark(256) + mark(255), mark(0x01000000) + mark(0x00FFFFFF),
      mark(2**31) + mark(2**31 - 1), mark(7) + mark(7) + mark(6), mark(7) + WITHIN + WITHIN + mark(6), mark(5) + mark(9) + mark(8),
      mark(5) + mark(9) + mark(5) + mark(9)]),
    ("19: as the last record and between others", 19, [START + mark(6), START + mark(6) + REST]),
    ("N above C between two marks, mended by N, by C and by the processor", None,
     [START + OVER + command(0x30, fix) + mark(8) for fix in (0x0023, 0x1123, 0x0103)] + [OVER + WITHIN + mark(8), OVER + WITHIN]),
    ("N above C with no processor enabled, at marks and at the end", None,
     [OVER_AND_OFF, OVER_AND_OFF + mark(8), command(0x30, 0x0A00) + mark(8) + mark(9), START + OVER_AND_OFF + mark(8), START + OVER_AND_OFF,
      OVER_AND_OFF + command(0x36, 0x0016) + mark(8)]),
    ("21: at a mark, which is the first record after, a later one or the last", 21,
     [OVER + mark(7), OVER + mark(7) + REST, START + OVER + mark(8), START + OVER + mark(8) + WITHIN + mark(9),
      START + OVER + command(0x33, 0x0012) + mark(8) + REST]),
    ("21: at the end alone: the offset is the list's length", 21,
     [OVER, START + OVER, START + REST + OVER, WITHIN + OVER, OVER + WITHIN + OVER]),
    ("disabled before the end; and a register after the other", None,
     [START + OVER + OVER_AND_OFF, command(0x31, 0x20) + OVER + command(0x31, 0) + OVER_AND_OFF + mark(9)]),
    ("21: disabled, but another processor is not", 21,
     [command(0x31, 0x20) + OVER + OVER_AND_OFF, command(0x31, 0x20) + OVER + OVER_AND_OFF + mark(9),
      OVER + command(0x31, 0x20) + command(0x31, 0)]),
    ("21: the processor of each of 0x31 to 0x36, before and after the command of N and C, at a mark and at the end", 21,
     [each for n in range(1, 7) for on in [command(0x30 + n, 0x20)]
      for each in (OVER_AND_OFF + on, on + OVER_AND_OFF, OVER_AND_OFF + on + mark(7) + REST)]),
    ("the same with N at most C", None, [command(0x30, 0x1103) + command(0x30 + n, 0x20) + mark(7) for n in range(1, 7)]),
    ("N = C, each", None, [command(0x30, n << 12 | n << 8 | 0x20) + mark(7) for n in range(11)]),
    ("N = C / 2, each; N = 1, C = 1024", None,
     [command(0x30, (n + 1) << 12 | n << 8 | 0x20) + mark(7) for n in range(10)] + [command(0x30, 0xA020)]),
    ("21: N = 2 C, each; N = 1024, C = 1 to 512", 21,
     [command(0x30, n << 12 | (n + 1) << 8 | 0x20) + mark(7) for n in range(10)] + [command(0x30, n << 12 | 0x0A20) for n in range(10)]),
    ("9 comes before 10", 9, [h("05"), START + h("00"), h("FF3000")]),
    ("10 comes before 18, 1, 20, 19 and 21", 10,
     [h("024200"), h("01FF00"), h("0130FF"), h("0131FF"), GREATEST + h("03000000"), START + OVER + h("03000000"),
      GREATEST + OVER + h("0300")]),
    ("1 comes before 20", 1, [command(0x37, 0xFFFF), command(0x2F, 0x0017), START + command(0x00, 0xFFFF)]),
    ("19 comes before 21", 19, [START + OVER + mark(6), GREATEST + OVER + LEAST]),
    ("18, 1, 20 and 9 with N above C, before a mark and before the end", 18, [OVER + TICK, OVER + WORD + mark(7)]),
    ("the same", 1, [OVER + command(0x37, 0), OVER + command(0x37, 0) + mark(7)]),
    ("the same", 20, [OVER + command(0x30, 0x0017), OVER + command(0x30, 0x0017) + mark(7)]),
    ("the same", 9, [OVER + h("00"), OVER + h("00") + mark(7)]),
    ("long lists", None, [whole_list(RANDOM, 300), mark(1) * 100, WITHIN * 500]),
    ("long lists", 20, [whole_list(RANDOM, 200) + command(0x31, 0xFFFF)]),
]

# A refusal, and records that offend by it.
FAULTS = [(9, h("00")), (18, TICK), (18, WORD), (1, command(0x37, 0x0020)), (20, command(0x31, 0xFFFF)), (19, mark(9) + mark(8)),
          (21, OVER + mark(10))]
CUT = (10, h("0130FF"))


def listed_cases():
    for what, refusal, lists in CASES:
        yield from ((what, refusal, log) for log in lists)
    # two faults in two records, in both orders; a cut record is the last
    for first in FAULTS:
        for second in FAULTS + [CUT]:
            yield "two faults", first[0], START + first[1] + second[1]


def refusal_of(log):
    try:
        check(log)
    except Bad as bad:
        return bad.refusal
    return None


def main():
    logs = []
    for what, refusal, log in listed_cases():
        assert refusal_of(log) == refusal, (what, log.hex(), refusal_of(log))
        logs.append(log)
    logs += [random_list(RANDOM) for _ in range(150)]
    # what the program prints without input: an output of 63 bytes, and offsets of ten digits and of eleven
    expected = "".join(line(log) for log in logs) + "refused\nBAD 1 9999999999\nrefused\n"
    data = b"".join(struct.pack(">H", len(log)) + log for log in logs)
    assert len(data) < 65536
    with open(os.path.join(CRATE, "stdin"), "wb") as out:
        out.write(data)
    with open(os.path.join(CRATE, "stdout"), "w", encoding="utf8") as out:
        out.write(expected)


if __name__ == "__main__":
    main()
