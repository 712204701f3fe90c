#!/usr/bin/env python3
"""vectors.py DOCUMENT: writes crates/vectors/stdout and crates/board_vectors/stdout, what these programs must print.

Nothing here comes from the programs. The single numbers are those of 01, "Numbers on both sides", and of tickets 5 and 13, copied by hand. The
band codes follow the sentences of 01 and ticket 5 on legal codes and on the nearest of them, and the cadences that on NCAD. The bands are
the rows of tables 23, 24 and 25 of DOCUMENT, source document 002 as text, with the centre half-way between the edges, and the band of an
FFT bin is the row that holds it.
"""
import os
import sys

from frequency_tables import rows

CRATES = os.path.join(os.path.dirname(os.path.abspath(__file__)), "..", "..", "crates")

NUMBERS = """\
band code of 9 0d
band code of 15 14
band code of 16 14
band code of 4294967295 f4
sum code of 1023 03ff
sum code fc00 0
bin 0 4 4
bin 0 1023 35
bin 1 1023 63
bin 2 1023 111
bin 2 1024 refused 12
bin 3 0 refused 12""".split("\n")


IDLE, COLLECTED, WAITING, REPORTED, REFUSED = 0, 1, 2, 1000, 1_000_000


def tick(answer, total):
    return f"tick {answer}", f"total {total}"


def first_word(apid, code, value):
    """The first word of a report of processor 1 has band 0 in the lower byte and band 1, which is 0, in the upper."""
    return f"word {apid:02X}00{code:02X}", f"value {value}"


def board():
    # a write of 0x0017 to 0x30, and its read
    yield from (f"stored {0x0003}", f"read {0x0003}")
    # powers 8 and 11: a mean of 9.5, rounded down 9, which prints as 10, in 18 words of 36 bands
    yield from (*tick(COLLECTED, 8), *tick(REPORTED + 18, 0), *first_word(0x4E, 0x0D, 10), *tick(WAITING, 0))
    # powers 0 and 1: a mean of 0.5, which prints as 0
    yield from (*tick(COLLECTED, 0), *tick(REPORTED + 18, 0), *first_word(0x4E, 0x00, 0), *tick(WAITING, 0))
    # 4294967295 twice: the largest mean, which prints as 4294967296
    largest = 4294967295
    yield from (*tick(COLLECTED, largest), *tick(REPORTED + 18, 0), *first_word(0x4E, 0xF4, 4294967296), *tick(WAITING, 0))
    # no report yet: an output of zeros
    yield from (*tick(COLLECTED, 8), *tick(COLLECTED, 19), *first_word(0, 0, 0), *tick(COLLECTED, 30))
    yield from numbers()


def numbered(kind, answer, number):
    return f"{kind} {answer}", f"number {number}"


def numbers():
    """Ticket 13: reports since the last accepted command, from 0, staying at 65,535; when not running a state has 0, and others are refused by
    3. A report of 36 bands has 18 words."""
    report = REPORTED + 18
    # N = C = 1: each tick reports; a refused command between the first and the second
    yield from (*numbered("tick", IDLE, 0), *numbered("command", 0x0020, 0))
    yield from (*numbered("tick", report, 1), *numbered("command", REFUSED + 1, 1), *numbered("tick", report, 2))
    # the 65,534th, 65,535th and 65,536th report; a refused command; one that stores the same value; the first report after it
    yield from (*numbered("tick", report, 65534), *numbered("tick", report, 65535), *numbered("tick", report, 65535))
    yield from (*numbered("command", REFUSED + 1, 65535), *numbered("command", 0x0020, 0), *numbered("tick", report, 1))
    # N = 2, C = 4: collected, reported, two waiting, collected, reported
    yield from numbered("command", 0x2120, 0)
    for answer, number in ((COLLECTED, 0), (report, 1), (WAITING, 1), (WAITING, 1), (COLLECTED, 1), (report, 2)):
        yield from numbered("tick", answer, number)
    # no processor enabled: idle; then with the number 1, which is refused by 3 and handed back; a read looks at registers only
    yield from (*numbered("command", 0x2100, 0), *numbered("tick", IDLE, 0))
    yield from (*numbered("tick", REFUSED + 3, 1), *numbered("command", REFUSED + 3, 1), f"read {0x2100}")


def is_legal(code):
    exponent, mantissa = code // 8, code % 8
    return exponent == 0 or (1 <= exponent <= 29 and mantissa >= 4) or code == 0xF4


LEGAL_VALUES = {code % 8 * 2 ** (code // 8): code for code in range(256) if is_legal(code)}
assert len(LEGAL_VALUES) == 125


def band_codes():
    for code in range(256):
        yield f"band code {code:02x} " + (str(code % 8 * 2 ** (code // 8)) if is_legal(code) else "refused 7")


def nearest_codes():
    """0 to 17, and around each quarter of each step of the mantissa, one less and one more: the nearest of all legal values, the upper one
    halfway."""
    around = (quarters * 2**exponent + more for exponent in range(28) for quarters in range(16, 32) for more in (-1, 0, 1))
    for v in (*range(18), *around):
        nearest = min(LEGAL_VALUES, key=lambda value: (abs(v - value), -value))
        yield f"band code of {v} {LEGAL_VALUES[nearest]:02x}"


def cadences():
    for choice in range(11):
        ticks = 2**choice
        yield f"cadence {choice} " + (f"rate {8 // ticks}" if ticks <= 8 else f"period {ticks // 8}")
    yield "cadence 11 refused 12"


def bins(held):
    """Bin k spans 8 Hz from 8k Hz; the tables number bands from 1."""
    for setting in range(3):
        for k in range(1024):
            band, = (number - 1 for table, number, low, high, _ in held if table == setting and low <= 8 * k and 8 * k + 8 <= high)
            yield f"bin {setting} {k} {band}"
        yield f"bin {setting} 1024 refused 12"


def bands(held):
    for setting, count in ((0, 36), (1, 64), (2, 112)):
        for row in held:
            if row[0] == setting:
                _, number, low, high, df = row
                yield f"band {setting} {number} {low} {high} {df} {(low + high) // 2}"
        yield f"band {setting} {count + 1} refused 12"
    yield "band 3 1 refused 12"


def write(crate, *parts):
    with open(os.path.join(CRATES, crate, "stdout"), "w") as out:
        for part in parts:
            out.writelines(line + "\n" for line in part)


if __name__ == "__main__":
    held = rows(sys.argv[1])
    write("vectors", NUMBERS, band_codes(), nearest_codes(), cadences(), bins(held), bands(held))
    write("board_vectors", board())
