#!/usr/bin/env python3
"""coarse.py DOCUMENT: writes crates/coarse_cases: the cases in stdin, and stdout, what the program must print (02, ticket 8).

The totals of spectra are taken bin by bin: a bin belongs to the row that holds it in the frequency tables of DOCUMENT, source document 002
as text; so neither 01's formula nor a rule on which fine bands make a band is used here. A list that is no spectrum's is converted by the
edges in hertz: a fine band belongs to the row that holds it.
"""
import os
import random
import sys

from frequency_tables import rows

CRATE = os.path.join(os.path.dirname(os.path.abspath(__file__)), "..", "..", "crates", "coarse_cases")
FINE, BINS, MOST = 112, 1024, 2**49
COUNTS = {0: 36, 1: 64}
TOTALS, OUTPUT, UNTOUCHED = 113, 66, 7


def edges(held, setting):
    """Low and high edge of each band of a setting in hertz."""
    return [(low, high) for table, _, low, high, _ in sorted(held) if table == setting]


def totals(bands, spectra):
    """Bin k spans 8 Hz from 8k Hz."""
    return [sum(spectrum[k] for spectrum in spectra for k in range(low // 8, high // 8)) for low, high in bands]


def converted(fine_bands, bands, fine):
    return [sum(t for t, (a, b) in zip(fine, fine_bands) if low <= a and b <= high) for low, high in bands]


def line(answer, out):
    return " ".join(map(str, [answer, *out, *[UNTOUCHED] * (OUTPUT - len(out))]))


class Cases:
    def __init__(self):
        self.input, self.output = bytearray(), []

    def add(self, setting, fine, room, expected):
        """expected: a refusal's number, or the totals."""
        self.input += bytes([setting, len(fine), room])
        self.input += b"".join(t.to_bytes(8, "big") for t in fine) + bytes(8 * (TOTALS - len(fine)))
        refused = isinstance(expected, int)
        self.output.append(line(f"refused {expected}", []) if refused else line(len(expected), expected))


def spectra(generator):
    """Lists of spectra: one with a single power; one of the greatest powers; 1,024 such, as the sum of their rows; and one, two and three random
    ones."""
    yield [[0] * 37 + [5] + [0] * (BINS - 38)]
    yield [[2**32 - 1] * BINS]
    yield [[1024 * (2**32 - 1)] * BINS]
    for count in (1, 2, 3):
        yield [[generator.randrange(2 ** generator.randrange(1, 33)) for _ in range(BINS)] for _ in range(count)]


def main(document):
    held = rows(document)
    fine_bands = edges(held, 2)
    bands = {setting: edges(held, setting) for setting in COUNTS}
    assert len(fine_bands) == FINE and all(len(bands[setting]) == count for setting, count in COUNTS.items())
    generator, cases = random.Random(8), Cases()
    for each in spectra(generator):
        for setting, count in COUNTS.items():
            cases.add(setting, totals(fine_bands, each), count, totals(bands[setting], each))
    # lists that tell each fine band from every other: a different power of two in each of 49, and outputs with room to spare
    for first in (0, 49, 63):
        powers = [2 ** (i - first) if first <= i < first + 49 else 0 for i in range(FINE)]
        for setting in COUNTS:
            cases.add(setting, powers, OUTPUT, converted(fine_bands, bands[setting], powers))
    ones = [1] * FINE
    for setting, count in COUNTS.items():
        # 2^49 itself is taken, in each place; one more is not
        cases.add(setting, [MOST] * FINE, count, converted(fine_bands, bands[setting], [MOST] * FINE))
        for place in (0, 56, 111):
            cases.add(setting, ones[:place] + [MOST + 1] + ones[place + 1:], count, 24)
        cases.add(setting, ones[:-1] + [2**64 - 1], OUTPUT, 24)
        # 2: the list, then the output; also before 24
        for length, room in ((0, count), (111, count), (113, count), (FINE, 0), (FINE, count - 1)):
            cases.add(setting, [1] * length, room, 2)
            cases.add(setting, [MOST + 1] * length, room, 2)
    # 12, before 2 and 24: 112 bands, and settings that have no bands
    for setting in (2, 3, 255):
        cases.add(setting, ones, OUTPUT, 12)
        cases.add(setting, [MOST + 1] * FINE, OUTPUT, 12)
        cases.add(setting, [MOST + 1], 0, 12)
    with open(os.path.join(CRATE, "stdin"), "wb") as out:
        out.write(cases.input)
    with open(os.path.join(CRATE, "stdout"), "w", encoding="utf8") as out:
        out.writelines(text + "\n" for text in cases.output)


if __name__ == "__main__":
    main(sys.argv[1])
