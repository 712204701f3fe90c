#!/usr/bin/env python3
"""Writes crates/summed_cases: the histories below in stdin, and stdout, what the program must print (02, ticket 4).

Of each call that is not random the refusal, or that there is none, stands here by hand, and so do the codes of many rounds, each worked out
from the ticket and the sum code of 000 and 01. The rest of the output is that of sums_model.py, and both are compared where both are there.

An operation in the input has 16 bytes, numbers high byte first, zeros at the end:

    0 begin     state and totals 0, all bytes of the output 0x77
    1 pairs     of the bins from one number up to another (2 bytes each): the real part and its step from bin to bin, the imaginary part and its
                step (2 bytes each); a part plus 32,768, and its steps are added by 16 bits
    2 totals    from one number up to another (2 bytes each) become a value (8 bytes)
    3 state     next component, first and second mask (1 byte each)
    4 call      component, first and second mask (1 byte each); the lengths of totals, pairs and output, and a bin (2 bytes each)

A call prints its answer, the state, both totals of the bin, its two codes in the output, the two bytes behind all codes, and a sum over the
memory of the totals and one over that of the output; each memory is longer than the length lent.
"""
import os
import random
import struct

from sums_model import BINS, OUTPUT, PAIRS, TOTALS, Book, Refused, code, expanded, is_within_bounds, random_component, random_mask, sum_component

CRATE = os.path.join(os.path.dirname(os.path.abspath(__file__)), "..", "..", "crates", "summed_cases")
MORE_TOTALS, MORE_PAIRS, MORE_OUTPUT, OLD_BYTE = 2056, 2056, 4112, 0x77
ANY = object()


def mixed(numbers):
    """The program's sum over a list."""
    total = 0
    for number in numbers:
        total = (31 * total + number % 2**32 + number // 2**32 * 7) % (2**32 - 5)
    return total


class Script:
    """Operations, and the lines that they print."""

    def __init__(self):
        self.data, self.lines = bytearray(), []
        self.pairs = [0] * MORE_PAIRS
        self.begin()

    def operation(self, number, form, *numbers):
        self.data += struct.pack(">B" + form, number, *numbers).ljust(16, b"\0")

    def begin(self):
        self.operation(0, "")
        self.state, self.totals, self.out = (0, 0, 0), [0] * MORE_TOTALS, bytearray([OLD_BYTE]) * MORE_OUTPUT
        self.book, self.is_own = Book(), True

    def give_pairs(self, re, im, re_step=0, im_step=0, bins=(0, MORE_PAIRS // 2)):
        """Of bins from the first number on and below the second."""
        self.operation(1, "HHHHHH", *bins, re + 32768, re_step % 65536, im + 32768, im_step % 65536)
        for place, k in enumerate(range(*bins)):
            self.pairs[2 * k] = (re + 32768 + place * re_step) % 65536 - 32768
            self.pairs[2 * k + 1] = (im + 32768 + place * im_step) % 65536 - 32768

    def give_totals(self, value, places=(0, MORE_TOTALS)):
        self.operation(2, "HHQ", *places, value)
        self.totals[slice(*places)] = [value] * len(range(*places))
        self.is_own = False

    def give_state(self, *state):
        self.operation(3, "BBB", *state)
        self.state, self.is_own = state, False

    def call(self, component, first=0, second=0, refused=None, codes=None, count=TOTALS, numbers=PAIRS, room=OUTPUT, shown=0):
        """refused: the refusal expected, None where the call is accepted, or ANY. codes: all 2,048 of an eighth component, or ANY."""
        self.operation(4, "BBBHHHH", component, first, second, count, numbers, room, shown)
        pairs = self.pairs[:numbers]
        try:
            self.state, totals, written = sum_component(self.state, self.totals[:count], component, first, second, pairs, room)
            refusal, answer = None, str(len(written))
            self.totals[:count], self.out[:len(written)] = totals, written
            assert refused is ANY or written == b"" or codes is not None
        except Refused as caught:
            refusal, written = caught.number, b""
            answer = "refused %d" % refusal
        assert refused is ANY or refusal == refused, (component, refusal, refused)
        found = [int.from_bytes(written[at:at + 2], "big") for at in range(0, len(written), 2)]
        assert codes is None or codes is ANY or found == codes
        if self.is_own:
            self.check_book(component, first, second, pairs, count == TOTALS and room >= OUTPUT, refusal, found)
        self.show(answer, shown)

    def check_book(self, component, first, second, pairs, are_lengths_right, refusal, found):
        try:
            sums = self.book.take(component, first, second, pairs, are_lengths_right)
        except Refused as caught:
            assert caught.number == refusal
            return
        assert refusal is None and (sums is not None) == (found != [])
        exact = [total for run in sums or [] for total in run]
        assert found == [code(total) for total in exact]
        assert all(is_within_bounds(expanded(n), total) for n, total in zip(found, exact))

    def show(self, answer, shown):
        def both(places):
            return " ".join("%02x%02x" % (self.out[at], self.out[at + 1]) for at in places)

        parts = [answer, "state %02x %02x %02x" % self.state, "totals %d %d" % (self.totals[shown], self.totals[BINS + shown])]
        parts += ["codes " + both([2 * shown, 2 * BINS + 2 * shown]), "rest " + both([OUTPUT])]
        self.lines.append("; ".join(parts + ["all %08x %08x" % (mixed(self.totals), mixed(self.out))]))

    def round(self, masks, components, codes, shown=0, room=OUTPUT):
        """Eight components, each the arguments of give_pairs, or None for the pairs as they are. The masks of later calls are others."""
        for component, pairs in enumerate(components):
            if pairs is not None:
                self.give_pairs(*pairs)
            handed = masks if component == 0 else (255 - masks[0], component)
            self.call(component, *handed, codes=codes if component == 7 else None, shown=shown, room=room)


# ---- by hand: masks, eight pairs that stand in all bins, and the code of the first and of the second sum in all bins

LEAST, MOST = -32768, 32767
ROUNDS = [
    # 3*3 + 4*4 = 25, once for each component of the mask
    ((0x01, 0x03), 8 * [(3, 4)], 0x0019, 0x0032),
    ((0xFF, 0x00), 8 * [(-3, -4)], 0x00C8, 0x0000),
    ((0x00, 0x80), 8 * [(4, -3)], 0x0000, 0x0019),
    ((0xAA, 0xAA), 8 * [(0, 5)], 0x0064, 0x0064),
    # the greatest sum with a code of its own: 31*31 + 7*7 + 3*3 + 2*2 = 1023, and 1024
    ((0x03, 0x04), [(31, 7), (3, 2), (32, 0)] + 5 * [(LEAST, MOST)], 0x03FF, 0x0600),
    # 1025 is rounded down to 1024, 1026 is 513*2
    ((0x01, 0x81), [(32, 1)] + 6 * [(9, 9)] + [(0, -1)], 0x0600, 0x0601),
    # 2046 and 2047 have one code, 1023*2; 2048 is 512*4
    ((0x03, 0x07), [(45, 4), (2, -1), (-1, 0)] + 5 * [(1, 1)], 0x07FF, 0x07FF),
    ((0x10, 0x30), 4 * [(7, 7)] + [(32, -32), (1, 1), (7, 7), (7, 7)], 0x0A00, 0x0A00),
    # 256: its high byte is first
    ((0x20, 0x40), 5 * [(0, 0)] + [(16, 0), (0, -1), (0, 0)], 0x0100, 0x0001),
    # the greatest power of a component is 2^31; eight of them are 2^34
    ((0x01, 0xFF), 8 * [(LEAST, LEAST)], 0x5A00, 0x6600),
    # 2^32, and 3 * 2^31 = 768 * 2^23
    ((0x81, 0x29), 8 * [(LEAST, LEAST)], 0x5E00, 0x5F00),
    # 7 * 2^31 = 896 * 2^24, and no component
    ((0xFE, 0x00), 8 * [(LEAST, LEAST)], 0x6380, 0x0000),
    # 2 * 32767^2 = 2^31 - 131070 and 32768^2 + 32767^2 = 2^31 - 65535 are 1023 * 2^21, rounded down
    ((0x01, 0x02), [(MOST, MOST), (LEAST, MOST)] + 6 * [(LEAST, LEAST)], 0x57FF, 0x57FF),
    # 32768^2 = 2^30 = 512 * 2^21, and 32767^2 = 1023 * 2^20, rounded down
    ((0x08, 0x10), 3 * [(1, 1)] + [(0, LEAST), (MOST, 0)] + 3 * [(1, 1)], 0x5600, 0x53FF),
    # 2^31 + 1 is rounded down
    ((0x03, 0x02), [(LEAST, LEAST), (1, 0)] + 6 * [(0, 0)], 0x5A00, 0x0001),
    # components outside both masks are not counted
    ((0x04, 0x04), [(LEAST, LEAST), (MOST, LEAST), (1, 2)] + 5 * [(LEAST, MOST)], 0x0005, 0x0005),
    ((0x00, 0x00), 8 * [(LEAST, LEAST)], 0x0000, 0x0000),
]


def by_hand(c):
    for masks, components, first, second in ROUNDS:
        c.round(masks, components, BINS * [first] + BINS * [second], shown=len(c.lines) % BINS)
    # each component by itself and all others: the squares of 1 to 8, 204 in all
    for bit in range(8):
        square = (bit + 1) ** 2
        c.round((1 << bit, 255 - (1 << bit)), [(n + 1, 0) for n in range(8)], BINS * [square] + BINS * [204 - square], shown=1023)
    # one bin, and its neighbours stay 0
    for k in (0, 1, 511, 512, 1022, 1023):
        first, second = [0] * BINS, [0] * BINS
        first[k], second[k] = 0x0190, 0x0600
        c.round((0x80, 0x01), [(0, 0)] + 6 * [None] + [(0, 0)], 2 * BINS * [0], shown=k)
        c.give_pairs(0, 0)
        c.give_pairs(-32, 0, bins=(k, k + 1))
        c.call(0, 0x80, 0x01, shown=k)
        for component in range(1, 7):
            c.call(component, shown=k)
        c.give_pairs(0, 0)
        c.give_pairs(12, -16, bins=(k, k + 1))
        c.call(7, codes=first + second, shown=k)


# The code of the square of each bin's number, worked out for these: 1022 * 1022 = 1020 * 1024 + 4, 1023 * 1023 = 1022 * 1024 + 1.
SQUARES = {0: 0x0000, 1: 0x0001, 2: 0x0004, 16: 0x0100, 31: 0x03C1, 32: 0x0600, 33: 0x0620, 46: 0x0A11, 64: 0x0E00, 100: 0x1271, 512: 0x2600,
           1000: 0x2BD0, 1022: 0x2BFC, 1023: 0x2BFE}


def bins_apart(c):
    """Real part k, or imaginary part -k, in bin k."""
    for k, n in SQUARES.items():
        c.begin()
        c.round((0x01, 0x02), [(0, 0, 1, 0), (0, 0, 0, -1)] + 6 * [(5, 5, 3, 7)], ANY, shown=k)
        assert c.lines[-1].split("; ")[3] == "codes %04x %04x" % (n, n)


# ---- masks and longer outputs


def masks(c):
    """Masks come with component 0 and hold for all eight, stay afterwards, and those of a state at component 0 are not looked at."""
    nines = BINS * [9]
    c.begin()
    c.round((0x01, 0x00), 8 * [(3, 0)], nines + BINS * [0])
    assert c.state == (0, 0x01, 0x00)
    c.round((0x00, 0x80), 8 * [(0, 3)], BINS * [0] + nines)
    assert c.state == (0, 0x00, 0x80)
    for given in ((0, 0), (255, 255), (1, 254)):
        c.give_state(0, *given)
        c.round((0x10, 0x18), 8 * [None], nines + BINS * [18])
    for room in (OUTPUT + 1, OUTPUT + 2, MORE_OUTPUT):
        c.begin()
        c.round((0x10, 0x18), 8 * [None], nines + BINS * [18], room=room)
        c.round((0x00, 0x01), 8 * [None], BINS * [0] + nines, room=room)


# ---- each refusal at its boundary


def wrong_lengths(c):
    """At every one of the eight calls."""
    c.begin()
    c.give_pairs(1, 2)
    for turn in range(2):
        for place in range(8):
            for lengths in ({"count": 2047}, {"count": 2049}, {"count": 0}, {"numbers": 2047}, {"numbers": 2049}, {"numbers": 0},
                            {"room": 4095}, {"room": 0}):
                if turn == 0 or list(lengths.values())[0] in (2049, 4095):
                    c.call(place, 0x0F, 0xF1, refused=2, **lengths)
            c.call(place, 0x0F, 0xF1, codes=BINS * [20] + BINS * [25] if place == 7 else None)
    for lengths in ((1024, 2048, 4096), (2048, 1024, 4096), (2048, 2048, 2048), (2048, 2048, 4094), (2056, 2048, 4096), (2048, 2056, 4096),
                    (2047, 2049, 4096), (4, 4, 4)):
        c.call(0, 0x0F, 0xF1, refused=2, count=lengths[0], numbers=lengths[1], room=lengths[2])


def out_of_order(c):
    """At every place each other component, 8 and more among them."""
    c.begin()
    c.give_pairs(2, 0)
    for place in range(8):
        for component in list(range(9)) + [place + 8, place + 16, place + 128, 127, 255]:
            if component != place:
                c.call(component, 0x55, 0xAA, refused=17)
        c.call(place, 0x55, 0xAA, codes=2 * BINS * [16] if place == 7 else None)
        c.call(place, 0x55, 0xAA, refused=17)


def unsound(c):
    c.begin()
    c.give_pairs(0, 1)
    # the next component
    for place in (8, 9, 16, 127, 128, 255):
        c.give_state(place, 255, 255)
        for component in (0, 7, place):
            c.call(component, 255, 255, refused=3)
    # at component 0 every total is 0, whatever the masks
    for given in ((0, 0), (255, 255)):
        c.give_state(0, *given)
        for k in (0, 1023, 1024, 2047):
            for value in (1, 2**31, 2**63):
                c.give_totals(value, (k, k + 1))
                c.call(0, 255, 255, refused=3)
            c.give_totals(0, (k, k + 1))
    c.call(0, 255, 255)
    # 2^31 for each component so far that its own mask has; masks as in the state, of components below the next
    for place, first, second, most_first, most_second in (
        (1, 0x01, 0x00, 2**31, 0), (1, 0x00, 0x01, 0, 2**31), (1, 0xFE, 0xFF, 0, 2**31), (2, 0xFF, 0x02, 2**32, 2**31),
        (3, 0x05, 0xF8, 2**32, 0), (4, 0x0F, 0x0E, 2**33, 3 * 2**31), (5, 0x10, 0xF0, 2**31, 2**31), (6, 0xC0, 0x3F, 0, 6 * 2**31),
        (7, 0x7F, 0x80, 7 * 2**31, 0), (7, 0xFF, 0x55, 7 * 2**31, 2**33), (7, 0xAA, 0xFF, 3 * 2**31, 7 * 2**31),
    ):
        for k, most in ((0, most_first), (1023, most_first), (1024, most_second), (2047, most_second)):
            c.give_totals(0)
            c.give_state(place, first, second)
            for value in (most + 1, 2**63 - 1, 2**63 + most, 2**64 - 1):
                c.give_totals(value, (k, k + 1))
                c.call(place, 255, 255, refused=3, shown=k % BINS)
            c.give_totals(most, (k, k + 1))
            c.call((place + 1) % 8, 255, 255, refused=17, shown=k % BINS)
        # all at the limit, and one more power is taken: 1 for those that have the component
        c.give_totals(most_first, (0, BINS))
        c.give_totals(most_second, (BINS, MORE_TOTALS))
        if place < 7:
            c.call(place, 0, 0)
        else:
            sums = [most_first + (first >> 7), most_second + (second >> 7)]
            c.call(7, 0, 0, codes=ANY)
            assert c.lines[-1].split("; ")[3] == "codes %04x %04x" % tuple({7 * 2**31 + 1: 0x6380, 2**33: 0x6200, 7 * 2**31: 0x6380, 1: 1,
                                                                            3 * 2**31 + 1: 0x5F00}[n] for n in sums)
    # a state in the middle with totals that a sum can have left, and the greatest sum
    c.give_pairs(LEAST, LEAST)
    c.give_state(7, 255, 127)
    c.give_totals(7 * 2**31)
    c.call(7, 0, 0, codes=BINS * [0x6600] + BINS * [0x6380])
    # totals behind the 2,048 are not looked at
    c.give_totals(2**64 - 1, (TOTALS, MORE_TOTALS))
    c.round((0xFF, 0x01), 8 * [(0, 1)], BINS * [8] + BINS * [1])


# ---- two faults at once


def two_faults(c):
    """Each two of the faults; the refusal is that of the one that is first here."""
    faults = [
        (2, {"count": 2047}),
        (2, {"numbers": 2049}),
        (2, {"room": 4095}),
        (3, {"place": 8}),
        (3, {"total": 1}),
        (17, {"component": 4}),
    ]
    for first, (refusal, fault) in enumerate(faults):
        for second in range(first, len(faults)):
            made = {**fault, **faults[second][1]}
            c.begin()
            c.give_state(made.pop("place", 3), 0x03, 0xF8)
            c.give_totals(made.pop("total", 0), (BINS, BINS + 1))
            c.call(made.pop("component", 3), 0xFF, 0xFF, refused=refusal, **made)
    c.begin()
    c.give_state(255, 0, 0)
    c.give_totals(2**64 - 1)
    c.call(255, 255, 255, refused=2, count=0, numbers=0, room=0)
    c.call(255, 255, 255, refused=3)


# ---- random histories


def random_parts(r):
    most = r.choice([1, 4, 12, 40, 300, 32768])
    step = r.choice([0, 1, 7, 257, 65535, r.randrange(65536)])
    return [r.randrange(-most, most) for _ in range(2)] + [step, r.choice([0, step, r.randrange(65536)])]


def random_call(c, r):
    place = c.state[0]
    if r.random() < 0.8:
        c.give_pairs(*random_parts(r))
    if r.random() < 0.3:
        k = r.randrange(BINS)
        c.give_pairs(*random_parts(r), bins=(k, min(k + r.choice([1, 5, 300]), BINS)))
    lengths = r.choice([{"count": 2047}, {"numbers": 2049}, {"room": 4095}]) if r.random() < 0.08 else {"room": r.choice([4096, 4096, 4100])}
    c.call(random_component(r, place), random_mask(r), random_mask(r), refused=ANY, shown=r.choice([0, 1023, r.randrange(BINS)]), **lengths)


def histories(c):
    """Begun at component 0: the book agrees."""
    r = random.Random(4)
    for _ in range(12):
        c.begin()
        for _ in range(r.choice([8, 16, 30])):
            random_call(c, r)


def any_states(c):
    """States and totals that no call left, too."""
    r = random.Random(5)
    for _ in range(100):
        place = r.choice([0, 1, 2, 3, 4, 5, 6, 7, 7, 7, 7, 8])
        masks = [random_mask(r), random_mask(r)]
        c.give_state(place, *masks)
        c.give_totals(0)
        for run, mask in enumerate(masks):
            most = 2**31 * sum(mask >> n & 1 for n in range(min(place, 7)))
            c.give_totals(r.randrange(most + 1), (run * BINS, run * BINS + BINS))
            if r.random() < 0.3:
                k = run * BINS + r.randrange(BINS)
                c.give_totals(r.choice([most, most, most + 1]), (k, k + 1))
        random_call(c, r)


def main():
    script = Script()
    for part in (by_hand, bins_apart, masks, wrong_lengths, out_of_order, unsound, two_faults, histories, any_states):
        part(script)
    assert len(script.data) < 65536
    with open(os.path.join(CRATE, "stdin"), "wb") as out:
        out.write(script.data)
    with open(os.path.join(CRATE, "stdout"), "w", encoding="utf8") as out:
        out.writelines(line + "\n" for line in script.lines)


if __name__ == "__main__":
    main()
