"""An independent model of summed spectra, written from ticket 4 of paper 02 and the sum code of document 000 (FSUM) and paper 01.

`sum_component(state, totals, component, first, second, pairs, room)` gives the state and the totals afterwards and the bytes written; room is
the length of the output. `Book` has no totals: it keeps the components as they are handed in, and sums them at the eighth. Each raises
Refused. `random_mask`, `random_pairs` and `random_component` are arguments.
"""
COMPONENTS, BINS = 8, 1024
STATE, TOTALS, PAIRS, OUTPUT = 3, 2 * BINS, 2 * BINS, 4 * BINS
MOST_POWER = 2**31


class Refused(Exception):
    def __init__(self, number):
        super().__init__("refusal %d" % number)
        self.number = number


def code(value):
    """The sum code: the least exponent at which the value, rounded down, fits ten bits."""
    exponent = 0
    while value // 2**exponent >= 1024:
        exponent += 1
    return 1024 * exponent + value // 2**exponent


def expanded(sum_code):
    return sum_code % 1024 * 2 ** (sum_code // 1024)


def powers(pairs):
    return [re * re + im * im for re, im in zip(pairs[::2], pairs[1::2])]


def has(mask, component):
    return mask >> component & 1 == 1


def is_within_bounds(value, exact):
    """The ticket's bounds on an expanded code, in whole numbers."""
    return value == exact if exact < 1024 else value <= exact and 513 * (exact - value) < exact


def sum_component(state, totals, component, first, second, pairs, room=OUTPUT):
    if len(state) != STATE or len(totals) != TOTALS or len(pairs) != PAIRS or room < OUTPUT:
        raise Refused(2)
    place, *masks = state
    if place >= COMPONENTS:
        raise Refused(3)
    runs = [totals[:BINS], totals[BINS:]]
    for mask, run in zip(masks, runs):
        if max(run) > MOST_POWER * sum(has(mask, n) for n in range(place)):
            raise Refused(3)
    if component != place:
        raise Refused(17)
    if component == 0:
        masks = [first, second]
    power = powers(pairs)
    runs = [[a + b for a, b in zip(run, power)] if has(mask, component) else run for mask, run in zip(masks, runs)]
    if component < COMPONENTS - 1:
        return (component + 1, *masks), runs[0] + runs[1], b""
    return (0, *masks), [0] * TOTALS, b"".join(code(total).to_bytes(2, "big") for run in runs for total in run)


class Book:
    """Of a list of calls begun at component 0 with totals 0, by what the caller hands in. Refusal 3 never comes."""

    def __init__(self):
        self.kept, self.masks = [], (0, 0)

    def take(self, component, first, second, pairs, are_lengths_right=True):
        """The exact sums of both masks at the eighth component, and None before it."""
        if not are_lengths_right or len(pairs) != PAIRS:
            raise Refused(2)
        if component != len(self.kept):
            raise Refused(17)
        if component == 0:
            self.masks = first, second
        self.kept.append(pairs)
        if len(self.kept) < COMPONENTS:
            return None
        kept, self.kept = [powers(pairs) for pairs in self.kept], []
        return [[sum(column) for column in zip([0] * BINS, *(kept[n] for n in range(COMPONENTS) if has(mask, n)))] for mask in self.masks]


# ---- random arguments


def random_mask(r):
    return r.choice([0, 255, 1 << r.randrange(8), r.randrange(256), r.randrange(256)])


def random_pairs(r):
    """Often small, so that sums under 1024 come too, or at the ends of the range."""
    most = r.choice([4, 11, 40, 300, 32768])
    if most == 32768 and r.random() < 0.5:
        return r.choices([-32768, 32767, 0, -1], k=PAIRS)
    return r.choices(range(-most, most), k=PAIRS)


def random_component(r, place):
    """The next component, and at times another."""
    return place if r.random() < 0.9 else r.choice([0, (place + 1) % 8, (place + 7) % 8, 7, 8, 255, r.randrange(256)])
