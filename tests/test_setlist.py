"""Tests of the program setlist, its wrapper ./setlist, the samples, tools/plot and the handbook's examples.

SETLIST names the program where it is not crates/setlist/out/setlist.
"""
import os
import random
import re
import sys
import tempfile
import unittest
import xml.etree.ElementTree

import programs
from programs import TOP, read, run, shell

PLOT = os.path.join(TOP, "tools", "plot")
SAMPLES = ("day-start", "bursts", "damaged", "rounded-down")
sys.path.insert(0, os.path.join(TOP, "tools", "cases"))

from listing_model import LEGAL_BEFORE, listing, random_log, value  # noqa: E402
from samples import BINS, band_of  # noqa: E402

WHOLE_CASE = bytes.fromhex("013000E3 02430001 0243FFFF 02438000 0300000007 04")
WHOLE_TEXT = "DFB LOG 1\nC 30 0063\nW 43 1 -1 -32768\nS 7\nT\nEND 6\n"
TOO_LONG = "DFB LOG 1\nBAD 11 65536\n"


def long_random_log(r, length):
    """Whole and damaged logs behind each other."""
    log = b""
    while len(log) < length:
        log += random_log(r)
    return log[:length]


class OfSetlist:
    name, program = "setlist", programs.built("setlist")
    data, text = WHOLE_CASE, WHOLE_TEXT
    sample, sample_text = "samples/day-start.log", read("samples", "day-start.txt")


class Listings(OfSetlist, programs.Outputs, unittest.TestCase):
    def test_whole_case(self):
        self.compare(WHOLE_CASE, WHOLE_TEXT)

    def test_empty_input(self):
        self.compare(b"", "DFB LOG 1\nEND 0\n")

    def test_longest_input(self):
        self.compare(b"\x04" * 65536, "DFB LOG 1\n" + "T\n" * 65536 + "END 65536\n")

    def test_over_the_limit(self):
        for length in (65537, 65538, 131072, 1_000_000):
            self.compare(b"\x04" * length, TOO_LONG)
        self.compare(b"\x00" * 65537, TOO_LONG)

    def test_samples(self):
        for name in SAMPLES:
            log, text = read("samples", name + ".log", mode="rb"), read("samples", name + ".txt")
            self.compare(log, text)
            self.assertEqual(listing(log), text)

    def test_log_made_before_ticket_5(self):
        """Each of the 124 codes of then is read, and its value is printed as it was."""
        self.assertEqual(len(LEGAL_BEFORE), 124)
        values = [str(value(code)) for code in LEGAL_BEFORE + LEGAL_BEFORE[:4]]
        lines = ["C 30 0060", "C 31 0032", "S 1204500000", "T", "P 1 00 64 " + " ".join(values[:64]), "P 2 12 64 " + " ".join(values[64:])]
        self.compare(read("samples", "rounded-down.log", mode="rb"), "\n".join(["DFB LOG 1"] + lines + ["END 68"]) + "\n")

    def test_random_logs(self):
        r = random.Random(1)
        for _ in range(400):
            log = random_log(r)
            self.compare(log, listing(log))

    def test_long_random_logs(self):
        r = random.Random(2)
        for length in (1000, 20000, 65535, 65536, 65537):
            log = long_random_log(r, length)
            self.compare(log, listing(log))


class Reads(OfSetlist, programs.Reads, unittest.TestCase):
    def test_longest_input_in_parts(self):
        log = b"\x04" * 65536
        self.assertEqual(self.deliver(log, [16384] * 4, 0.02), listing(log))

    def test_over_the_limit_in_parts(self):
        self.assertEqual(self.deliver(b"\x04" * 65537, [65536, 1], 0.05), TOO_LONG)


class Failures(OfSetlist, programs.Failures, unittest.TestCase):
    pass


class Wrapper(OfSetlist, programs.Wrapper, unittest.TestCase):
    def test_end(self):
        self.check(["samples/day-start.log", "samples/bursts.log"], 0, read("samples", "day-start.txt") + read("samples", "bursts.txt"))

    def test_bad(self):
        self.check([], 1, "DFB LOG 1\nBAD 9 0\n", data=b"\x00")
        self.check(["samples/damaged.log"], 1, read("samples", "damaged.txt"))
        both = read("samples", "damaged.txt") + read("samples", "day-start.txt")
        self.check(["samples/damaged.log", "samples/day-start.log"], 1, both)


class Building(OfSetlist, programs.Building, unittest.TestCase):
    pass


class Panel:
    """One processor's spectrum on a page, read back: the page's own grid says what a place stands for."""

    def __init__(self, title):
        self.title, self.hertz, self.powers, self.bars, self.values = title, {}, {}, [], []

    def hertz_at(self, x):
        first, last = self.hertz[8], self.hertz[8192]
        return 8 * 2 ** (10 * (x - first) / (last - first))

    def power_at(self, y):
        low, high = min(self.powers), max(self.powers)
        return 10 ** (low + (high - low) * (y - self.powers[low]) / (self.powers[high] - self.powers[low]))


class Page:
    """The texts above the panels, the panels, and the colours of values and bars, in the legend and below it."""

    def __init__(self, path):
        self.texts, self.panels, self.value_colours, self.bar_colours, self.line = [], [], [], [], None
        for node in xml.etree.ElementTree.parse(path).getroot():
            getattr(self, "take_" + node.tag.split("}")[1])(node)

    def take_text(self, node):
        content, line, self.line = "".join(node.itertext()), self.line, None
        if content.startswith("Processor"):
            self.panels.append(Panel(content))
        elif not self.panels:
            self.texts.append(content)
        elif line and line["x1"] == line["x2"]:
            self.panels[-1].hertz[int(content)] = line["x1"]
        elif line:
            self.panels[-1].powers[int(content[2:])] = line["y1"]

    def take_line(self, node):
        place = {name: float(node.get(name)) for name in ("x1", "x2", "y1", "y2")}
        if not node.get("stroke-width"):
            self.line = place
            return
        self.value_colours.append(node.get("stroke"))
        if self.panels:
            self.panels[-1].values.append(place)

    def take_rect(self, node):
        if node.get("fill-opacity"):
            self.bar_colours.append(node.get("fill"))
            if self.panels:
                self.panels[-1].bars.append({name: float(node.get(name)) for name in ("x", "y", "width", "height")})


def nearest(v):
    """Ticket 5: V to V + 1 where V is under 8, otherwise nine times the difference is at most the mean."""
    return (v, v + 1) if v < 8 else (0.9 * v, 1.125 * v)


def rounded_down(v):
    """01: V to V + 1 where V is under 4, otherwise five times the difference is less than the mean."""
    return (v, v + 1) if v < 4 else (v, 1.25 * v)


def printed(text):
    """The values of each line P of a listing."""
    return [[int(v) for v in line.split()[4:]] for line in text.splitlines() if line.startswith("P")]


class Pages(unittest.TestCase):
    def draw(self, text, name, *options):
        """The pages of a listing."""
        with tempfile.TemporaryDirectory() as folder:
            path = os.path.join(folder, name + ".txt")
            with open(path, "w") as out:
                out.write(text)
            done = run([PLOT, *options, path, os.path.join(folder, "pages")])
            self.assertEqual((done.returncode, done.stderr), (0, b""))
            pages = os.listdir(os.path.join(folder, "pages"))
            self.assertEqual(sorted(pages), sorted("%s-%d.svg" % (name, n) for n in range(1, len(pages) + 1)))
            return [Page(os.path.join(folder, "pages", "%s-%d.svg" % (name, n))) for n in range(1, len(pages) + 1)]

    def near(self, place, expected, part=0.004):
        self.assertLess(abs(place - expected), part * expected, (place, expected))

    def check(self, panel, values, bounds, part=0.004):
        """Each band stands between its edges (01, "Bands"), its value at its power, and its bar between the bounds. Places have one digit
        after the point: over ten powers of ten that is one part in a hundred."""
        for hertz, x in panel.hertz.items():
            self.near(panel.hertz_at(x), hertz)
        for power, y in panel.powers.items():
            self.near(panel.power_at(y), 10**power, part)
        size = {36: 4, 64: 8, 112: 16}[len(values)]
        bins = [[k for k in range(BINS) if band_of(size, k) == b] for b in range(len(values))]
        self.assertEqual((len(panel.values), len(panel.bars)), (len(values), len(values)))
        for v, of_band, line, bar in zip(values, bins, panel.values, panel.bars):
            self.assertEqual((line["x1"], line["y1"]), (bar["x"], line["y2"]))
            self.near(panel.hertz_at(bar["x"]), max(8 * of_band[0], 4))
            for right in (line["x2"], bar["x"] + bar["width"]):
                self.near(panel.hertz_at(right), 8 * (of_band[-1] + 1))
            least, most = bounds(v)
            # a logarithmic scale has no 0: it stands at the lower edge, at 0.5
            for y, power in ((line["y1"], v), (bar["y"] + bar["height"], least), (bar["y"], most)):
                self.near(panel.power_at(y), max(power, 0.5), part)

    def check_page(self, page, rows, bounds, part=0.004):
        self.assertEqual(len(page.panels), len(rows))
        for panel, values in zip(page.panels, rows):
            self.check(panel, values, bounds, part)
        for colours in (page.value_colours, page.bar_colours):
            self.assertEqual(len(set(colours)), 1)
            self.assertEqual(len(colours), 1 + sum(map(len, rows)))
        self.assertFalse({page.value_colours[0], page.bar_colours[0]} & {"white", "none", None})
        self.assertNotEqual(page.value_colours[0], page.bar_colours[0])

    def test_day_start(self):
        log, text = read("samples", "day-start.log", mode="rb"), read("samples", "day-start.txt")
        first = log.index(b"\x02\x4E")
        second = log.index(b"\x02\x4E", first + 36 * 4)
        pages = self.draw(text, "day-start")
        self.assertEqual(len(pages), 8)
        self.assertEqual(pages[1].texts, [
            "day-start: SPEC set 2 of 8",
            "In the log at byte %d, second 1204416001. 36 bands; N = 4 (spectra averaged), C = 8 (ticks a period)." % second,
            "Registers in force  30: 3223  31: 0000  32: 0000  33: 0032  34: 0000  35: 0000  36: 0000",
            "printed value V",
            "where the exact mean lies (log made by 0.5.0 or later): V to under V + 1 if V < 8, else 9/10 V to 9/8 V",
        ])
        self.assertEqual([panel.title for panel in pages[1].panels], ["Processor 1, source 0x03", "Processor 4, source 0x12"])
        for place, page in enumerate(pages):
            self.check_page(page, printed(text)[2 * place:2 * place + 2], nearest)

    def test_bursts(self):
        text = read("samples", "bursts.txt")
        pages = self.draw(text, "bursts")
        self.assertEqual(len(pages), 3)
        for page, values in zip(pages, printed(text)):
            self.check_page(page, [values], nearest)

    def test_log_made_before_ticket_5(self):
        text = read("samples", "rounded-down.txt")
        (page,) = self.draw(text, "rounded-down", "--rounded-down")
        self.assertEqual(page.texts[-1], "where the exact mean lies (log made before 0.5.0): V to under V + 1 if V < 4, else V to under 5/4 V")
        self.check_page(page, printed(text), rounded_down, 0.012)

    def of_codes(self, codes):
        return listing(bytes.fromhex("01300020") + b"".join(bytes([2, 0x4E, high, low]) for low, high in zip(codes[::2], codes[1::2])))

    def test_values_about_8(self):
        text = self.of_codes([1, 2, 3, 4, 5, 6, 7, 0x0C, 0x0D, 0x0E, 0x0F, 0x14] * 3)
        for options, bounds in (((), nearest), (("--rounded-down",), rounded_down)):
            (page,) = self.draw(text, "small", *options)
            self.check_page(page, printed(text), bounds)

    def test_equal_values(self):
        """The power axis has two labels, though the values lie between two powers of ten."""
        text = self.of_codes([0x15] * 36)
        (page,) = self.draw(text, "equal")
        self.assertEqual(set(page.panels[0].powers), {0, 1})
        self.check_page(page, printed(text), nearest)

    def test_largest_value(self):
        """2^32 was never printed by rounding down."""
        text = self.of_codes([0xF4, 0] * 18)
        (page,) = self.draw(text, "largest")
        self.check_page(page, printed(text), nearest, 0.012)
        with tempfile.TemporaryDirectory() as folder:
            path = os.path.join(folder, "largest.txt")
            with open(path, "w") as out:
                out.write(text)
            done = run([PLOT, path, "--rounded-down", folder])
            self.assertEqual((done.returncode, done.stdout, os.listdir(folder)), (1, b"", ["largest.txt"]))
            self.assertIn(b"leave --rounded-down out", done.stderr)

    def test_wrong_options(self):
        for arguments in ([], ["--help"], ["--rounded-down"], ["--rounded", "samples/bursts.txt"], ["samples/bursts.txt", "--rounded"]):
            done = run([PLOT, *arguments])
            self.assertEqual((done.returncode, done.stdout), (1, b""), arguments)
            self.assertIn(b"plot [--rounded-down] LISTING [FOLDER]", done.stderr)


class Documents(unittest.TestCase):
    def test_handbook(self):
        """Blocks of a command and its output, and sentences 'Try it: `command` ends in `line`'."""
        handbook = read("docs", "HANDBOOK.md")
        blocks = re.findall(r"^    \$ (.*)\n((?:    .*\n)+)", handbook, re.MULTILINE)
        sentences = re.findall(r"Try it: `([^`]*)` ends in `([^`]*)`", handbook)
        self.assertTrue(blocks and sentences)
        for command, output in blocks:
            self.assertEqual(shell(command).stdout.decode(), re.sub("^    ", "", output, flags=re.MULTILINE))
        for command, last in sentences:
            self.assertEqual(shell(command).stdout.decode().splitlines()[-1], last)


if __name__ == "__main__":
    unittest.main()
