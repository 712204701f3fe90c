"""Tests of the program checklist, its wrapper ./checklist and the sample lists.

CHECKLIST names the program where it is not crates/checklist/out/checklist.
"""
import os
import random
import sys
import tempfile
import unittest

import programs
from programs import TOP, read, run

SAMPLES = ("commands", "commands-altered", "commands-period")
sys.path.insert(0, os.path.join(TOP, "tools", "cases"))

from checklist_model import command, line, mark, random_list, whole_list  # noqa: E402

QUIET = "OK 0000 0000 0000 0000 0000 0000 0000\n"
WITHIN, OVER, OFF = command(0x30, 0x3223), command(0x30, 0x0123), command(0x30, 0x0103)
PLAN = mark(7) + WITHIN + mark(7) + command(0x33, 0x0032) + mark(8)
PLAN_LINE = "OK 3223 0000 0000 0032 0000 0000 0000\n"
# 262,144 commands are the longest list that is checked.
MOST = 1_048_576
TOO_LONG = b"checklist: the list is over 1048576 bytes\n"


def sample(name, kind, **options):
    return read("samples", "%s.%s" % (name, kind), **options)


class OfChecklist:
    name, program = "checklist", programs.built("checklist")
    data, text = PLAN, PLAN_LINE
    sample, sample_text = "samples/commands.list", sample("commands", "check")


class Lines(OfChecklist, programs.Outputs, unittest.TestCase):
    def test_ticket(self):
        """The sentences of ticket 6, with lines written by hand."""
        for log, text in (
            (b"", QUIET),
            (PLAN, PLAN_LINE),
            (mark(0) + mark(0) + mark(2**32 - 1), QUIET),
            (b"".join(command(0x30 + n, 0x20 + n) for n in range(7)), "OK 0020 0021 0022 0023 0024 0025 0026\n"),
            (command(0x30, 0xAAB6), "OK AAB6 0000 0000 0000 0000 0000 0000\n"),
            (OVER + WITHIN + mark(7), "OK 3223 0000 0000 0000 0000 0000 0000\n"),
            (OFF + mark(7), "OK 0103 0000 0000 0000 0000 0000 0000\n"),
            (b"\x05", "BAD 9 0\n"),
            (WITHIN + b"\x03\x00\x00\x00", "BAD 10 4\n"),
            (WITHIN + b"\x04", "BAD 18 4\n"),
            (mark(7) + b"\x02\x43\x00\x01", "BAD 18 5\n"),
            (mark(7) + b"\x02\x42\x00\x01", "BAD 18 5\n"),
            (PLAN + command(0x37, 0xFFFF), "BAD 1 23\n"),
            (PLAN + command(0x31, 0xFFFF), "BAD 20 23\n"),
            (PLAN + mark(7), "BAD 19 23\n"),
            (PLAN + OVER + mark(7), "BAD 19 27\n"),
            (PLAN + OVER + mark(8), "BAD 21 27\n"),
            (PLAN + OVER, "BAD 21 27\n"),
            (OFF + command(0x36, 0x0020), "BAD 21 8\n"),
        ):
            self.compare(log, text)
            self.assertEqual(line(log), text)

    def test_samples(self):
        for name in SAMPLES:
            log, text = sample(name, "list", mode="rb"), sample(name, "check")
            self.compare(log, text)
            self.assertEqual(line(log), text)

    def test_sample_refusals(self):
        """What samples/README.md says of them."""
        starts = [sample(name, "check").split()[:2] for name in SAMPLES]
        self.assertEqual(starts, [["OK", "3203"], ["BAD", "20"], ["BAD", "21"]])

    def test_random_lists(self):
        r = random.Random(1)
        for _ in range(400):
            log = random_list(r)
            self.compare(log, line(log))

    def test_long_random_lists(self):
        """Whole, and damaged in one byte."""
        r = random.Random(2)
        for count in (1000, 20000):
            log = bytearray(whole_list(r, count))
            self.compare(log, line(log))
            log[r.randrange(len(log))] ^= 0xFF
            self.compare(log, line(log))

    def test_longest_list(self):
        self.compare(command(0x31, 0x0036) * (MOST // 4), "OK 0000 0036 0000 0000 0000 0000 0000\n")
        self.compare(command(0x31, 0x0036) * (MOST // 4 - 1) + command(0x37, 0), "BAD 1 1048572\n")
        self.compare(command(0x31, 0x0036) * (MOST // 4 - 1) + OVER, "BAD 21 1048576\n")
        self.compare(WITHIN + command(0x31, 0) * (MOST // 4 - 2) + b"\x04\x04\x04\x04", "BAD 18 1048572\n")

    def test_over_the_limit(self):
        """Whatever the list has."""
        for record in (command(0x31, 0x0036), b"\x04", b"\x00", OVER):
            for length in (MOST + 1, MOST + 2, 2 * MOST, 3_000_000):
                done = run([self.program], (record * (length // len(record) + 1))[:length])
                self.assertEqual((done.stdout, done.stderr, done.returncode), (b"", TOO_LONG, 0))


class Reads(OfChecklist, programs.Reads, unittest.TestCase):
    def test_longest_list_in_parts(self):
        log = command(0x31, 0x0036) * (MOST // 4)
        self.assertEqual(self.deliver(log, [65536] * 16, 0.005), line(log))

    def test_over_the_limit_in_parts(self):
        self.assertEqual(self.deliver(command(0x31, 0x0036) * (MOST // 4) + b"\x01", [MOST, 1], 0.05), TOO_LONG.decode())


class Failures(OfChecklist, programs.Failures, unittest.TestCase):
    pass


class Wrapper(OfChecklist, programs.Wrapper, unittest.TestCase):
    def files(self, *names):
        return ["samples/%s.list" % name for name in names], "".join(sample(name, "check") for name in names)

    def test_lines_in_the_order_of_the_files(self):
        for names, status in (
            (("commands", "commands"), 0),
            (("commands-altered",), 1),
            (("commands-period",), 1),
            (("commands", "commands-altered", "commands-period"), 1),
            (("commands-period", "commands", "commands-altered", "commands"), 1),
        ):
            arguments, text = self.files(*names)
            self.check(arguments, status, text)
        self.check([], 1, "BAD 9 0\n", data=b"\x00")
        self.check([], 0, QUIET)

    def test_over_the_limit(self):
        with tempfile.TemporaryDirectory() as folder:
            path = os.path.join(folder, "long list")
            with open(path, "wb") as file:
                file.write(WITHIN * (MOST // 4) + b"\x01")
            self.check([path], 1, "", "checklist: %s: %s" % (path, TOO_LONG.decode()))
            self.check([path, "samples/commands.list"], 1, sample("commands", "check"), TOO_LONG.decode())
            self.check(["samples/commands.list", path], 1, sample("commands", "check"), TOO_LONG.decode())


class Building(OfChecklist, programs.Building, unittest.TestCase):
    pass


if __name__ == "__main__":
    unittest.main()
