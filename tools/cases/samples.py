#!/usr/bin/env python3
"""Writes samples/*.log and, from listing_model.py, their listings samples/*.txt; and samples/*.list, planners' command lists, and, from
checklist_model.py, the lines samples/*.check that checklist prints for them.

day-start: the first minute of a survey. Commands set processors 1 and 4 (36 bands, N = 4, C = 8), second marks and ticks follow, each second
has survey sets, and each report its SPEC set. The spectra are made by a small board here: a falling power law with a line at 1,600 Hz.
bursts: the registers change to 112 bands for one processor, and Burst 1 sets stand between the survey's.
damaged: day-start with one byte lost in the middle of a waveform set.
rounded-down: a log as boards made it before version 0.5.0, with each of the 124 codes of then.
commands: an hour's plan: two processors, a minute of 112 bands, and all off at the end.
commands-altered: the plan with N and C of 0x30 sent to 0x33 as well.
commands-period: the plan with N and C of the minute taken for each other.
"""
import os
import struct

from checklist_model import line
from listing_model import BANDS, LEGAL, LEGAL_BEFORE, listing, stored, value

HERE = os.path.join(os.path.dirname(os.path.abspath(__file__)), "..", "..", "samples")
BINS = 1024


def band_of(size, k):
    """01, "Bands": the band of FFT bin k, with 4, 8 or 16 bands to the octave."""
    if k < size:
        return k
    h = k.bit_length() - 1
    s = size.bit_length() - 1
    return size * (h - s + 1) + (k - 2**h) * size // 2**h


def band_code(v):
    """02, ticket 5: the nearest of all legal values, and the upper one halfway."""
    return min(LEGAL, key=lambda code: (abs(v - value(code)), -value(code)))


def power(processor, tick, k):
    """A power spectrum that falls with the frequency, with a line at 1,600 Hz (bin 200) that comes and goes."""
    base = 40_000_000 // ((k + 2) * (processor + 1))
    line = 9_000_000 * (tick % 3) if 198 <= k <= 202 else 0
    return base + line + (k * 7919 + tick * 104729) % 97


class Board:
    """The stand-in as 01 tells it: registers, a phase, and the spectra since the last report."""

    def __init__(self):
        self.registers, self.phase, self.spectra, self.log = [0] * 7, 0, [], bytearray()

    def command(self, ident, information):
        self.registers[ident - 0x30] = stored(ident - 0x30, information)
        self.phase, self.spectra = 0, []
        self.log += bytes([1, ident, information >> 8, information & 0xFF])

    def second(self, seconds):
        self.log += b"\x03" + struct.pack(">I", seconds)

    def spectra_words(self, codes):
        for low, high in zip(codes[::2], codes[1::2]):
            self.log += bytes([2, 0x4E, high, low])

    def samples(self, apid, values):
        for v in values:
            self.log += bytes([2, apid]) + struct.pack(">h", v)

    def tick(self, number):
        self.log += b"\x04"
        on = [n for n in range(7) if self.registers[n] >> 5 & 1]
        averaged, period = 2 ** (self.registers[0] >> 8 & 15), 2 ** (self.registers[0] >> 12)
        if not on or averaged > period:
            return
        if self.phase < averaged:
            self.spectra.append([[power(n, number, k) for k in range(BINS)] if n in on else None for n in range(7)])
        if self.phase == averaged - 1:
            self.report(on, averaged)
            self.spectra = []
        self.phase = 0 if self.phase == period - 1 else self.phase + 1

    def report(self, on, averaged):
        setting = self.registers[0] >> 6 & 3
        size, count = 4 << setting, BANDS[setting]
        for n in on:
            totals, widths = [0] * count, [0] * count
            for k in range(BINS):
                b = band_of(size, k)
                widths[b] += 1
                totals[b] += sum(s[n][k] for s in self.spectra)
            self.spectra_words([band_code(t // (averaged * w)) for t, w in zip(totals, widths)])


def survey(board, second):
    wave = lambda i, scale: int(scale * (((second * 37 + i * 61) % 41) - 20) / 20)
    board.samples(0x43, [wave(i, 900) for i in range(3)])
    board.samples(0x44, [wave(i, 12000) for i in range(7)])
    board.samples(0x45, [wave(i, 300) for i in range(3)])


def day_start():
    board = Board()
    board.command(0x30, 0x3223)
    board.command(0x33, 0x0032)
    for second in range(8):
        board.second(1_204_416_000 + second)
        for t in range(8):
            board.tick(8 * second + t)
        survey(board, second)
    return board


def bursts():
    board = Board()
    board.command(0x30, 0x30A1)
    for second in range(3):
        board.second(1_204_470_000 + second)
        for t in range(8):
            board.tick(8 * second + t)
        board.samples(0x46, [-1, 0, 1])
        board.samples(0x47, [100 * second, 200, 300, -400, -500, -32768, 25 * second + 25])
        board.samples(0x48, [32767, 17, -17])
    return board


def rounded_down():
    """Two processors of 64 bands: 124 codes, and the first four once more."""
    board = Board()
    board.command(0x30, 0x0060)
    board.command(0x31, 0x0032)
    board.second(1_204_500_000)
    board.log += b"\x04"
    board.spectra_words(LEGAL_BEFORE + LEGAL_BEFORE[:4])
    return board


def commands(fourth=0x0032, minute=0x32A1):
    """What 0x33 is sent at the start, and 0x30 for the minute of 112 bands."""
    board = Board()
    board.second(1_204_416_000)
    board.command(0x30, 0x3223)
    board.command(0x33, fourth)
    board.second(1_204_417_800)
    board.command(0x33, 0x0012)
    board.command(0x30, minute)
    board.second(1_204_417_860)
    board.command(0x30, 0x3223)
    board.command(0x33, 0x0032)
    board.second(1_204_419_600)
    board.command(0x30, 0x3203)
    board.command(0x33, 0x0012)
    return board


def main():
    day = bytes(day_start().log)
    cut = day.index(b"\x02\x44") + 6
    logs = {
        "day-start": day,
        "bursts": bytes(bursts().log),
        "damaged": day[:cut] + day[cut + 1:],
        "rounded-down": bytes(rounded_down().log),
    }
    for name, log in logs.items():
        with open(os.path.join(HERE, name + ".log"), "wb") as out:
            out.write(log)
        with open(os.path.join(HERE, name + ".txt"), "w", encoding="utf8") as out:
            out.write(listing(log))
    lists = {
        "commands": bytes(commands().log),
        "commands-altered": bytes(commands(fourth=0x3232).log),
        "commands-period": bytes(commands(minute=0x23A1).log),
    }
    for name, log in lists.items():
        with open(os.path.join(HERE, name + ".list"), "wb") as out:
            out.write(log)
        with open(os.path.join(HERE, name + ".check"), "w", encoding="utf8") as out:
            out.write(line(log))


if __name__ == "__main__":
    main()
