#!/usr/bin/env python3
"""The time of the program setlist on a survey's log, beside the same program in plain C, setlist_plain.c. Both must print the model's
listing first. SETLIST names the program where it is not dist/setlist. Holds the times to nothing.
"""
import os
import shutil
import subprocess
import sys
import tempfile
import time

TOP = os.path.dirname(os.path.dirname(os.path.abspath(__file__)))
PROGRAM = os.environ.get("SETLIST", os.path.join(TOP, "dist", "setlist"))
RUNS = 100
sys.path.insert(0, os.path.join(TOP, "tools", "cases"))

from listing_model import listing  # noqa: E402


def survey_log():
    """Seconds of a survey, up to 65,536 bytes: a mark, eight ticks, waveform sets, and a SPEC set of one processor at 36 bands."""
    second = bytes.fromhex("0347C99A40 0404040404040404")
    for apid, words in ((0x43, 3), (0x44, 7), (0x45, 3)):
        second += b"".join(bytes([2, apid, 40 * i, 200 - i]) for i in range(words))
    second += b"".join(bytes([2, 0x4E, 8 * i + 12, 8 * i + 15]) for i in range(18))
    return b"\x01\x30\x33\x23" + second * ((65536 - 4) // len(second))


def compile_plain(folder):
    """The program in plain C, or None where there is no C compiler."""
    compiler = shutil.which("cc")
    if compiler is None:
        return None
    program = os.path.join(folder, "setlist_plain")
    subprocess.run([compiler, "-O3", "-o", program, "bench/setlist_plain.c", "bench/plain.c"], cwd=TOP, check=True)
    return program


def milliseconds(program, log):
    """The best time of many runs."""
    best = float("inf")
    for _ in range(RUNS):
        log.seek(0)
        start = time.perf_counter()
        subprocess.run([program], stdin=log, stdout=subprocess.DEVNULL, check=True)
        best = min(best, time.perf_counter() - start)
    return 1e3 * best


def main():
    if not os.path.exists(PROGRAM):
        sys.exit("setlist_times: %s is not there: run tools/dist, or name the program in SETLIST" % PROGRAM)
    with tempfile.TemporaryDirectory() as folder, open(os.path.join(folder, "log"), "w+b") as log:
        data = survey_log()
        log.write(data)
        log.flush()
        plain = compile_plain(folder)
        for program in filter(None, (PROGRAM, plain)):
            done = subprocess.run([program], input=data, stdout=subprocess.PIPE, check=True)
            if done.stdout.decode("ascii") != listing(data):
                sys.exit("setlist_times: %s does not print the model's listing" % program)
        ours, empty = milliseconds(PROGRAM, log), milliseconds("true", log)
        print("setlist on %d bytes: %.2f ms; a program that does nothing: %.2f ms" % (len(data), ours, empty))
        if plain is None:
            sys.exit("setlist_times: there is no C compiler, cc: plain C is left out")
        theirs = milliseconds(plain, log)
        print("setlist in plain C: %.2f ms, ratio %.2f" % (theirs, ours / theirs))


if __name__ == "__main__":
    main()
