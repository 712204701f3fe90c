#!/usr/bin/env python3
# Writes crates/interval_cases: the calls of the program from the list of cases, its expected output from a model of its own (02, ticket 11).
import os
from itertools import takewhile, zip_longest
here = os.path.dirname(os.path.abspath(__file__))
crate = os.path.join(here, "..", "..", "crates", "interval_cases")
TOP = 2**32 - 1

# comment, index, bonus, limit
cases = [
    ("no neighbour joins", [5, 9, 3], 0, 3),
    ("both join, with the bonus exactly", [5, 9, 5], 4, 3),
    ("both fail by one", [5, 9, 5], 3, 3),
    ("the oldest on a tie", [9, 1, 9], 0, 3),
    ("an equal neighbour joins", [3, 9, 9, 2], 0, 4),
    ("the older is tried first", [7, 9, 7], 2, 2),
    ("in turn, up to each limit", [8, 8, 9, 8, 8], 1, 1),
    ("in turn", [8, 8, 9, 8, 8], 1, 2),
    ("in turn", [8, 8, 9, 8, 8], 1, 3),
    ("in turn", [8, 8, 9, 8, 8], 1, 4),
    ("in turn", [8, 8, 9, 8, 8], 1, TOP),
    ("a side that fails is closed, the other goes on", [8, 1, 9, 8, 8, 8], 1, 4),
    ("a side at the end is closed, the other goes on", [8, 8, 8, 9], 1, 3),
    ("the newer side fails", [8, 8, 8, 9, 1, 9], 1, 9),
    ("sums past 32 bits", [1, TOP, TOP - 1], TOP, 3),
    ("a criterion of 0 joins with the bonus", [0, 0, 2, 0], 2, 3),
    ("one block", [1], 0, 1),
    ("26: empty, and all 0; 29 comes first", [], 0, 1),
    ("26", [0, 0], 5, 1),
    ("29", [], 0, 0),
    ("29", [1], 0, 0),
]
# the place of another criterion among 16,000 of 7, the criterion, bonus, limit
long_cases = [(8000, 9, 2, 101), (8000, 9, 1, 101), (8000, 9, 2, 16000), (0, 9, 2, 4), (15999, 9, 2, 4), (0, 7, 0, 100), (15999, TOP, TOP, TOP)]


def choose(index, bonus, limit):
    if len(index) > 16000:
        return "r00002"
    if limit == 0:
        return "r00029"
    if not any(index):
        return "r00026"
    start = index.index(max(index))
    near = lambda i: index[i] + bonus >= index[start]
    older = list(takewhile(near, range(start - 1, -1, -1)))
    newer = list(takewhile(near, range(start + 1, len(index))))
    turns = [i for pair in zip_longest(older, newer) for i in pair if i is not None]
    chosen = [start] + turns[:limit - 1]
    return "%05d %05d" % (min(chosen), max(chosen))


text, calls = "", ""
for comment, index, bonus, limit in cases:
    calls += "    // %s\n    show(&mut writer, &[%s], %d, %d)?;\n" % (comment, ", ".join(map(str, index)), bonus, limit)
    text += choose(index, bonus, limit) + "\n"
for place, top, bonus, limit in long_cases:
    index = [7] * 16000
    index[place] = top
    calls += "    show_long(&mut writer, %d, %d, %d, %d)?;\n" % (place, top, bonus, limit)
    text += choose(index, bonus, limit) + "\n"
for limit in (1, 0):
    calls += "    show_too_long(&mut writer, %d)?;\n" % limit
    text += choose([7] * 16001, 0, limit) + "\n"
main = os.path.join(crate, "src", "main.rt")
program = open(main, encoding="utf8").read()
mark = "// ---- cases\n"
head = program[:program.index(mark)] + mark
begin = "fn main(rt: HostRuntime) -> io::Result<()> {\n    let mut writer = BufWriter::new(rt.alloc(), io::writer(&rt))?;\n"
open(main, "w", encoding="utf8").write(head + "\n" + begin + calls + "    writer.flush()\n}\n")
open(os.path.join(crate, "stdout"), "w", encoding="utf8").write(text)
