#!/usr/bin/env python3
# Writes crates/bursts_cases: the calls of the program from the list of cases, its expected output from a model of its own (02, tickets 9 and 10).
# A call is a letter: a digit is an offer of that criterion, ! an offer of the greatest criterion, c choose, f finish.
import os
here = os.path.dirname(os.path.abspath(__file__))
crate = os.path.join(here, "..", "..", "crates", "bursts_cases")

# comment, slots, how many of the first are sending, calls
cases = [
    ("the lowest free slot; an equal criterion is turned away, a greater one replaces the lowest of the smallest", 4, 0, "3121122"),
    ("the greatest is chosen, one at a time, and is never replaced; a finished slot is used again", 4, 0, "3121cc923cff0cfc"),
    ("a tie for the greatest goes to the lowest slot; until nothing is held", 3, 0, "575cfcfcfc"),
    ("27 comes before 26", 2, 1, "cfc"),
    ("criterion 0 is held and chosen; the greatest criterion is not replaced by its equal", 2, 0, "00c!!f!!cf"),
    ("no slots", 0, 0, "0cf"),
    ("one slot, sending", 1, 1, "9cf9"),
    ("32 slots", 32, 0, "01234567890123456789012345678901!0!00cf5"),
    ("33 slots are refused by 3", 33, 0, "5cf"),
    ("two sending are refused by 3", 4, 2, "5cf"),
]

GREATEST = 2**32 - 1


def offer(slots, x):
    if None in slots:
        return slots.index(None)
    held = [(c, i) for i, c in enumerate(slots) if c != "S"]
    worse = [(c, i) for c, i in held if c < x]
    return min(worse)[1] if worse else -25


def looked_at(slots):
    return slots.index(None) + 1 if None in slots else len(slots)


def call(slots, op):
    """The answer, and the slots afterwards: None is free, "S" sending, a number held."""
    if len(slots) > 32 or slots.count("S") > 1:
        return -3, slots
    if op == "c":
        held = [(-c, i) for i, c in enumerate(slots) if c not in (None, "S")]
        answer, state = (-27 if "S" in slots else min(held)[1] if held else -26), "S"
    elif op == "f":
        answer, state = (slots.index("S") if "S" in slots else -28), None
    else:
        state = GREATEST if op == "!" else int(op)
        answer = offer(slots, state)
    return answer, (slots if answer < 0 else slots[:answer] + [state] + slots[answer + 1:])


def shown(c):
    return "." if c is None else c if c == "S" else str(c) if c < 10 else "*"


text, calls = "", ""
for comment, count, sending, ops in cases:
    slots = ["S"] * sending + [None] * (count - sending)
    for op in ops:
        answer, after = call(slots, op)
        looked = "" if op in "cf" or answer == -3 else "n%02d" % looked_at(slots)
        slots = after
        text += "%s %s%02d%s %s\n" % (op, "r" if answer < 0 else "s", abs(answer), looked, "".join(map(shown, slots[:32])))
    text += "\n"
    arguments = "&mut writer", str(count), str(sending), 'b"%s"' % ops
    line = ", ".join(arguments)
    if len(line) > 60:  # as rt fmt lays it out
        line = "\n" + "".join("        %s,\n" % argument for argument in arguments) + "    "
    calls += "    // %s\n    run(%s)?;\n" % (comment, line)
main = os.path.join(crate, "src", "main.rt")
program = open(main, encoding="utf8").read()
head = program[:program.index("fn main(")]
begin = "fn main(rt: HostRuntime) -> io::Result<()> {\n    let mut writer = BufWriter::new(rt.alloc(), io::writer(&rt))?;\n"
open(main, "w", encoding="utf8").write(head + begin + calls + "    writer.flush()\n}\n")
open(os.path.join(crate, "stdout"), "w", encoding="utf8").write(text)
