#!/usr/bin/env python3
"""frequency_tables.py DOCUMENT: the rows of the DFB specification's frequency tables 23, 24 and 25 that our extract of it holds.

DOCUMENT is source document 002 as text. A row is bin setting, number (from 1), low edge, high edge and dF, all in hertz. A table has
three, two or one columns of rows side by side; each cell of the extract is a line of its own, and every row starts with its number.
"""
import re
import sys

TABLES = (("Table 25.", 0, 36), ("Table 24.", 1, 64), ("Table 23.", 2, 112))


def rows(document):
    lines = [line.strip() for line in open(document, encoding="utf8", errors="replace")]
    starts = {name: next(i for i, line in enumerate(lines) if line.startswith(name + " Frequency Table")) for name, _, _ in TABLES}
    found = []
    for name, setting, bands in TABLES:
        at = starts[name]
        end = next(i for i in range(at + 1, len(lines)) if re.match(r"Table \d+\.|\d+\.\d* [A-Z]", lines[i]))
        cells = [c for c in lines[at + 1:end] if c]
        for i in range(len(cells) - 4):
            if all(re.fullmatch(r"\d+", c) for c in cells[i:i + 4]) and re.fullmatch(r"\d+%", cells[i + 4]):
                number, low, high, df = map(int, cells[i:i + 4])
                if not 1 <= number <= bands:
                    raise SystemExit(f"{name} has a row numbered {number}")
                found.append((setting, number, low, high, df))
    return sorted(found)


if __name__ == "__main__":
    for row in rows(sys.argv[1]):
        print(*row)
