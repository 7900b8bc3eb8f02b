#!/usr/bin/env python3
"""Prints the list of one window in the proved table of short lists, in the lines of examples/sheet.py, to be compared with the separate program's.

usage: short_lists.py TABLE WINDOW
"""
import re
import sys
from pathlib import Path

if sys.argv[1:] in (["--help"], ["-h"]):
    print(__doc__.strip())
    sys.exit()

OPERATION = re.compile(r"Propose (\d+) (\d+)|turns \(([^)]*)\[\]\)|replicate (\d+) \(works (\d+)\)|works (\d+)|Learn (\d+)")


def lines_of(operations):
    for propose, value, turns, times, many, work, look in OPERATION.findall(operations):
        if propose:
            yield f"propose {propose} {value}"
        elif look:
            yield f"look {look}"
        else:
            yield from [f"work {p} yes" for p in re.findall(r"\d+", turns) or [many] * int(times or 0) or [work]]


def main():
    text, window = Path(sys.argv[1]).read_text(encoding="utf-8"), sys.argv[2]
    rows = re.findall(r"n = (\d+);\s+window = (\d+);\s+limit = (\d+);\s+operations = (\w+);", text)
    (n, limit, name), = [(n, limit, name) for n, w, limit, name in rows if w == window]
    operations = re.search(rf"^{name} =\n(.*?)\n\n", text, re.S | re.M)[1]
    print("\n".join([f"n {n}", f"L {limit}", *lines_of(operations)]))


main()
