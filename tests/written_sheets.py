#!/usr/bin/env python3
"""Holds examples/sheet.py to the library's writer: of each list it makes the sheet that janus_write makes of the same n, L, entries and
run lengths.

usage: written_sheets.py PROGRAM      PROGRAM calls janus_write: `PROGRAM sheet N L [RUN..]`, with the entries on standard input

The sample lists, random ones from one seed, the largest, and lists that the writer refuses. Ends with 1 at the first difference.
"""
import random
import subprocess
import sys
from pathlib import Path

ROOT = Path(__file__).resolve().parent.parent
sys.dont_write_bytecode = True
sys.path.append(str(ROOT / "examples"))
import sheet
from paper_rules import MOST_ROUNDS, MOST_SEATS, window

if sys.argv[1:] in (["--help"], ["-h"]):
    print(__doc__.strip())
    sys.exit()

PROGRAM = sys.argv[1]
LISTS, SEED = 170, 1
MOST_RUNS, MOST_ENTRIES = 16, 10_921
# Lists that examples/sheet.py takes and the writer does not, each with its number.
REFUSED = [
    (1, "n 65\nL 256"),
    (2, "n 64\nL 15"),
    (13, "n 1\nL 2\nlook 0\nentry 5 0 0"),
    (13, "n 2\nL 3\nclose\nentry 4 1 0"),
    (13, "n 2\nL 3\nclose\nentry 4 64 0"),
    (13, "n 2\nL 3\nclose\nentry 4 0 1"),
    (17, "n 1\nL 2\n" + "run\n" * (MOST_RUNS + 1)),
    (17, "n 1\nL 2\n" + "look 0\n" * (MOST_ENTRIES + 1)),
]


def written(n, limit, runs):
    """The number that janus_write returns, and the sheet."""
    words = [PROGRAM, "sheet", n, limit, *(len(run) // 6 for run in runs)]
    done = subprocess.run([str(word) for word in words], input=b"".join(runs), capture_output=True, check=False)
    return done.returncode, done.stdout


def same(what, text):
    """The sheet of a list must be the same from both."""
    n, limit, runs = sheet.listed(text)
    made = sheet.sheet(n, limit, runs)
    if written(n, limit, runs) != (0, made):
        sys.exit(f"written sheets: {what}: janus_write makes another sheet than examples/sheet.py, or none")


def entry(rng):
    """The line of an entry that is well formed."""
    seat = rng.randrange(256)
    value, hint = rng.choice([0, 1, rng.randrange(2**32), 2**32 - 1]), rng.choice(["no", "yes"])
    lines = [f"propose {seat} {value}", f"work {seat} {hint}", f"look {seat}", f"crash {seat}", "close"]
    return rng.choice([*lines, f"entry 0 {seat} {value}", f"entry 1 {seat} 1", "entry 4 0 0"])


def text_of(rng, runs):
    """A random list of so many runs. The first has a line of its own where it is empty, and now and then where it is not."""
    n = rng.randint(1, MOST_SEATS)
    lines = [f"n {n}", f"L {rng.choice([window(n), rng.randint(window(n), MOST_ROUNDS), MOST_ROUNDS])}"]
    for place in range(runs):
        entries = [entry(rng) for _ in range(rng.choice([0, 1, rng.randrange(20)]))]
        if place > 0 or not entries or rng.random() < 0.5:
            lines.append("run")
        lines += entries
    return "\n".join(lines)


def refused(number, text):
    """The writer must refuse the list with that number, and write nothing."""
    code, made = written(*sheet.listed(text))
    if (code, made) != (number, b""):
        sys.exit(f"written sheets: janus_write returns {code} and writes {len(made)} bytes for a list that it should refuse with {number}")


def main():
    """Every kind of list."""
    samples = sorted(ROOT.glob("examples/*.txt"))
    for path in samples:
        same(path.name, path.read_text(encoding="utf-8"))
    rng = random.Random(SEED)
    for index in range(LISTS):
        same(f"random list {index} of seed {SEED}", text_of(rng, index % (MOST_RUNS + 1)))
    same("the largest list", "n 1\nL 2\n" + "look 0\n" * MOST_ENTRIES)
    for number, text in REFUSED:
        refused(number, text)
    print(f"written sheets: {len(samples)} sample lists, {LISTS} random ones and the largest as janus_write has them; {len(REFUSED)} are refused")


main()
