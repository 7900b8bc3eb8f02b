#!/usr/bin/env python3
"""Measures how many turns the shorter windows of 02, wish 8, save one seat that works alone on an empty board, by running sheets.

usage:
    turns.py                    prints the table
    turns.py check DOCUMENT     fails unless the table in that document, between `<!-- turns-alone -->` and `<!-- end -->`, is this one
    turns.py write DOCUMENT     writes it there

A sheet has the seat's proposal, some work turns with hint yes and a look, with L = W. The table has the least number of work turns for which
the look decides: with one turn less, which is run too, it does not. Now: W is the least L that is opened, and the sheets are run by the board
report's program; the separately written one must print the same. Before: W is 01's, and the sheets are run by the latter's trace at that
window. Reads and writes are those of the tally after the look.
"""
import re
import subprocess
import sys
from pathlib import Path

sys.dont_write_bytecode = True
from paper_cases import MARKED, table
from paper_lists import PROGRAM, ROOT, sheet
from paper_rules import window_before

REPORT = ROOT / "target" / "bin" / "use_report"
NAME = "turns-alone"
SEATS = [1, 4, 16, 64]
MOST_ROUNDS, MOST_TURNS = 256, 1000
HEAD = ["n", "W before", "now", "Work turns to the commit, before", "now", "Turns from the proposal to the decision, before", "now", "Saved"]
HEAD += ["Reads, before", "now", "Writes, before", "now"]


def printed(words, data):
    """What a program prints of the data."""
    return subprocess.run(words, input=data, capture_output=True, check=True).stdout.decode()


def report(data):
    """The lines of a sheet's report, which must be the same from both programs."""
    ours, theirs = printed([REPORT], data), printed([PROGRAM, "report"], data)
    if ours != theirs:
        sys.exit(f"turns: the report has {ours!r}, and the separate program {theirs!r}")
    return ours.splitlines()


def alone(n, limit, turns):
    """The sheet of a seat that takes so many work turns."""
    entries = ["propose 0 7", *["work 0 yes"] * turns, "look 0"]
    return sheet.sheet(n, limit, [b"".join(sheet.entry(words.split()) for words in entries)])


def window_now(n):
    """The least L that is not refused with 2."""
    return next(limit for limit in range(MOST_ROUNDS + 1) if report(sheet.sheet(n, limit, [])) != ["sheet refused 2"])


def tally_now(n, limit, turns):
    """The tally that a sheet leaves in service; none where it does not end with a decision."""
    outcome, tally, _, seat, *_ = report(alone(n, limit, turns))
    if outcome == f"outcome finished {turns + 2}" and seat == "seat 0 decided 7":
        return tally.removeprefix("tally ")
    return None


def tally_before(n, limit, turns):
    """The tally that a sheet leaves at a window that is its L; none where it does not end with a decision."""
    lines = printed([PROGRAM, "trace", str(limit)], alone(n, limit, turns)).splitlines()
    last = re.fullmatch(rf" *{turns + 1} \| look 0 .*\| decided round {limit} value 7 *\| (.*)", lines[-1])
    return last and last[1]


def measured(tally, n, window):
    """The least number of work turns to a decision; all turns, the proposal and the look among them; reads and writes."""
    for turns in range(MOST_TURNS):
        found = tally(n, window, turns)
        if found:
            reads, writes, _ = map(int, found.split())
            return turns, turns + 2, reads, writes
    sys.exit(f"turns: n {n}, window {window}: no decision after up to {MOST_TURNS} work turns")


def row(n):
    """The table's line for n seats."""
    windows = window_before(n), window_now(n)
    before, now = measured(tally_before, n, windows[0]), measured(tally_now, n, windows[1])
    work, turns, reads, writes = zip(before, now)
    saved = turns[0] - turns[1]
    return [n, *windows, *work, *turns, f"{saved}, {saved / turns[0]:.0%}", *reads, *writes]


def hold(what, document, made):
    """Holds the document to the table, or writes it there."""
    page = document.read_text(encoding="utf-8")
    if [name for _, name, _, _ in MARKED.findall(page)].count(NAME) != 1:
        sys.exit(f"turns: {document} has not one place for the table, between `<!-- {NAME} -->` and `<!-- end -->`")
    new = MARKED.sub(lambda m: m[1] + "\n" + made + "\n" + m[4] if m[2] == NAME else m[0], page)
    if what == "write":
        document.write_text(new, encoding="utf-8")
    elif new != page:
        sys.exit(f"turns: the table of {document} is not what was measured; `tests/turns.py write {document}` writes it anew")
    print(f"turns: {document} has the turns as measured, for n = {', '.join(map(str, SEATS))}")


def main():
    words = sys.argv[1:]
    if words in (["--help"], ["-h"]):
        print(__doc__.strip())
        return
    if words and (len(words) != 2 or words[0] not in ("check", "write")):
        sys.exit("usage: turns.py [check DOCUMENT | write DOCUMENT]")
    made = table(HEAD, [row(n) for n in SEATS])
    if words:
        hold(words[0], Path(words[1]), made)
    else:
        print(made, end="")


if __name__ == "__main__":
    main()
