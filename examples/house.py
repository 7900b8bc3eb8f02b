#!/usr/bin/env python3
"""Makes the bytes that the program test_house reads of a house in words (document 02, wish 11).

usage: house.py [HOUSE [BYTES]]      standard input and standard output where left out, or where the name is -

    c 2                # wards
    wards 1 2          # the ward of each worker, that of worker 0 first
    propose 0 3        # WORKER VALUE
    turn 0 yes         # WORKER HINT, yes or no
    look 0             # WORKER: a house look
    crash 1            # WORKER
    set 146 0 7        # KIND WORKER VALUE: a field is set, as only a test may; reference/src/houses.rs has the kinds

Blank lines, and what follows a #, are ignored. The lines c and wards are both needed, once each, anywhere. Only what is not
understood or does not fit its bytes is an error here (exit code 1, nothing is written); refusing an opening or an operation is left
to the house.

The bytes: one for c; one for the number of workers; one for the ward of each; two for how many operations there are, the low one
first; and for each operation six: its kind (0 propose, 1 turn, 2 crash, 3 look), its worker, and four for its value, the low one
first. The value of a turn is 1 with hint yes, else 0.
"""

import sys

sys.dont_write_bytecode = True
import poll
import sheet

KINDS = {"propose": 0, "turn": 1, "crash": 2, "look": 3}
SHAPES = {
    "propose": ("worker", "value"),
    "turn": ("worker", "hint"),
    "look": ("worker",),
    "crash": ("worker",),
    "set": ("kind", "worker", "value"),
}
SIZES, WARDS = ("c",), "wards"


def operation(words):
    """The six bytes of one operation, from the words of its line."""
    return sheet.entry(words, KINDS, SHAPES, (*SIZES, WARDS))


def listed(text):
    """What a house's text gives: c, the wards and the words of each operation."""
    lines = poll.Lines(SIZES, WARDS, lambda words: [sheet.number("ward", word) for word in words], operation)
    [c] = lines.read(text)
    if lines.given is None:
        raise sheet.Wrong(f"there is no line {WARDS}; {' and '.join([*SIZES, WARDS])} must be given")
    return c, lines.given, lines.operations


def house(c, wards, operations):
    """The bytes of the whole house."""
    if len(wards) > sheet.MOST["n"]:
        raise sheet.Wrong(f"{len(wards)} workers are too many: their number must be a whole number from 0 to {sheet.MOST['n']}")
    return poll.counted(bytes([c, len(wards), *wards]), [operation(words) for words in operations])


if __name__ == "__main__":
    sys.exit(sheet.Program("house.py", __doc__, "house", "bytes", lambda text: house(*listed(text))).main(sys.argv[1:]))
