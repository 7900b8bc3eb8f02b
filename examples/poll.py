#!/usr/bin/env python3
"""Makes the bytes that the program test_poll reads of a poll in words (document 02, wish 6).

usage: poll.py [POLL [BYTES]]      standard input and standard output where left out, or where the name is -

    n 2                # seats
    cart               # the bedside cart opens the poll (wish 9); the server does where this line is left out
    propose 0 3        # SEAT VALUE
    turn 0             # SEAT
    crash 1            # SEAT

Blank lines, and what follows a #, are ignored. The line n is needed, once, and the line cart may stand once, both anywhere. Only
what is not understood or does not fit its bytes is an error here (exit code 1, nothing is written); refusing an opening or an
operation is left to the poll.

The bytes: one for who opens the poll, 0 the server, 1 the cart; one for n; two for how many operations there are, the low one
first; and for each operation six: its kind (0 propose, 1 turn, 2 crash), its seat, and four for its value, the low one first, 0
where it has none.
"""

import struct
import sys

sys.dont_write_bytecode = True
import sheet

# What the program reads, in bytes.
MOST_BYTES = 65_536
SERVER, CART = "server", "cart"
CALLERS = {SERVER: 0, CART: 1}
KINDS = {"propose": 0, "turn": 1, "crash": 2}
SHAPES = {"propose": ("seat", "value"), "turn": ("seat",), "crash": ("seat",)}
SIZES = ("n",)


def operation(words):
    """The six bytes of one operation, from the words of its line."""
    return sheet.entry(words, KINDS, SHAPES, (*SIZES, CART))


class Lines(sheet.Lines):
    """The lines of a poll or a house: its sizes, one line that may stand once, and the words of each operation. `make` makes of the words
    of that line what is given; `check` knows an operation."""

    def __init__(self, sizes, name, make, check):
        super().__init__(sizes)
        self.name, self.make, self.check, self.given, self.operations = name, make, check, None, []

    def add(self, words):
        """Takes in that line, or an operation that has its six bytes."""
        name, *rest = words
        if name != self.name:
            self.check(words)
            self.operations.append(words)
        elif self.given is not None:
            raise sheet.Wrong(f"{name} is given twice")
        else:
            self.given = self.make(rest)


def cart(words):
    """Who opens the poll where the line cart stands, which has no other words."""
    if words:
        raise sheet.Wrong(f"{CART} takes nothing, not {' '.join(words)}")
    return CART


def listed(text):
    """What a poll's text gives: who opens it, n and the words of each operation."""
    lines = Lines(SIZES, CART, cart, operation)
    [n] = lines.read(text)
    return lines.given or SERVER, n, lines.operations


def counted(head, operations):
    """The bytes of a head, of the number of the operations behind it, and of these."""
    most = (MOST_BYTES - len(head) - 2) // 6
    if len(operations) > most:
        raise sheet.Wrong(f"{len(operations)} operations are too many: the program reads {most} at most")
    return head + struct.pack("<H", len(operations)) + b"".join(operations)


def poll(caller, n, operations):
    """The bytes of the whole poll."""
    return counted(bytes([CALLERS[caller], n]), [operation(words) for words in operations])


if __name__ == "__main__":
    sys.exit(sheet.Program("poll.py", __doc__, "poll", "bytes", lambda text: poll(*listed(text))).main(sys.argv[1:]))
