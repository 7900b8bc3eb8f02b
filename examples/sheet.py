#!/usr/bin/env python3
"""Makes a turn sheet (document 01, "Turn sheets") of a list of lines.

usage: sheet.py [LIST [SHEET]]      standard input and standard output where left out, or where the name is -

    n 2                # seats
    L 3                # the round limit
    propose 0 7        # SEAT VALUE
    work 0 yes         # SEAT HINT, yes or no
    look 0             # SEAT
    crash 1            # SEAT
    close              # of no seat: the session takes no further proposal (document 02, wish 10)
    entry 9 0 4        # KIND SEAT VALUE, any bytes at all
    run                # the entries below form a new run, with its own pair

Blank lines, and what follows a #, are ignored. The lines n and L are both needed, once each, anywhere. Entries above the
first `run` form a run of their own; two `run` lines in a row give a run of length 0. Only what is not understood or does not
fit its bytes is an error here (exit code 1, nothing is written); refusing a turn is left to the board.
"""

import os
import re
import struct
import sys

# What each word of a line may be: the largest number that fits its bytes.
MOST = {"n": 255, "L": 65_535, "c": 255, "ward": 255, "kind": 255, "seat": 255, "worker": 255, "value": 4_294_967_295}
MOST_RUNS = 255
MOST_PLACE = 65_535
KINDS = {"propose": 0, "work": 1, "look": 2, "crash": 3, "close": 4}
HINTS = {"no": 0, "yes": 1}
# The words that follow the first one of an entry's line.
SHAPES = {
    "propose": ("seat", "value"),
    "work": ("seat", "hint"),
    "look": ("seat",),
    "crash": ("seat",),
    "close": (),
    "entry": ("kind", "seat", "value"),
}
# The first words of the other lines.
SIZES = ("n", "L")
RUN = "run"


class Wrong(Exception):
    """Something that is told in words, not as a traceback."""


def number(what, word):
    """The number that a word of digits stands for, if it fits what it is for."""
    allowed = f"a whole number from 0 to {MOST[what]}"
    if not re.fullmatch("[0-9]+", word):
        raise Wrong(f"{what} {word} is not {allowed}")
    digits = word.lstrip("0") or "0"
    if len(digits) > 10 or int(digits) > MOST[what]:
        raise Wrong(f"{what} {word} is out of range: it must be {allowed}")
    return int(digits)


def part(what, word):
    """The number of one word of an entry's line."""
    if what != "hint":
        return number(what, word)
    if word not in HINTS:
        raise Wrong(f"hint {word} is neither yes nor no")
    return HINTS[word]


def entry(words, kinds=KINDS, shapes=SHAPES, others=(*SIZES, RUN)):
    """The six bytes of one entry, from the words of its line; the other lines begin with `others`."""
    name, *rest = words
    shape = shapes.get(name)
    if shape is None:
        raise Wrong(f"{name} is none of {', '.join([*others, *shapes])}")
    if len(rest) != len(shape):
        raise Wrong(f"{name} takes {' '.join(shape).upper() or 'nothing'}, not {' '.join(rest) or 'nothing'}")
    parts = {what: part(what, word) for what, word in zip(shape, rest)}
    kind, whose = parts.get("kind", kinds.get(name)), parts.get("seat", parts.get("worker", 0))
    return struct.pack("<BBI", kind, whose, parts.get("value", parts.get("hint", 0)))


class Lines:
    """What the lines of a text say so far: its sizes. What to do with the other lines, `add` says."""

    def __init__(self, sizes):
        self.sizes = dict.fromkeys(sizes)

    def take(self, words):
        """Takes in the words of one line."""
        name, *rest = words
        if name not in self.sizes:
            self.add(words)
            return
        if self.sizes[name] is not None:
            raise Wrong(f"{name} is given twice")
        if len(rest) != 1:
            raise Wrong(f"{name} takes one number, not {' '.join(rest) or 'nothing'}")
        self.sizes[name] = number(name, rest[0])

    def read(self, text):
        """Takes in a whole text: the sizes."""
        for place, line in enumerate(re.split("\r\n|\n|\r", text), 1):
            words = line.split("#")[0].split()
            try:
                if words:
                    self.take(words)
            except Wrong as wrong:
                raise Wrong(f"line {place}: {wrong}") from None
        for name, size in self.sizes.items():
            if size is None:
                raise Wrong(f"there is no line {name}; {' and '.join(self.sizes)} must be given")
        return self.sizes.values()


class List(Lines):
    """A list's lines: the sizes and the bytes of each run."""

    def __init__(self):
        super().__init__(SIZES)
        self.runs = []

    def add(self, words):
        """Takes in an entry, or a line that begins a run."""
        if words == [RUN]:
            self.runs.append(b"")
        else:
            added = entry(words)
            self.runs = self.runs or [b""]
            self.runs[-1] += added


def sheet(n, limit, runs):
    """The bytes of the whole sheet, its runs one right after another."""
    if len(runs) > MOST_RUNS:
        raise Wrong(f"{len(runs)} runs are too many: their count must be a whole number from 0 to {MOST_RUNS}")
    pairs, offset = b"", 4 + 4 * len(runs)
    for place, run in enumerate(runs):
        if max(offset, len(run)) > MOST_PLACE:
            raise Wrong(f"run {place} (from 0) starts at byte {offset} with {len(run)} bytes: neither may be above {MOST_PLACE}")
        pairs += struct.pack("<HH", offset, len(run))
        offset += len(run)
    return struct.pack("<BBH", n, len(runs), limit) + pairs + b"".join(runs)


def listed(text):
    """What a list's text gives: n, L and the bytes of each run."""
    lines = List()
    return *lines.read(text), lines.runs


def read(name):
    """The text of a file, or of standard input."""
    with open(0 if name == "-" else name, "rb", closefd=name != "-") as source:
        return source.read().decode("utf-8-sig")


def write(name, data):
    """Writes all bytes to a file, or to standard output."""
    try:
        target = 1 if name == "-" else os.open(name, os.O_WRONLY | os.O_CREAT | os.O_TRUNC, 0o666)
        while data:
            data = data[os.write(target, data):]
    except OSError as error:
        raise Wrong(f"{shown(name, 'standard output')}: {error.strerror}") from None


def shown(name, standard="standard input"):
    """A file's name as it is told."""
    return standard if name == "-" else name


class Program:
    """A program that makes something of a text: its name and help, its words for the two, and what makes the one of the other."""

    def __init__(self, name, usage, text, made, make):
        self.name, self.usage, self.text, self.made, self.make = name, usage, text, made, make

    def convert(self, source, target):
        """Makes of one text what is to be made; what goes wrong is raised in words."""
        try:
            if "-" not in (source, target) and os.path.exists(target) and os.path.samefile(source, target):
                raise Wrong(f"it cannot be the {self.text} and the {self.made} at once")
            data = self.make(read(source))
        except UnicodeDecodeError:
            raise Wrong(f"{shown(source)}: this is no text in UTF-8, so no list of lines") from None
        except OSError as error:
            raise Wrong(f"{shown(source)}: {error.strerror}") from None
        except Wrong as wrong:
            raise Wrong(f"{shown(source)}: {wrong}") from None
        write(target, data)

    def told(self, act):
        """Does it, and tells what goes wrong in a line: the exit code."""
        try:
            act()
        except Wrong as wrong:
            print(f"{self.name}: {wrong}", file=sys.stderr)
            return 1
        except KeyboardInterrupt:
            return 130
        return 0

    def main(self, arguments):
        """The exit code: 0, 1 for a text, file or disk that will not do, 2 for wrong arguments."""
        if len(arguments) == 1 and arguments[0] in ("--help", "-h"):
            return self.told(lambda: write("-", f"{self.usage.strip()}\n".encode()))
        if len(arguments) > 2 or any(word.startswith("-") and word != "-" for word in arguments):
            print(f"{self.name}: {' '.join(arguments)}: a {self.text} and its {self.made} are named at most; try --help", file=sys.stderr)
            return 2
        source, target = (arguments + ["-", "-"])[:2]
        return self.told(lambda: self.convert(source, target))


if __name__ == "__main__":
    sys.exit(Program("sheet.py", __doc__, "list", "sheet", lambda text: sheet(*listed(text))).main(sys.argv[1:]))
