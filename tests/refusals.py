#!/usr/bin/env python3
"""Holds the names of the refusals together: definitions, code, separate program, header and docs/REFUSALS.md.

    refusals.py     fails if one of the five has another name or number, or if the code returns a bare number

The definitions write a name bad_sheet, the page BAD_SHEET, the code and the separate program BadSheet, the header JANUS_BAD_SHEET, with
SEAT for PROCESS. The header has those that its functions return. 100, which refuses nothing, is no row of the page and of the program;
the code has it at the end of a run.
"""
import re
import sys
from pathlib import Path

ROOT = Path(__file__).resolve().parent.parent
PLACES = {
    "definitions": [("crates/model/specs/Numbers.antt", r"^(\w+) = (\d+)$")],
    "code": [
        ("crates/model/src/refusal.rt", r"^    (\w+) = (\d+),$"),
        ("crates/model/src/lib.rt", r"^            Ended::(BudgetEnded) => (\d+),$"),
    ],
    "separate program": [("reference/src/refusal.rs", r"^    (\w+) = (\d+),$")],
    "header": [("include/janus.h", r"^    X\(JANUS_(\w+), (\d+), ")],
    "page": [("docs/REFUSALS.md", r"^\| (?P<number>\d+) \| `(?P<name>\w+)` \|")],
}
# Numbers that the code returns as they stand, and not by a name: from a function, from an arm, in place of a refused answer. (0 is none.)
BARE = re.compile(r"return [1-9]\d*;|=> [1-9]\d*,|\b(?:unwrap_or|map_or)\([1-9]\d*\b")


def words(name):
    """A name in capitals, the words apart: bad_sheet and BadSheet as BAD_SHEET."""
    return name if name.isupper() else re.sub(r"(?<=[a-z])(?=[A-Z])", "_", name).upper()


def read(files):
    """Name by number."""
    found = {}
    for path, pattern in files:
        for match in re.finditer(pattern, (ROOT / path).read_text(encoding="utf-8"), re.M):
            groups = match.groupdict() or dict(zip(("name", "number"), match.groups()))
            found[int(groups["number"])] = words(groups["name"])
    return found


def unnamed(source):
    """What a source says but for the lines that name a number."""
    text = source.read_text(encoding="utf-8")
    for path, pattern in PLACES["code"]:
        if source == ROOT / path:
            text = re.sub(pattern, "", text, flags=re.M)
    return text


def main():
    if sys.argv[1:] in (["--help"], ["-h"]):
        print(__doc__)
        return
    have = {place: read(files) for place, files in PLACES.items()}
    want, faults = have["definitions"], []
    for place, names in have.items():
        for number, name in names.items():
            shown = name.replace("SEAT", "PROCESS") if place == "header" else name
            if number and want.get(number) != shown:
                faults.append(f"{place}: {number} is {name}, and {want.get(number)} in the definitions")
        if place != "header":
            needed = [number for number in want if number < 100 or place == "code"]
            faults += [f"{place}: {number}, {want[number]}, is missing" for number in needed if number not in names]
    for source in sorted((ROOT / "crates").glob("*/src/*.rt")):
        if not source.parent.parent.name.startswith("test_"):
            for match in BARE.finditer(unnamed(source)):
                faults.append(f"{source.relative_to(ROOT)}: '{match[0]}' has a number and no name")
    if faults:
        sys.exit("refusals: " + "\nrefusals: ".join(faults))
    print(f"refusals: {len(want)} numbers have one name each in {len(PLACES)} places")


main()
