#!/usr/bin/env python3
"""Holds the public functions to two rules: none has a `requires`, so that none leans on its caller, and each has an `ensures`.

    contracts.py [ROOT]     fails if one breaks a rule; ROOT is this repository where it is left out
"""
import re
import sys
from pathlib import Path

PUBLIC = re.compile(r'^\s*pub (?:extern "C" )?fn (\w+)(.*?)^\s*\{$|^\s*pub (?:extern "C" )?fn (\w+)([^\n]*)\{$', re.M | re.S)


def main():
    if sys.argv[1:] in (["--help"], ["-h"]):
        print(__doc__)
        return
    root = Path(sys.argv[1]) if sys.argv[1:] else Path(__file__).resolve().parent.parent
    count, faults = 0, []
    for source in sorted(root.glob("crates/*/src/**/*.rt")):
        for found in PUBLIC.finditer(source.read_text(encoding="utf-8")):
            name, contract = (found[1], found[2]) if found[1] else (found[3], found[4])
            where = f"{source.relative_to(root)}: {name}"
            count += 1
            if re.search(r"\brequires\b", contract):
                faults.append(f"{where} has a `requires`")
            if not re.search(r"\bensures\b", contract):
                faults.append(f"{where} has no `ensures`")
    if faults or not count:
        sys.exit("contracts: " + "\ncontracts: ".join(faults or ["no public function was found"]))
    print(f"contracts: {count} public functions, none with a `requires`, each with an `ensures`")


main()
