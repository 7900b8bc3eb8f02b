#!/usr/bin/env python3
"""Holds the must-fail edits to the contracts.

    wrong_answers.py check     fails if a public function has fewer than two edits, or an edit names no contract
    wrong_answers.py list      prints the edits as a table: contract, edit, the rule that it breaks

An edit is a file crates/CRATE/must-fail/LABEL.edit. Its first line is `# FUNCTION: the rule that it breaks`. FUNCTION is a public
function of the edit's crate (of two methods with one name, TYPE::NAME) or, in a crate without any, a theorem of its specs/ or proofs/.
docs/WRONG-ANSWERS.md says how the edits are read.
"""
import re
import sys
from pathlib import Path

ROOT = Path(__file__).resolve().parent.parent
HEAD = "| Contract | Edit | The rule that it breaks |\n|---|---|---|\n"
PUBLIC = re.compile(r'^impl(?:<[^>]*>)? (?:\w+ for )?(?P<type>\w+)|^(?P<inner> *)pub (?:extern "C" )?fn (?P<name>\w+)', re.M)
THEOREM = re.compile(r"^( *)pub ([\w'-]+) :(?=(?:.*\n)*?\1\2(?![\w'-])[^;\n]* =)", re.M)


def crates():
    """The names of crates.txt, in its order."""
    lines = (ROOT / "crates.txt").read_text(encoding="utf-8").splitlines()
    return [line.split(":")[0].split()[0] for line in lines if ":" in line and not line.startswith("#")]


def public(text):
    """The public functions of a source, in its order; a method as TYPE::NAME."""
    found, type_ = [], None
    for match in PUBLIC.finditer(text):
        if match["type"]:
            type_ = match["type"]
        else:
            found.append(f"{type_}::{match['name']}" if match["inner"] else match["name"])
    return found


def contracts(crate):
    """The public functions of a crate, in the order of its code; of a crate without any, its theorems."""
    folder = ROOT / "crates" / crate
    code = [f.read_text(encoding="utf-8") for f in sorted((folder / "src").glob("*.rt"))]
    found = [name for text in code for name in public(text)]
    texts = [f.read_text(encoding="utf-8") for place in ("specs", "proofs") for f in sorted(folder.glob(f"{place}/*.antt"))]
    return found or [name for text in texts for _, name in THEOREM.findall(text)], bool(found)


def edits(crate, faults):
    """Contract, label and rule of each edit of a crate."""
    found = []
    for edit in sorted((ROOT / "crates" / crate / "must-fail").glob("*.edit")):
        first = edit.read_text(encoding="utf-8").split("\n")[0]
        words = re.fullmatch(r"# ([\w'-]+(?:::\w+)?): (\S.*)", first)
        if words:
            found.append((words[1], edit.stem, words[2]))
        else:
            faults.append(f"{crate}/{edit.stem}: the first line is not '# FUNCTION: RULE'")
    return found


def whole(name, names):
    """A method's name with its type, where only one method has it."""
    own = [known for known in names if known.endswith(f"::{name}")]
    return own[0] if len(own) == 1 else name


def table(crate, faults):
    """The table of a crate, and the number of its rows; empty if it has neither a public function nor an edit."""
    names, functions = contracts(crate)
    rows = [(whole(name, names), label, rule) for name, label, rule in edits(crate, faults)]
    faults += [f"{crate}/{label}: {name} is no contract of {crate}" for name, label, _ in rows if name not in names]
    text = ""
    for name in names:
        own = [row for row in rows if row[0] == name]
        if functions and len(own) < 2:
            faults.append(f"{crate}::{name} has {len(own)} wrong answers, and two are wanted")
        for at, (_, label, rule) in enumerate(own):
            text += f"| {'' if at else f'`{name}`'} | `{label}` | {rule} |\n"
    return f"\n## `{crate}`\n\n{HEAD}{text}" if text else "", len(rows)


def main():
    if sys.argv[1:] not in (["check"], ["list"]):
        sys.exit(print(__doc__) if sys.argv[1:] == ["--help"] else __doc__)
    faults = []
    tables = [table(crate, faults) for crate in crates()]
    if faults:
        sys.exit("wrong answers: " + "\nwrong answers: ".join(faults))
    if sys.argv[1] == "list":
        print("".join(text for text, _ in tables).lstrip("\n"), end="")
    else:
        carriers = sum(1 for text, _ in tables if text)
        print(f"wrong answers: {sum(count for _, count in tables)} edits of {carriers} crates, two or more of each public function")


main()
