#!/usr/bin/env python3
"""Makes the drawing of the layers and the table of crates in docs/CRATES.md, and holds the page to the code.

    layers.py check     fails if the drawing or the table differs from what is made, if a crate depends on one of a higher layer,
                        or if a step of "one entry's way" is no call in the code
    layers.py write     writes the drawing and the table anew

A crate's layer is its name up to the first `_`. What lives in a crate is the first sentence of the comment at the head of its lib.rt
or main.rt. The drawing stands between `<!-- layers -->` and `<!-- end -->`, the table between `<!-- crates -->` and `<!-- end -->`.
In the block behind `<!-- way -->` each line is `crate::function` under the function that calls it, two spaces deeper; whether it is
called is read off the caller's source.
"""
import re
import sys
from pathlib import Path

ROOT = Path(__file__).resolve().parent.parent
PAGE = ROOT / "docs" / "CRATES.md"
KIT = {"io", "libc", "os", "bytes", "check"}
# From the lowest up.
LAYERS = ["base", "model", "part", "session", "poll", "sheet", "system", "use", "janus", "test", "theory"]
WAY = re.compile(r"<!-- way -->\n+```\n(.*?)```", re.S)


def crates():
    """Each crate of crates.txt with what it depends on."""
    found = {}
    for line in (ROOT / "crates.txt").read_text(encoding="utf-8").splitlines():
        if ":" in line and not line.startswith("#"):
            name, rest = line.split(":")
            found[name.split()[0]] = [word for word in rest.split() if word not in KIT]
    return found


def layer(name):
    return LAYERS.index(name.split("_")[0])


def layers(found):
    """The layers, highest first, each with the number of its crates and the lower layers that it stands on."""
    lines = []
    for at, title in reversed(list(enumerate(LAYERS))):
        names = [name for name in found if layer(name) == at]
        if names:
            below = sorted({LAYERS[layer(d)] for name in names for d in found[name]} - {title}, key=LAYERS.index)
            on = "stands on " + ", ".join(below) if below else "stands on nothing"
            lines.append(f"{title:<8} {len(names):>2} {'crates' if len(names) > 1 else 'crate ':<6}   {on}")
    return "\n```\n" + "\n".join(lines) + "\n```\n\n"


def first_sentence(crate):
    """The first sentence of the comment at the head of a crate's source."""
    folder = ROOT / "crates" / crate / "src"
    file = next((folder / name for name in ("lib.rt", "main.rt") if (folder / name).exists()), None)
    if file is None:
        sys.exit(f"layers: {crate} has neither src/lib.rt nor src/main.rt")
    head = re.match(r"(?://[^\n]*\n)+", file.read_text(encoding="utf-8"))
    if not head:
        sys.exit(f"layers: {file.relative_to(ROOT)} does not begin with a comment that says what lives there")
    text = " ".join(line[2:].strip() for line in head[0].splitlines())
    return re.split(r"(?<=[.\"])\s+(?=[A-Z0-9(`\"])", text)[0].replace("|", "\\|")


def table(found):
    """A row for each crate, in the order of the layers from the highest down, and of their names."""
    rows = ["| Layer | Crate | What lives there |", "|---|---|---|"]
    for at, title in reversed(list(enumerate(LAYERS))):
        for place, name in enumerate(sorted(name for name in found if layer(name) == at)):
            rows.append(f"| {'' if place else f'**{title}**'} | `{name}` | {first_sentence(name)} |")
    return "\n" + "\n".join(rows) + "\n\n"


def put(page, name, text):
    """The page with the text in the place of that name."""
    made, count = re.subn(rf"(<!-- {name} -->\n).*?(<!-- end -->)", lambda m: m[1] + text + m[2], page, flags=re.S)
    if count != 1:
        sys.exit(f"layers: {PAGE.name} has {count} places called {name}, not one")
    return made


def source(crate):
    return "".join(f.read_text(encoding="utf-8") for f in sorted((ROOT / "crates" / crate / "src").glob("*.rt")))


def body(crate, function):
    """The text of a function, from its name to the end of its braces."""
    found = re.search(rf"fn {function}\b.*?\n}}", source(crate), re.S)
    return found[0] if found else None


def calls(text, crate, function):
    """Whether the text calls that function: by its name alone, or behind its crate or a module of it, and not another crate's."""
    named = re.findall(rf"(?:\b(\w+)::)?\b{function}\(", text)
    return any(name == crate or name not in crates() for name in named)


def way(block, faults):
    """Each line of the block is a function that the one above it calls."""
    above = []
    for line in block.splitlines():
        depth, word = (len(line) - len(line.lstrip())) // 2, line.split("  #")[0].split()[0]
        crate, function = word.split("::")[0], word.split("::")[-1]
        text = body(crate, function)
        if text is None:
            faults.append(f"{word} is no function")
        elif depth and not calls(above[depth - 1] or "", crate, function):
            faults.append(f"{word} is not called where the page says")
        above[depth:] = [text]


def main():
    if sys.argv[1:] not in (["check"], ["write"]):
        sys.exit(print(__doc__) if sys.argv[1:] == ["--help"] else __doc__)
    found, faults = crates(), []
    for name, needs in found.items():
        faults += [f"{name} depends on {d}, of a higher layer" for d in needs if layer(name) < layer(d)]
    page = PAGE.read_text(encoding="utf-8")
    made = put(put(page, "layers", layers(found)), "crates", table(found))
    if sys.argv[1] == "write":
        PAGE.write_text(made, encoding="utf-8")
    elif made != page:
        faults.append("docs/CRATES.md differs from crates.txt and the crates' first lines: tests/layers.py write")
    way(WAY.search(page)[1], faults)
    if faults:
        sys.exit("layers: " + "\nlayers: ".join(faults))
    print(f"layers: {len(found)} crates stand as docs/CRATES.md has them; one entry's way is the code's")


main()
