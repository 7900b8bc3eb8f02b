#!/usr/bin/env python3
"""tests/pages.py checks README.md and docs/*.md: their size, and that what they cite exists.

- README has at most 100 lines and 1,000 words; a note of docs/CHANGES.md has at most 150 words beside its table.
- A line has at most 100 columns. Rows of tables and blocks of code may be wider, except in README.
- A link leads to a file, and to a heading of it where it names one. TESTING names every test of the gate, and README links every page.
- In backticks: a path is a file or a pattern that finds one; `crate::name` is declared in that crate; `crate/label` is an edit of it; any
  single word is a word of the code or the scripts. Words in capitals stand for something. CHANGES, PORT and DESIGN-PASS may name what is gone.
"""
import os
import re
import sys
from pathlib import Path

ROOT = Path(__file__).resolve().parent.parent
PAGES = {page.name: page.read_text(encoding="utf-8") for page in [ROOT / "README.md", *sorted((ROOT / "docs").glob("*.md"))]}
CRATES = {folder.name for folder in (ROOT / "crates").iterdir()}
CODE = ["crates", "crates.txt", "include", "examples", "tests", "reference", "bench", ".ci", "build.sh", "install.sh"]
TEXTS = {".rt", ".antt", ".h", ".c", ".rs", ".sh", ".py", ".txt", ".edit", ".template", ""}
PLACES = [ROOT / place for place in [".", "crates", "docs", "tests/theorem-edits", "reference/src", "reference/src/tests"]]
PATH = re.compile(r"[\w.*/-]+\.(?:md|sh|py|rs|c|h|rt|antt|edit|template|svg|sheet|poll|house|txt|out)|[\w.*-]+/[\w.*/-]*")
MADE = re.compile(r"/|target/|rattle/|.*\b[A-Z]{2,}\b(?!-|\.md)")  # not in the repository, or with a word that stands for something


def below(top):
    """The files below a folder, but for those that rt makes in a crate's out/."""
    for at, folders, names in os.walk(top):
        folders[:] = [name for name in folders if name != "out"]
        yield from (Path(at) / name for name in names)


def words_of_the_code():
    files = [f for name in CODE for f in ([ROOT / name] if (ROOT / name).is_file() else below(ROOT / name))]
    texts = [f.read_text(encoding="utf-8", errors="replace") for f in files if f.suffix in TEXTS]
    return {word for text in texts for form in (r"[\w'-]+", r"\w+") for word in re.findall(form, text)} | {f.stem for f in files} | CRATES


def fault_of(cited, known):
    """What is wrong with a text in backticks, or None."""
    for piece in cited.split():
        if PATH.fullmatch(piece) and not MADE.match(piece):
            edit = ROOT / "crates" / piece.replace("/", "/must-fail/", 1)
            if not Path(f"{edit}.edit").exists() and not any(any(place.glob(piece.rstrip("/"))) for place in PLACES):
                return "there is no such file"
    if found := re.fullmatch(r"(\w+)::(\w+)(?:\(.*\))?", cited):
        crate, name = found.groups()
        source = [f.read_text(encoding="utf-8") for f in (ROOT / "crates" / crate / "src").glob("*.rt")]
        declared = any(re.search(rf"\b(fn|struct|enum|type|const) {name}\b", text) for text in source)
        return None if declared or crate not in CRATES and ({crate, name} <= known or crate == "io") else "there is no such name"
    word = re.fullmatch(r"([A-Za-z][\w'-]*)(?:\([^)]*\))?", cited)
    return "no such word is in the code" if word and not word[1].isupper() and word[1] not in known else None


def columns(name, text):
    """The lines of a page that are too long."""
    code = False
    for at, line in enumerate(text.splitlines(), 1):
        code = code != line.startswith("```")
        if len(line) > 100 and (name == "README.md" or not (code or line.startswith("|"))):
            yield f"{name}:{at}: {len(line)} columns"


def main():
    faults, known = [], words_of_the_code()
    for name, text in PAGES.items():
        faults += columns(name, text)
        plain = re.sub(r"^```.*?^```", "", text, flags=re.S | re.M)
        cited = sorted(set(re.findall(r"`([^`]+)`", plain))) if name not in ("CHANGES.md", "PORT.md", "DESIGN-PASS.md") else []
        faults += [f"{name}: `{text}`: {fault}" for text in cited if (fault := fault_of(text, known))]
        for file, part in re.findall(r"\]\(([^)#]*)#?([^)]*)\)", plain):
            to = (ROOT if name == "README.md" else ROOT / "docs") / (file or name)
            titles = [re.sub(r"[^\w -]", "", t.lower()).replace(" ", "-") for t in re.findall(r"^#+ (.*)", PAGES.get(to.name, ""), re.M)]
            if not to.exists() or part and part not in titles:
                faults.append(f"{name}: the link to {file}#{part} leads nowhere")
    faults += [f"TESTING.md has no {test.name}" for test in (ROOT / "tests").glob("*.sh") if f"tests/{test.name}" not in PAGES["TESTING.md"]]
    faults += [f"README.md has no link to {name}" for name in PAGES if name != "README.md" and f"(docs/{name}" not in PAGES["README.md"]]
    lines, words = PAGES["README.md"].count("\n"), len(PAGES["README.md"].split())
    faults += [f"README.md has {lines} lines and {words} words, and may have 100 and 1,000"] * (lines > 100 or words > 1000)
    for note in re.split(r"^## ", PAGES["CHANGES.md"], flags=re.M)[1:]:
        words = sum(len(line.split()) for line in note.splitlines()[1:] if not line.startswith("|"))
        faults += [f"CHANGES.md: {words} words, and 150 are wanted at most: {note.splitlines()[0]}"] * (words > 150)
    if faults:
        sys.exit("pages: " + "\npages: ".join(faults))
    print(f"pages: {len(PAGES)} pages are within their limits, and what they cite exists")


if sys.argv[1:]:
    sys.exit(print(__doc__) if sys.argv[1:] == ["--help"] else __doc__)
main()
