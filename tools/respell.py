#!/usr/bin/env python3
"""Brings the repository's own names to the spelling of today's Rattle: a word is in snake case, a type and a module in camel case.

It was run once, on the tree that the kit's port.py had made (docs/PORT.md). It respells what a file of specs/ or proofs/ declares (a
definition, a lemma, a constructor, a field), where it is declared and where it is cited: in .antt and .rt files, in edits, in the tests'
scripts and in the pages. Local names of an .antt file are respelled in that file. Functions, types, exported names and texts that are
printed or read stay.

usage: tools/respell.py             run at the top of the repository
"""

import os
import re
import subprocess

# What would fall together with another name, and what it is called instead. Where a law had the name of its definition, it is NAME_law.
OTHERWISE = {
    "goesOn": "goes_on_to", "inOrder": "is_in_order", "turn-of": "turn_of_law", "highest-from": "highest_from_law",
    "house-code": "house_code_law", "legal-from": "legal_from_law", "legal-lists": "legal_lists_law", "more-lines": "more_lines_law",
    "only-proposed": "only_proposed_law", "poll-turn": "poll_turn_law", "run-bytes": "run_bytes_law", "sound-process": "sound_process_law",
    "step-events": "step_events_law", "turn-counts": "turn_counts_law", "value-at": "value_at_law", "on-entry": "on_entry_of",
}
# Files whose module the toolchain makes itself today (`specs.contracts`).
MOVED = {"Contracts": ["theory_functions", "theory_short", "theory_write"]}
MOVED_TO = {"Contracts": "FunctionContracts"}
# Characters of an antt name.
NAME = r"[^\s(){}\[\].,;:`\"←→×λ≡|↦=«»◌]+"
DECLARES = re.compile(r"(?m)^[ \t]*((?:(?:pub|abbrev|unfoldable|data|record|ruleset)[ \t]+)*)((?:[^\s(){}:,;]+[ \t]+)*?[^\s(){}:,;]+) (?::|where|=)(?=\s)")
USE = re.compile(r"use ([\w'·.-]+)\.\{([^}]*)\}")
PATTERN = re.compile(NAME)


def snake(name):
    """A word in snake case. The library's getD is called get_or today."""
    name = re.sub(r"getD(?![a-z])", "get_or", name).replace("-", "_")
    name = re.sub(r"(?<=[a-z0-9₀-₉'])([A-Z])", lambda m: "_" + m.group(1), name)
    return name.lower()


def wants(name):
    """Whether a name is a word that is not in snake case."""
    return bool(re.match(r"[a-z]", name)) and bool(re.search(r"[A-Z]|-", name)) and re.fullmatch(r"[\w'₀-₉ⁿ-]+", name) is not None


# What base passes on of the libraries.
PASSED_ON = set()


def files(*ends):
    listed = subprocess.run(["git", "ls-files"], capture_output=True, text=True, check=True).stdout.splitlines()
    return [p for p in listed if p.endswith(ends) and os.path.exists(p)]


def read(path):
    with open(path, encoding="utf-8") as f:
        return f.read()


def write(path, text):
    with open(path, "w", encoding="utf-8") as f:
        f.write(text)


def in_function(path):
    """Whether a file is a function's proof, crates/NAME/proofs/FUNCTION/: its names are those of goals."""
    return re.search(r"/proofs/[^/]+/", path) is not None


def code(text):
    """An .antt text without its comments."""
    return re.sub(r"(?m)(^|\s)--( .*)?$", r"\1", text)


def declared():
    """Every name that a file of specs/ or proofs/ declares, and the files."""
    found = {}
    for path in files(".antt"):
        if in_function(path):
            continue
        for match in DECLARES.finditer(code(read(path))):
            for name in match.group(2).split():
                if wants(name):
                    found.setdefault(name, set()).add(path)
    return found


def imported(text):
    """The names that a text takes from the libraries, and not from the repository's crates."""
    taken = set(PASSED_ON)
    own = set(os.listdir("crates"))
    for match in USE.finditer(text):
        parts = match.group(1).split(".")
        if parts[0] == "Rattle" and len(parts) > 1 and parts[1] in own and "declared" not in parts and "contracts" not in parts:
            continue
        taken |= {word for item in match.group(2).split(",") for word in item.split()}
    return taken


def replaced(text, names):
    """The text with each name of the table respelled, wherever it stands whole."""
    return PATTERN.sub(lambda m: names.get(m.group(0), m.group(0)), text)


def quoted(text, names, loose):
    """The same in prose: a name in backticks, or in camel case anywhere."""
    def one(m):
        return "`" + replaced(m.group(1), loose) + "`"
    text = re.sub(r"`([^`\n]+(?:\n[^`\n]+)?)`", one, text)
    return PATTERN.sub(lambda m: names.get(m.group(0), m.group(0)) if "-" not in m.group(0) else m.group(0), text)


def plain(name):
    return re.sub(r"[-_]", "", name.replace("getD", "getor")).lower()


class Loose(dict):
    """Finds a name also as it was spelled before port.py, which respelled some words of it."""

    def __init__(self, names, all_names):
        super().__init__(names)
        self.by = {}
        for name in all_names:
            self.by.setdefault(plain(name), names.get(name, name))

    def get(self, name, default=None):
        if name in self:
            return self[name]
        if wants(name) and plain(name) in self.by:
            return self.by[plain(name)]
        return default


def main():
    for path in ("crates/base/specs/Prelude.antt", "crates/base/specs/Walks.antt"):
        if os.path.exists(path):
            PASSED_ON.update(word for match in USE.finditer(read(path)) for item in match.group(2).split(",") for word in item.split())
    found = declared()
    names = {name: OTHERWISE.get(name, snake(name)) for name in found}
    every = set(names)
    for path in files(".antt"):
        if not in_function(path):
            every |= {n for m in DECLARES.finditer(code(read(path))) for n in m.group(2).split() if re.fullmatch(r"[a-z][\w'-]*[_-][\w'-]*", n)}
    loose = Loose(names, sorted(every))
    fallen = {}
    for old, new in names.items():
        fallen.setdefault(new, []).append(old)
    for new, old in fallen.items():
        if len(old) > 1:
            print("falls together:", new, old)

    for path in files(".antt"):
        text = read(path)
        taken = imported(text)
        table = {old: new for old, new in names.items() if old not in taken}
        if not in_function(path):
            # Local names: what the file binds and neither declares nor takes from elsewhere.
            for token in set(PATTERN.findall(code(text))):
                if wants(token) and token not in table and token not in taken and re.search(rf"(?<![\w'.-]){re.escape(token)}(?![\w'-])", code(text)):
                    bound = re.search(rf"(?:[({{λ]|let |\[ ?\| ?|^)[^()\n]*(?<![\w'.-]){re.escape(token)}(?![\w'-])[^()\n]*(?: :|\. | = | ↦)", code(text), re.M)
                    if bound and snake(token) not in set(PATTERN.findall(code(text))):
                        table[token] = snake(token)
        lines = []
        for line in text.split("\n"):
            comment = re.search(r"(^|\s)--( |$)", line)
            at = comment.end(1) if comment else len(line)
            lines.append(replaced(line[:at], table) + quoted(line[at:], table, Loose(table, [])))
        write(path, "\n".join(lines))

    for path in files(".rt"):
        text = read(path)
        functions = set(re.findall(r"\bfn (\w+)", text)) | set(re.findall(r"^use [^;]*?(\w+);", text, re.M))
        parameters = set(re.findall(r"[(,] *(?:mut )?(\w+): ", text))
        lines = []
        table = dict(names)
        for match in re.finditer(r"ghost use ([\w.]+)\.\{([^}]*)\}", text):
            for item in match.group(2).split(","):
                words = item.split()
                if len(words) == 1 and words[0] in names and names[words[0]] in functions | parameters:
                    table[words[0]] = re.sub("_of$", "_for", names[words[0]]) if names[words[0]].endswith("_of") else names[words[0]] + "_of"
        for line in text.split("\n"):
            at = line.find("//")
            at = at if at >= 0 else len(line)
            head = line[:at]
            if head.startswith("ghost use"):
                head = re.sub(
                    r"\{([^}]*)\}",
                    lambda m: "{" + ", ".join(
                        (names[i.strip()] + " as " + table[i.strip()]) if i.strip() in names and table[i.strip()] != names[i.strip()]
                        else replaced(i.strip(), names if " as " not in i else table) for i in m.group(1).split(",")) + "}",
                    replaced(head[:head.find("{")], names) + head[head.find("{"):])
            else:
                head = replaced(head, {k: v for k, v in table.items() if "-" not in k})
            lines.append(head + quoted(line[at:], table, loose))
        text = "\n".join(lines)
        # `x as xOf` of an import: the name after `as` too.
        for match in re.finditer(r"\bas ([a-z]\w*[A-Z]\w*)", text):
            if f"as {match.group(1)}" in "".join(l for l in lines if l.startswith("ghost use")):
                text = re.sub(rf"(?<![\w'-]){match.group(1)}(?![\w'-])", snake(match.group(1)), text)
        write(path, text)

    for path in files(".edit"):
        lines = []
        for line in read(path).split("\n"):
            if line.startswith("#"):
                line = quoted(line, {}, loose)
            elif not line.startswith("file:"):
                line = PATTERN.sub(lambda m: loose.get(m.group(0)) or (snake(m.group(0)) if re.fullmatch(r"[a-z]\w*[a-z0-9][A-Z]\w*", m.group(0)) else m.group(0)), line)
            lines.append(line)
        write(path, "\n".join(lines))

    for path in files(".md"):
        if path.startswith(("docs/", "README", "reference/")):
            parts = re.split(r"(?m)(^```[^\n]*\n.*?^```)", read(path), flags=re.S)
            write(path, "".join(replaced(part, loose) if part.startswith("```") else quoted(part, names, loose) for part in parts))

    for old, crates in MOVED.items():
        for crate in crates:
            if os.path.exists(f"crates/{crate}/specs/{old}.antt"):
                subprocess.run(["git", "mv", f"crates/{crate}/specs/{old}.antt", f"crates/{crate}/specs/{MOVED_TO[old]}.antt"], check=True)
                for path in files(".antt", ".edit", ".rt", ".md"):
                    text = read(path)
                    own = path.startswith(f"crates/{crate}/")
                    new = text.replace(f"Rattle.{crate}.specs.{old}", f"Rattle.{crate}.specs.{MOVED_TO[old]}")
                    new = new.replace(f"{crate}/specs/{old}.antt", f"{crate}/specs/{MOVED_TO[old]}.antt")
                    if own:
                        new = re.sub(rf"(?m)^((?:pub )?mod {old})$", lambda m: m.group(1).replace(old, MOVED_TO[old]), new)
                        new = new.replace(f"file: specs/{old}.antt", f"file: specs/{MOVED_TO[old]}.antt")
                    if new != text:
                        write(path, new)


if __name__ == "__main__":
    main()
