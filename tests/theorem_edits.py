#!/usr/bin/env python3
"""Edits of the machines' definitions of which the agreement rule, the rule of polls or of houses, that contested is the number of marked rounds,
or a case is false, of the two rules' bounds on the window and on the limits, and of contracts on which they rest.

    theorem_edits.py             tries every edit
    theorem_edits.py PATTERN     tries those whose file name matches, as 'root*.edit': for work on one
    theorem_edits.py --texts     proves nothing: each text stands once in its file, each lemma in its, each row in its table

Each file of tests/theorem-edits names a file, a text of it and another text, or several such pairs, the crate to check after the change,
and the file and lemma at which the check must refuse it first; several where the first of them is true and only its proof fails. It also
has a list of calls, and what they show. From these a proof that the rule is false of the changed machine is made, and that must be
accepted.

The list is of the processes and rounds of the opening (a poll's has no rounds); the proposals of process 0, 1, ..; and the steps, or a
poll's turns: `p*k` for k steps of process p, told to lead, and `p:look`, `p:crash` and `p:unled` for a look, a crash and a step that is not
told to lead. Among the steps `p=v` is a proposal of v by process p, and `close` a close. A list of a house has the wards of its workers in
place of processes and rounds; its steps are turns, and its looks house looks. Where the edit has a window, the calls are at that
window and the rule that is false is the one at every window, or the claim of Safe.antt that it names; where it has none, the one in
service. Where it has limits, processes and rounds, the opening is within those; where it has none, within the server's.

`refutes` has the part that is false. It is a field of `Rule`, `PollRule` or `HouseRule`; SESSION_PARTS, POLL_PARTS and HOUSE_PARTS below say
what an edit then shows: who decides, commits, writes, answers or holds what. Or it is `stand`, that the proposals stand after a close: CLOSE_PARTS has how
many there were by then and by the end. Or it is the equality with the machine: `machine`, where the last call returns 3, or `differs`,
where another number of its answer is not the machine's; `last` has both numbers, and each call brings counts of the number in `counts`, 0
where there is none. An edit without `refutes` has how many rounds are contested and marked after a sheet of the calls.

An edit of which a paper case is false has the case's row in place of the list, as the table has it: the table that holds that row alone
must be proved false of the changed machine. Where a law refuses the edit and not the table, `table` has the table's crate. An edit of a
contract names a crate in place of the list, which must still be proved: the function meets the changed contract. All of it runs in copies
of the repository, outside it, each of which begins with the crates proved as they are.
"""
import os
import queue
import re
import shutil
import subprocess
import sys
import tempfile
from concurrent.futures import ThreadPoolExecutor
from pathlib import Path

if sys.argv[1:] in (["--help"], ["-h"]):
    print(__doc__.strip())
    sys.exit()

ROOT = Path(__file__).resolve().parent.parent
EDITS = ROOT / "tests" / "theorem-edits"
# The calls as a proof has them.
SESSION_CALLS = {"proposal": "acts (Propose {p} {v})", "step": "acts (works {p})", "unled": "acts (Step {p} false)",
                 "look": "acts (Learn {p})", "crash": "acts (Crash {p})", "close": "closes"}
HOUSE_CALLS = {"proposal": "proposes {p} {v}", "step": "turns {p} true", "unled": "turns {p} false", "look": "learns {p}",
               "crash": "crashes {p}"}
POLL_CALLS = {"proposal": "proposes {p} {v}", "step": "turns {p}", "crash": "crashes {p}"}
# The parts of the three rules, and what is claimed after a close: the fields of an edit that refutes one, with the form of each; what they
# say, as `Refuted.antt` and `PollRefuted.antt` of model_rule_cases and `Refuted.antt` of model_house_cases have it; and by how many
# equations that is shown.
NUMBER = r"(?P<v>\d+) by process (?P<p>\d+)"
OTHER = r"(?P<u>\d+) by process (?P<q>\d+)"
TURNS = r"(?P<k>\d+) turns by process (?P<p>\d+)"
SESSION_PARTS = {
    "holds": ({"decides": NUMBER}, "no_longer_held {p} {v}", 2),
    "looked": ({"holds": NUMBER}, "never_looked {p} {v}", 3),
    "agreement": ({"decides": f"{NUMBER}, {OTHER}"}, "two_numbers {p} {v} {q} {u}", 3),
    "validity": ({"decides": NUMBER}, "not_proposed {p} {v}", 2),
    "commitment": ({"commits": r"(?P<v>\d+) in round (?P<R>\d+)", "writes": r"(?P<u>\d+) in round (?P<r>\d+) by process (?P<p>\d+)"},
                   "written_later {R} {v} {p} {r} {u}", 4),
}
HOUSE_PARTS = {part: SESSION_PARTS[part] for part in ("holds", "looked", "agreement", "validity")}
CLOSE_PARTS = {"stand": ({"proposed": r"(?P<k>\d+) by a close, (?P<m>\d+) by the end"}, "{k} {m}", 3)}
POLL_PARTS = {
    "validity": ({"answers": rf"(?P<a>\w+) {NUMBER}"}, "not_proposed {p} ({a} {v}) {v}", 3),
    "agreement": ({"answers": rf"committed {NUMBER}, (?P<a>\w+) {OTHER}"}, "two_numbers {p} {v} {q} ({a} {u}) {u}", 4),
    "unanimity": ({"answers": rf"(?P<a>\w+) {NUMBER}", "proposals": r"(?P<u>\d+)( (?P=u))*"}, "not_committed {p} ({a} {v}) {v} {u}", 4),
    "kept": ({"answers": rf"(?P<a>\w+) {NUMBER}"}, "not_kept {p} ({a} {v}) {v}", 3),
    "shown": ({"holds": NUMBER}, "not_given {p} {v}", 2),
    "one_pass": ({"takes": TURNS}, "too_many {p} {k}", 2),
    "working": ({"takes": TURNS}, "still_works {p} {k}", 3),
}
ANSWERS = {"committed": "Commits", "adopted": "Adopts"}
# A number of an answer, as an edit has it and as a proof.
NUMBERS = {"code": "a.code", "reads": "a.counts.reads", "round of process 0": "(process_at a.session 0).round",
           "closed mark": "cond a.session.closed 1 0"}
# The definitions by which a list of calls is computed.
DEFINITIONS = """window root_up root_from opened waiting_rule phase_access access found go_on phase_next next learnt stored turn counted full opening_for access_of becomes
    after counts_after answered perform sound_phase_as sound_process_as poll_registers sound_for_as operate_for_as propose_for_as step_for learn_for crash_for_as"""
SESSION_DEFINITIONS = "execute close_for"
HOUSE_DEFINITIONS = """window root_up root_from opened waiting_rule phase_access access found go_on phase_next next learnt stored turn counted full access_of becomes
    after counts_after answered perform sound_phase_as sound_process_as poll_registers sound_for_as sound_as without_decision poll_access ending poll_next answer_of
    turn_after turn_counts poll_turned poll_perform seat_of allowed opened_house house_opening turn_at view_of with_view turn_by turned house_after house_counts
    house_answered house_perform sound_ward sound_numbers sound_vote seats_fit sound_worker sound_wards sound_house house_operate house_propose house_turn
    house_learn house_crash"""
POLL_DEFINITIONS = "without_decision poll_access ending poll_next answer_of poll_opening_for turn_after turn_counts turned poll_perform poll_turn_for"


def read_edit(path):
    """The fields of an edit; in `changes`, each text with the other one."""
    fields = {"changes": []}
    for line in path.read_text(encoding="utf-8").splitlines():
        if line and not line.startswith("#"):
            key, _, value = line.partition(": ")
            fields[key] = value
            if key == "new":
                fields["changes"].append((fields["old"], value))
    return fields


class Copy:
    """A copy of the repository's crates. What rt has proved in it stays in it from one edit to the next."""

    def __init__(self, folder):
        self.folder = Path(folder)
        self.changed = set()
        shutil.copytree(ROOT / "crates", self.folder / "crates", ignore=left_out)
        shutil.copy(ROOT / "crates.txt", self.folder)

    def text(self, path):
        return (self.folder / path).read_text(encoding="utf-8")

    def write(self, path, text):
        """Changes a file of the repository in the copy, until the next reset; None removes it."""
        self.changed.add(path)
        if text is None:
            (self.folder / path).unlink()
        else:
            (self.folder / path).write_text(text, encoding="utf-8")

    def reset(self):
        for path in self.changed:
            shutil.copy(ROOT / path, self.folder / path)
        self.changed.clear()
        shutil.rmtree(self.folder / "crates" / "refuted", ignore_errors=True)

    def check(self, crate):
        """Whether the crate is proved, and what rt says of it and of the crates below it."""
        run = subprocess.run(["rt", "check"], cwd=self.folder / "crates" / crate, stdout=subprocess.PIPE, stderr=subprocess.STDOUT, text=True)
        if run.returncode not in (0, 1):
            sys.exit(f"theorem edits: rt check ends with {run.returncode} in {crate}:\n{run.stdout}")
        return run.returncode == 0, run.stdout


def left_out(folder, names):
    """What no copy needs: the edits of a crate, and what rt has made in its folder."""
    return [name for name in names if name == "must-fail" or name == "out" and Path(folder).parent.name == "crates"]


def refused(crate, output, number=1):
    """The files and lemmas of the first errors, as an edit names them; an error that is another lemma's does not count. The crate is the one
    that was checked; where a library below it did not build, the errors are that one's."""
    below = re.findall(r"^rt: the library (\w+) did not build", output, re.M)
    errors = re.findall(r"^\./(\S+\.antt):\d+:\d+: (?:error: )?`([^`]+)`(?!.* was not admitted)", output, re.M)[:number]
    said, last = [], None
    for file, lemma in errors:
        said.append(lemma if file == last else f"crates/{(below or [crate])[-1]}/{file} {lemma}")
        last = file
    return ", ".join(said) or "no error"


def calls(edit):
    """The calls, oldest first: the process, what it is called for, and the number that it proposes; a close is of no process."""
    for p, v in enumerate(edit.get("proposals", "").split()):
        yield p, "proposal", int(v)
    for part in edit.get("steps", "").split():
        if part == "close":
            yield None, "close", None
        elif "=" in part:
            p, v = part.split("=")
            yield int(p), "proposal", int(v)
        else:
            call, _, times = part.partition("*")
            p, _, what = call.partition(":")
            yield from [(int(p), what or "step", None)] * int(times or 1)


def listed(terms):
    return " ∷ ".join([*map(str, terms), "[]"])


def operations(edit, words):
    """The calls as a proof has them, oldest first."""
    return [words[what].format(p=p, v=v) for p, what, v in calls(edit)]


def sheet(edit):
    """The bytes of a sheet of the calls, in one run: proposals, steps that are told to lead, and closes."""
    kinds = {"proposal": 0, "step": 1, "close": 4}
    values = {"step": 1, "close": 0}
    entries = [bytes([kinds[what], p or 0]) + values.get(what, v).to_bytes(4, "little") for p, what, v in calls(edit)]
    header = bytes([int(edit["processes"]), 1]) + int(edit["rounds"]).to_bytes(2, "little")
    return header + (8).to_bytes(2, "little") + (6 * len(entries)).to_bytes(2, "little") + b"".join(entries)


def limits(edit):
    """The limits within which the calls are made: the edit's own, or the server's."""
    if "limits" not in edit:
        return "limits_of Server"
    processes, rounds = edit["limits"].split()
    return f"record {{ processes = {processes}; rounds = {rounds} }}"


def claimed(edit, in_service, at_every_window, *numbers):
    """The window as a function of n, the claim, and what it is applied to, as the templates have them: in service, or at the window of the edit."""
    given = " ".join(edit[number] for number in numbers)
    if "window" in edit:
        claim = edit.get("claim", at_every_window)
        return {"w": f"λ m. {edit['window']}", "claim": claim, "file": "Safe" if "claim" in edit else "Rule", "of": f"w {given} (omega arith) most up"}
    return {"w": "window", "claim": in_service, "file": "Rule", "of": f"{given} most up"}


def part_shown(edit, parts):
    """What the edit says that its list of calls shows, as the templates have it."""
    fields, shown, equations = parts[edit["refutes"]]
    words = {}
    for field, form in fields.items():
        words |= re.fullmatch(form, edit[field]).groupdict()
    if "a" in words:
        words["a"] = ANSWERS[words["a"]]
    return {"shown": shown.format(**words), "proof": f"({', '.join(['refl'] * equations)})"}


def last_answer(edit):
    """The number of the last answer that the edit speaks of, what it is, and what the machine's is."""
    number, answer, machine = re.fullmatch(r"(.+) (\d+), the machine's (\d+)", edit["last"]).groups()
    return {"number": NUMBERS[number], "answer": answer, "machine": machine}


def house_refutation(edit):
    """The same of a list of a house's calls."""
    done = operations(edit, HOUSE_CALLS)
    wards = edit["wards"].split()
    values = {"wards": listed(wards), "c": str(max(map(int, wards))), "oldest": listed(done), "newest": listed(done[::-1]), "counts": edit.get("counts", "0"),
              "definitions": HOUSE_DEFINITIONS, "claim": "HouseClaim"}
    values["of"] = f"{values['c']} wards"
    if edit["refutes"] in HOUSE_PARTS:
        return ["houses", "houses_rule"], values | part_shown(edit, HOUSE_PARTS)
    return ["houses", "calls", "answers", edit["refutes"]], values | last_answer(edit)


def refutation(edit):
    """The templates of the proof that the edit refutes the theorem, the crates that it uses, and what the templates are filled with."""
    if "contested" in edit:
        values = {"sheet": listed(sheet(edit)), "contested": edit["contested"], "marked": edit["marked"]}
        return ["contested"], "base model model_rule", values
    if "wards" in edit:
        templates, values = house_refutation(edit)
        return templates, "base model model_poll model_rule model_rule_cases model_house model_house_cases", values
    poll = "rounds" not in edit
    parts = POLL_PARTS if poll else SESSION_PARTS
    done = operations(edit, POLL_CALLS if poll else SESSION_CALLS)
    values = {"n": edit["processes"], "oldest": listed(done), "newest": listed(done[::-1]), "counts": edit.get("counts", "0")}
    if poll:
        values |= {"definitions": f"{DEFINITIONS} {POLL_DEFINITIONS}", **claimed(edit, "PollClaim", "EveryPollWindow", "processes")}
    else:
        values |= {"definitions": f"{DEFINITIONS} {SESSION_DEFINITIONS}", "L": edit["rounds"]}
        values |= claimed(edit, "AgreementRule", "EveryWindow", "processes", "rounds")
    if edit["refutes"] in parts:
        templates = ["polls", "calls", "polls_rule"] if poll else ["sessions", "sessions_rule"]
        values |= part_shown(edit, parts)
    elif edit["refutes"] in CLOSE_PARTS:
        templates = ["sessions", "calls", "sessions_stand"]
        values |= part_shown(edit, CLOSE_PARTS)
    else:
        templates = ["polls" if poll else "sessions", "calls", "answers", edit["refutes"]]
        values |= last_answer(edit)
    return templates, "base model model_poll model_rule model_rule_cases", values


def write_refutation(copy, edit):
    templates, uses, values = refutation(edit)
    text = "".join((EDITS / f"{template}.template").read_text(encoding="utf-8") for template in templates)
    for key, value in {"most": limits(edit), **values}.items():
        text = text.replace(f"@{key}@", value)
    crate = copy.folder / "crates" / "refuted"
    (crate / "src").mkdir(parents=True)
    (crate / "specs").mkdir()
    (crate / "src" / "lib.rt").write_text("// No code.\n#![tactic(auto)]\n", encoding="utf-8")
    (crate / "specs" / "Lib.antt").write_text(text, encoding="utf-8")
    # The proof plays its list as model_rule_cases does; the short lists there, and the cases of houses, may be false of the changed machine.
    for name in ("model_rule_cases", "model_house_cases"):
        lib = f"crates/{name}/specs/Lib.antt"
        copy.write(lib, copy.text(lib).replace("pub mod Table\n", ""))
        copy.write(f"crates/{name}/specs/Table.antt", None)
    copy.write("crates.txt", copy.text("crates.txt") + f"refuted: {uses}\n")


def table_of(edit):
    """The file of the table that has the edit's row."""
    return f"crates/{edit['table']}/specs/Table.antt" if "table" in edit else edit["refused"].split()[0]


def rows_of(text):
    """The part of a file that is its table, and the rows of that part as they stand there."""
    part = text[text.index("table =\n"):text.index("-- Every row holds")]
    return part, re.sub(r" *--[^\n]*\n", "", part.removeprefix("table =\n")).split("\n    ∷ ")


def row_found(edit, text):
    """The one row of the table that has the words of the edit, or what keeps it from being found."""
    rows = [" ".join(row.split()) for row in rows_of(text)[1]]
    one = [row for row in rows if edit["row"] in row]
    return (one[0], None) if len(one) == 1 else (None, f"'{edit['row']}' stands {len(one)} times in the table")


def case_stands(copy, edit):
    """What keeps the table of that one row, which the file has, from being proved false; None where it is."""
    path = table_of(edit)
    text = copy.text(path)
    row, fault = row_found(edit, text)
    if fault:
        return fault
    text = text.replace(rows_of(text)[0], f"table =\n    {row}\n    ∷ []\n\n").replace("every holds table ≡ true", "every holds table ≡ false")
    text = re.sub(r"(?<=use Rattle\.std\.specs\.Prelude\.\{)(?!.*\bfalse\b)", "false, ", text)
    copy.write(path, text)
    crate = Path(path).parts[1]
    proved, output = copy.check(crate)
    return None if proved else f"the row is not false of it: {refused(crate, output)}"


def changed_texts(edit, read):
    """The text of the edit's file with its changes, or what keeps one from being made."""
    text = read(edit["file"])
    for old, new in edit["changes"]:
        if text.count(old) != 1:
            return None, f"'{old}' stands {text.count(old)} times in {edit['file']}"
        text = text.replace(old, new)
    return text, None


def fault_of(path, copy):
    """What is wrong with an edit; None where the check refuses it as said and the rule is refuted."""
    edit = read_edit(path)
    copy.reset()
    text, fault = changed_texts(edit, copy.text)
    if fault:
        return fault
    copy.write(edit["file"], text)
    if "proved" in edit and not copy.check(edit["proved"])[0]:
        return f"{edit['proved']} is not proved with it"
    proved, output = copy.check(edit["check"])
    if proved:
        return "it was proved"
    seen = refused(edit["check"], output, edit["refused"].count(",") + 1)
    if seen != edit["refused"]:
        return f"refused first at {seen}, not at {edit['refused']}"
    if "proved" in edit:
        return None
    if "row" in edit:
        return case_stands(copy, edit)
    write_refutation(copy, edit)
    proved, output = copy.check("refuted")
    return None if proved else f"its list of calls refutes nothing: {refused('refuted', output)}"


def text_fault(path):
    """What is wrong with the texts of an edit, without a proof."""
    edit = read_edit(path)
    read = lambda name: (ROOT / name).read_text(encoding="utf-8")
    fault = changed_texts(edit, read)[1]
    if not fault and "row" in edit:
        fault = row_found(edit, read(table_of(edit)))[1]
    last = None
    for words in edit["refused"].split(", "):
        *file, lemma = words.split()
        last = file[0] if file else last
        if not fault and not re.search(rf"^ *(?:abbrev |unfoldable |pub )*{re.escape(lemma)} :", read(last), re.M):
            fault = f"{last} has no {lemma}"
    return fault


def crates_for(edits):
    """The crates that the edits have checked, as they are or changed."""
    names = set()
    for edit in map(read_edit, edits):
        names |= {edit["check"], edit.get("proved", edit["check"])}
        if "row" in edit:
            names.add(Path(table_of(edit)).parts[1])
        elif "proved" not in edit:
            names |= set(refutation(edit)[1].split())
    return sorted(names)


def tried(edits):
    """The faults of the edits, tried as many at a time as there are processors, each in one of as many copies."""
    number = min(os.cpu_count(), len(edits))
    with tempfile.TemporaryDirectory(prefix="theorem-edits-") as folder:
        first = Copy(f"{folder}/0")
        for crate in crates_for(edits):
            proved, output = first.check(crate)
            if not proved:
                sys.exit(f"theorem edits: {crate} is not proved as it is: {refused(crate, output)}\n{output}")
        copies = queue.Queue()
        for copy in [first, *(Copy(f"{folder}/{at}") for at in range(1, number))]:
            copies.put(copy)

        def fault(path):
            copy = copies.get()
            try:
                return fault_of(path, copy)
            finally:
                copies.put(copy)

        with ThreadPoolExecutor(number) as pool:
            return list(pool.map(fault, edits))


def main():
    words = sys.argv[1:]
    edits = sorted(EDITS.glob(words[0] if words and words != ["--texts"] else "*.edit"))
    if not edits:
        sys.exit("theorem edits: there is none of that name")
    faults = [text_fault(path) for path in edits] if words == ["--texts"] else tried(edits)
    failed = 0
    for path, fault in zip(edits, faults):
        failed += fault is not None
        well = "its texts stand" if words == ["--texts"] else "refused as it must be"
        print(f"theorem edit {path.stem}: {well if fault is None else 'FAILED: ' + fault}", flush=True)
    print(f"theorem edits: {len(edits) - failed} {'stand' if words == ['--texts'] else 'refused'}, {failed} not")
    sys.exit(1 if failed else 0)


main()
