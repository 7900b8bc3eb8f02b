#!/usr/bin/env python3
"""Holds docs/PAPER-CASES.md, its picture and the sample polls and houses to the rules and to the separately written program.

usage:
    paper_cases.py check     fails if a table differs, an arrow of the picture, or the text of a poll or a house
    paper_cases.py write     writes the tables and the texts anew

A table stands between `<!-- NAME -->` and `<!-- end -->`. The page must have them in the order in which one works: board, rules,
picture, refusals, counts, form, cases, short lists, polls, houses, and at the end who opens, what the window saves and what is reported.

- `rules`, `turns`, `refusals`, `counts`, `windows`, `opening-refusals`, `poll-rules`, `poll-refusals`, `house-rules` and
  `house-refusals` are made of paper_rules.py.
- `openings` is worked by them for either caller. Each answer must be the separately written program's.
- `case NAME` has the turns of examples/NAME.sheet, played by those rules. Each of its lines must be the trace's.
- `scope` has the starred cases of document 01, with the n and L that they have there, at the window of then and of now. What 01 and
  wish 8 say of each must be found, and each turn must be the trace's.
- `closes` has turns in a closed session (02, wish 10), by those rules. Each must be the trace's, and get the answer that stands here.
- `short-counts` has how many short lists there are (02, wish 12), each list of choices being played by those rules. `short-lists` has those of
  two turns for two seats; each must be the trace's.
- `form` is the table of a case with nothing in it.
- `poll NAME` has the turns of examples/NAME.poll, played by the rules of a poll.
- `house NAME` has the turns of examples/NAME.house, played by the rules of a house, long walks folded. After each turn the house must
  be the separately written program's. `house-openings`, `house-cases` and `house-alone` have short cases; what becomes of each must be
  that program's, and what the last turn of each answers is what stands here.
- `turns-alone` is written and held by turns.py, and here left alone.
- `report NAME` has the board report of examples/NAME.sheet, played by the rules. It and that of every sample must be the program's.

The text of each examples/NAME.poll and examples/NAME.house as it is played, answers, counts, registers and seats, stands in
examples/NAME.out and must be the separately written program's. In docs/walk.svg a box is an element with data-stance, an arrow one with
data-from and data-to; boxes, arrows and their words must be those of the rules, and the picture must fit on an A4 page.
"""
import re
import sys
import xml.etree.ElementTree
from collections import Counter
from functools import cache
from itertools import groupby, islice, zip_longest

sys.dont_write_bytecode = True
from paper_lists import HOUSES, LISTS, POLLS, ROOT, held, house, house_texts, poll, poll_texts, printed, read_by, sheet
from paper_play import COUNT_KINDS, HOUSE, POLL, SESSION, House, HouseOpening, Opening, Play, Poll, Turn, shown
from paper_rules import CLOSE, COUNTS, FOLLOWED, HOUSE_OPENING_REFUSALS, LIMITS, MOST_SEATS, NEVER_IN_POLLS, OPENING_REFUSALS
from paper_rules import RULES, SESSION_STANCES, STANCES, WINDOW, window, window_before

EXAMPLES = ROOT / "examples"
PAGE = ROOT / "docs" / "PAPER-CASES.md"
PICTURE = ROOT / "docs" / "walk.svg"
MARKED = re.compile(r"(<!-- ([\w-]+(?: \w+)?) -->\n)(.*?)(<!-- end -->)", re.S)
RULE_HEAD = ["Rule", "Stands at", "Turn", "Do", "If", "Then stands at"]
COUNTED = [count.capitalize() for count, _, _ in COUNTS]
CASE_HEAD = ["No.", "Turn", "Rule", "Read or written", "T", "C", "D", "Stands at", "r", "Own", *COUNTED]
HOUSE_HEAD = ["No.", "Turn", "Rule", "Read or written", "Seat stands at", "Stands at", "o", "Value", "V", "H", *COUNTED]
FORM_ROWS = 30
NOTHING = "·"
# In millimetres: A4 less the margins of docs/print.css.
PICTURE_WIDTH, PICTURE_HEIGHT = 190, 240


def table(head, rows):
    """A table of the page."""
    lines = [head, ["---"] * len(head), *rows]
    return "".join("| " + " | ".join(str(cell) for cell in line) + " |\n" for line in lines)


# ---------------------------------------------------------------- the rules

def bold(then):
    """What comes next, its stance bold, and slanted what is followed in the same turn."""
    stance, rest = re.fullmatch(r"([^;]*)(.*)", then).groups()
    return slanted(stance if stance in (*FOLLOWED, "as before") else f"**{stance}**") + rest


def slanted(stance):
    """A stance, slanted if it is none but is followed in the same turn."""
    return f"*{stance}*" if stance in FOLLOWED else stance


def rule_lines(rules):
    """A line for each thing that may be found."""
    for first, (at, turn, when, does, outcomes) in rules.numbered():
        turn = "the same turn" if at in FOLLOWED else ", ".join(filter(None, [rules.turns(turn), when]))
        for number, (found, then) in enumerate(outcomes, first):
            yield [number, slanted(at), turn, does or "nothing", found, bold(then)]


def rules_table(rules=SESSION):
    """What a turn does. Where the seat, the turn and what is done are those of the line above, their cells are empty."""
    rows, above = [], None
    for number, *cells, found, then in rule_lines(rules):
        rows.append([number, *(cells if cells != above else [""] * len(cells)), found, then])
        above = cells
    return table(RULE_HEAD, rows)


def poll_rules_table():
    """What a turn of a poll does, where that differs from what a session's does."""
    in_sessions = {number: rest for number, _, _, *rest in rule_lines(SESSION)}
    changed = [line for line in rule_lines(POLL) if line[3:] != in_sessions[line[0]]]
    *first, last = NEVER_IN_POLLS
    never = f"Rules {', '.join(map(str, first))} and {last} are never taken"
    return f"{never}, and these take the place of those with the same numbers:\n\n" + table(RULE_HEAD, changed)


def answer(head, turn, session=SESSION_STANCES[0]):
    """The rules for a turn of a seat that stands there, or what it is refused with, in a session that is open or closed."""
    play = Play(1, window(1))
    play.seats[0].head, play.session.head = head, session
    refused = play.refused(Turn(play, f"{turn} 0 1"))
    if refused:
        return f"refused with {refused[1]}"
    numbers = [outcome[0] for row in SESSION.rows[head, turn] for outcome in row.outcomes]
    return {1: "rule {}", 2: "rules {} and {}"}.get(len(numbers), f"rules {{}} to {numbers[-1]}").format(*numbers)


def turns_table():
    """Which rules there are for each stance and turn of a seat; what is refused. Only of proposals it matters whether the session is closed."""
    rows = []
    for stance, head in zip(STANCES, SESSION.heads):
        answers = {kind: [answer(head, kind, session) for session in SESSION_STANCES] for kind in SESSION.kinds if kind != CLOSE}
        for kind, (opened, closed) in answers.items():
            if kind != "propose" and opened != closed:
                sys.exit(f"paper cases: {kind} at {stance}: {opened} in an open session, {closed} in a closed one")
        proposed, closed = answers.pop("propose")
        rows.append([stance, proposed, closed, *(opened for opened, _ in answers.values())])
    return table(["Stands at", "propose", "propose, session closed", *answers], rows)


def refusals_table(rules=SESSION):
    """What a refused turn gets."""
    return table(["Refused with", "Turn", "If"], [[number, rules.turns(turns), met] for number, turns, met in rules.refusals])


def counts_table():
    """What each count grows by."""
    rows = [[count, made.replace("read", "**read**").replace("write", "**write**").replace("mark", "**mark**", 1), remark]
            for count, made, remark in COUNTS]
    return table(["Count", "Grows by 1 with each", ""], rows)


def windows_table():
    """W for every n, in ranges."""
    ranges = {}
    for n in range(1, MOST_SEATS + 1):
        ranges.setdefault(window(n), []).append(n)
    spans = [f"{of[0]} to {of[-1]}" if len(of) > 1 else of[0] for of in ranges.values()]
    return f"W is {WINDOW}.\n\n" + table(["n", *spans], [["**W**", *ranges]])


# ---------------------------------------------------------------- the openings

# What is opened: sessions of n and L, polls of n, and sheets, by their bytes.
SESSIONS = [(0, 64), (1, 1), (1, 2), (1, 64), (1, 65), (1, 256), (1, 257), (16, 7), (16, 8), (16, 64), (16, 65), (17, 64), (17, 65)]
SESSIONS += [(64, 15), (64, 16), (64, 256), (64, 257), (65, 256)]
POLL_SEATS = [0, 16, 17, 64, 65]
SHEETS = [[16, 0, 64, 0], [16, 0, 65, 0], [17, 0, 64, 0], [17, 0, 65, 0], [17, 0, 65], [17, 1, 65, 0], [17, 17, 65, 0]]


def opening_refusals_table():
    """The limits of each caller, and what an opening beyond them gets."""
    limits = table(["Who opens", "The most seats", "The most rounds"], [[f"the {caller}", *most] for caller, most in LIMITS.items()])
    return limits + "\n" + table(["Refused with", "Opened", "If"], OPENING_REFUSALS)


def worked_openings(caller):
    """Each opening by a caller: what is opened, with n and L; its refusal by the rules, and its number by the separately written program."""
    for n, limit in SESSIONS:
        yield "session", n, limit, Opening(caller, "session", n, limit), read_by(caller, sheet.sheet(n, limit, []))
    for n in POLL_SEATS:
        [[line, *_]] = poll_texts([poll.poll(caller, n, [])])
        yield "poll", n, "", Opening(caller, "poll", n), int(line.split()[2])
    for data in map(bytes, SHEETS):
        limit = int.from_bytes(data[2:], "little") if len(data) > 3 else ""
        yield f"sheet of the bytes {', '.join(map(str, data))}", data[0], limit, Opening.of_sheet(caller, data), read_by(caller, data)


def openings_table():
    """The openings, worked by the rules for each caller; each answer must be the separately written program's, and each row is met."""
    rows, met = {}, set()
    for caller in LIMITS:
        for what, n, limit, ours, theirs in worked_openings(caller):
            if ours.number != theirs:
                sys.exit(f"paper cases: the {caller}, {what}, n {n}, L {limit}: the rules give {ours.number}, the separately written program {theirs}")
            row = rows.setdefault((what, n, limit), [what, n, limit, window(n) if 1 <= n <= MOST_SEATS else ""])
            row.append(f"refused with {ours.number}" if ours.number else "opened")
            met.add((caller, ours.place))
    if len(met) != len(LIMITS) * (1 + len(OPENING_REFUSALS)):
        sys.exit(f"paper cases: of the refusals of an opening these alone are met: {met}")
    return table(["Opened", "n", "L", "W", *[f"By the {caller}" for caller in LIMITS]], rows.values())


# ---------------------------------------------------------------- the cases

def trace(data, width=""):
    """The columns of each line that the separately written program traces, at a window of that width where one is given."""
    return [[part.strip() for part in line.split("|")] for line in printed(f"trace {width}", data)]


def columns(board):
    """The board's three columns: filled registers from round 1 on, marked rounds, D."""
    values = " ".join(shown(board["T"].get(r, 0)) for r in range(1, max(board["T"], default=0) + 1))
    marks = " ".join(str(r) for r in sorted(board["C"]))
    return [values or NOTHING, marks or NOTHING, board["D"].get(None, NOTHING)]


def played(play, words):
    """Plays a turn: the page's line without its number, and the trace's last columns."""
    seen, (word, *rest) = len(play.used), words.split()
    register, shown_words = play.turn(words), " ".join([play.rules.kinds[word], *rest])
    if register.startswith("refused"):
        return [shown_words, "", register, *columns(play.board), "", "", "", *play.counts], [register]
    seat = play.of(words)
    used = ", ".join(str(rule) for rule in play.used[seen:])
    line = [shown_words, used, register, *columns(play.board), seat.stance(), seat.round, seat.own, *play.counts]
    return line, [register, str(seat), " ".join(map(str, play.counts))]


def played_sheet(name, data, width=None):
    """A sheet, played by the rules, and the page's lines; each line must be the trace's."""
    play, rows = Play(data[0], int.from_bytes(data[2:4], "little"), width), []
    for index, words, *expected in trace(data, width or ""):
        line, told = played(play, words)
        if told != expected:
            sys.exit(f"paper cases: {name}, turn {index}, {words}: the rules give {told}, the trace {expected}")
        rows.append([index, *line])
    return play, rows


def case_table(name):
    """A case, played by the rules."""
    return table(CASE_HEAD, played_sheet(name, (EXAMPLES / f"{name}.sheet").read_bytes())[1])


# ---------------------------------------------------------------- closed sessions

# 02, wish 10, "proposals are then refused and all else goes on": turns of a session with two seats, the last of them in a closed session,
# and what that one answers, a refusal or its register operation.
CLOSED = [
    ("close, propose 0 7", "refused 18"),
    ("propose 0 7, close, propose 0 8", "refused 6"),
    ("propose 0 7, crash 0, close, propose 0 8", "refused 6"),
    ("close, propose 0 0", "refused 5"),
    ("propose 0 7, close, propose 0 0", "refused 5"),
    ("close, propose 2 7", "refused 4"),
    ("close, close", "none"),
    ("propose 0 7, close, work 0 yes", "T[1] read blank"),
    ("propose 0 7, work 0 yes, close, work 0 yes", "T[1] written 7"),
    ("close, work 0 yes", "refused 7"),
    ("propose 0 7, close, look 0", "D read blank"),
    ("propose 0 7, close, crash 0", "none"),
    ("propose 0 7, close, crash 0, close", "none"),
]


def closes_table():
    """Turns in a closed session, by the rules, beside the trace and the report's board line; each answers as it should."""
    rows, seats = [], 2
    for turns, said in CLOSED:
        data = sheet.sheet(seats, window(seats), [b"".join(sheet.entry(words.split()) for words in turns.split(", "))])
        play, lines = played_sheet(turns, data)
        _, turn, rule, register, *_, stance, _, _, reads, writes, contested = lines[-1]
        if len(lines) != turns.count(",") + 1 or register != said or play.session.head != "closed":
            sys.exit(f"paper cases: {turns}: the last one should be {said}, in a closed session, and is {lines[-1]}")
        check_report(turns, play, lines, data)
        rows.append([turns.rpartition(", ")[0], turn, rule, register, stance, reads, writes, contested])
    return table(["Before", "Turn", "Rule", "Read or written", "Then stands at", *COUNTED], rows)


# ---------------------------------------------------------------- short lists

# 02, wish 12: the turns that a list may have, "by kind, then seat, then value". "Seat s proposes only s + 1; closes are left out."
CHOICES = ["propose {0} {1}"], ["work {0} no", "work {0} yes"], ["look {0}"], ["crash {0}"]
SHORT_LENGTHS, SHORT_SEATS = range(7), {1: "one seat", 2: "two seats"}


def legal(n, turns):
    """Whether no turn is refused, from a fresh board with L at its least on."""
    play = Play(n, window(n))
    return not any(play.turn(words).startswith("refused") for words in turns)


@cache
def short_lists(n, length):
    """The legal lists of a length in their order: those with a turn less, each with every choice behind it that leaves it legal."""
    if length == 0:
        return [[]]
    choices = [words.format(seat, seat + 1) for kind in CHOICES for seat in range(n) for words in kind]
    longer = [[*turns, words] for turns in short_lists(n, length - 1) for words in choices]
    return [turns for turns in longer if legal(n, turns)]


def short_counts_table():
    """How many short lists there are."""
    rows = [[f"**{seats}**", *[f"{len(short_lists(n, length)):,}" for length in SHORT_LENGTHS]] for n, seats in SHORT_SEATS.items()]
    return table(["Turns in a list", *SHORT_LENGTHS], rows)


def short_lists_table(seats=2, length=2):
    """The short lists of a length, the last turn of each worked, beside the trace and the report."""
    rows = []
    for number, turns in enumerate(short_lists(seats, length), 1):
        data = sheet.sheet(seats, window(seats), [b"".join(sheet.entry(words.split()) for words in turns)])
        play, lines = played_sheet(f"short list {number}", data)
        check_report(f"short list {number}", play, lines, data)
        rows.append([number, *turns, *lines[-1][2:4], *[seat.stance() for seat in play.seats], *play.counts])
    stances = [f"Seat {seat} stands at" for seat in range(seats)]
    return table(["List", *[f"Turn {turn}" for turn in range(length)], "Rule", "Read or written", *stances, *COUNTED], rows)


# ---------------------------------------------------------------- the report

def status(seat):
    """A seat as the report tells it."""
    words = {"out": "out", "crashed": "crashed", "spent": f"spent {seat.own}", "decided": f"decided {seat.own}"}
    return words.get(seat.head, f"working {seat.round} {seat.own}")


def reported(play, lines):
    """The board report of what was played: the outcome, the counts, the board and the seats."""
    last = lines[-1][3] if lines else ""
    return [
        f"outcome {last} {len(lines) - 1}" if last.startswith("refused") else f"outcome finished {len(lines)}",
        " ".join(["tally", *map(str, play.counts)]),
        f"board {max(play.board['T'], default=0)} {play.board['D'].get(None, 0)} {play.session}",
        *[f"seat {number} {status(seat)}" for number, seat in enumerate(play.seats)],
    ]


def check_report(name, play, lines, data):
    """Fails unless the report is the separately written program's; its lines."""
    ours, theirs = reported(play, lines), printed("report", data)
    if ours != theirs:
        sys.exit(f"paper cases: {name}: by the rules the report is {ours}, and the separately written program's {theirs}")
    return ours


def report_block(name):
    """The report of a sample, as a block of code."""
    data = (EXAMPLES / f"{name}.sheet").read_bytes()
    return "".join(f"    {line}\n" for line in check_report(name, *played_sheet(name, data), data))


def check_reports():
    """Fails unless the report of every sample is the program's; how many there are."""
    return len([report_block(path.stem) for path in sorted(EXAMPLES.glob("*.sheet"))])


# ---------------------------------------------------------------- the scope document's own cases

# 01, "Paper cases": the starred ones that play turns, but for those at gate in round L and of a second proposal, which name no n and no
# L. For each n, L, the numbers proposed, seat 0's first, the hint, and the seats that work; and what the document says of it. The first
# of a pair is 01's, the second wish 8's, where that wish says it otherwise.
FIRST, SECOND = [0, 1, 0, 1, 0, 0, 1], [0, 0, 1, 1, 1]
OVER, COMMIT = {"stands at": "gate", "r": 1}, {"stands at": "commit", "D": "blank"}
SCOPE = [
    (1, 3, [7], "yes", [([0] * 3, OVER), ([0] * 3, OVER)]),
    (1, 3, [7], "yes", [([0] * 18, COMMIT), ([0] * 11, COMMIT)]),
    (1, 3, [7], "yes", [([0] * 19, {"D": 7, "reads": 15, "writes": 4}), ([0] * 12, {"D": 7, "reads": 9, "writes": 3})]),
    (1, 3, [7], "no", [([0] * 19, {"stands at": "gate", "r": 0, "reads": 0, "writes": 0, "contested": 0})] * 2),
    (2, 5, [3, 8], "yes", [(FIRST, {"T[1]": 8, "C[1]": "marked", "reads": 4, "writes": 3, "contested": 1})] * 2),
    (2, 5, [3, 8], "yes", [(FIRST + SECOND, {"T[2]": 3, "stands at": "compare 0", "r": 2, "own": 3, "reads": 8, "writes": 4})] * 2),
]


def facts(play, seat):
    """What may be said of a board and of the seat whose turn was the last."""
    said = dict(zip((count for count, _, _ in COUNTS), play.counts))
    said |= {"stands at": seat.stance(), "r": seat.round, "own": seat.own, "D": play.board["D"].get(None, "blank")}
    for r in range(1, play.limit + 1):
        said |= {f"T[{r}]": play.board["T"].get(r, "blank"), f"C[{r}]": shown(play.board["C"].get(r, False))}
    return said


def scope_row(n, limit, proposed, hint, seats, claims, width):
    """The table's line for one case at one window, and the last line of the page's form. What the document says of it must be found."""
    words = [f"propose {seat} {number}" for seat, number in enumerate(proposed)] + [f"work {seat} {hint}" for seat in seats]
    data = sheet.sheet(n, limit, [b"".join(sheet.entry(line.split()) for line in words)])
    play, rows = played_sheet(f"01, n = {n}, L = {limit}, W = {width}", data, width)
    if len(rows) != len(words):
        sys.exit(f"paper cases: 01, n = {n}, L = {limit}: {len(rows)} of {len(words)} turns are played")
    found = facts(play, play.seats[seats[-1]])
    for what, said in claims.items():
        if found[what] != said:
            sys.exit(f"paper cases: 01, n = {n}, L = {limit}, W = {width}: {what} should be {said} and is {found[what]}")
    who = f"{len(seats)} of seat 0" if n == 1 else ", ".join(map(str, seats))
    _, _, _, _, values, marks, decision, *seat_and_counts = rows[-1]
    return [n, limit, width, f"{who}; hint {hint}", values, marks, decision, *seat_and_counts]


def scope_table():
    """The scope document's cases at the window of then and of now. With the least L of now each is the same but for L."""
    rows = []
    for n, limit, proposed, hint, (before, now) in SCOPE:
        rows.append(scope_row(n, limit, proposed, hint, *before, window_before(n)))
        rows.append(scope_row(n, limit, proposed, hint, *now, window(n)))
        least = scope_row(n, window(n), proposed, hint, *now, window(n))
        if [least[0], limit, *least[2:]] != rows[-1]:
            sys.exit(f"paper cases: 01, n = {n}: with L = {window(n)} it is {least}, with L = {limit} {rows[-1]}")
    return table(["n", "L", "W", "Work turns", *CASE_HEAD[CASE_HEAD.index("T"):]], rows)


# ---------------------------------------------------------------- the polls


def played_poll(name):
    """A sample poll, played by the rules: the page's lines, and its text, which must be the separately written program's."""
    caller, n, operations = poll.listed((EXAMPLES / f"{name}.poll").read_text(encoding="utf-8"))
    play = Poll(caller, n)
    rows = [[index, *played(play, " ".join(words))[0]] for index, words in enumerate(operations if play.opened else [])]
    [expected] = poll_texts([poll.poll(caller, n, operations)])
    check_text(name, play, expected)
    return rows, "".join(f"{line}\n" for line in play.text())


def check_text(name, play, expected):
    """Fails unless the text is the separately written program's."""
    for ours, theirs in zip_longest(play.text(), expected):
        if ours != theirs:
            sys.exit(f"paper cases: {name}: the rules give {ours}, the separately written program {theirs}")


def poll_table(name):
    """A poll, played by the rules."""
    return table(CASE_HEAD, played_poll(name)[0])


# ---------------------------------------------------------------- the houses

# A walk through a ward or a poll is the turns at these places. Its first and last ones have a line each, those between share one.
WALKING, WALK_HEAD, WALK_TAIL = ("work", "look", "poll"), 4, 2


def house_line(play, words):
    """Plays a turn of a house: the worker's place before it, and the page's line without its number."""
    worker, used = play.of(words), len(play.used)
    place, register = worker.head if worker else "", play.turn(words)
    if register.startswith("refused"):
        return place, [words, "", register, "", "", "", "", *house_columns(play), *play.counts]
    rules = [", ".join(map(str, some)) for some in (play.used[used:], play.inner) if some]
    seat = play.seat_in(*re.match(r"(\w+)", register).groups(), worker).stance() if play.inner else ""
    return place, [words, "; ".join(rules), register, seat, worker.head, worker.round, worker.own, *house_columns(play), *play.counts]


def house_columns(play):
    """The table, row by row to the last one with an entry, and the house register."""
    held_rows = range(1, max((o for o, _ in play.board["V"]), default=0) + 1)
    rows = [" ".join(str(play.board["V"].get((o, w), NOTHING)) for w in range(1, play.c + 1)) for o in held_rows]
    return [" / ".join(rows) or NOTHING, play.board["H"].get(None, NOTHING)]


def folded(lines):
    """The numbered lines, each behind its worker's place, with the middle of each long walk as one line."""
    for walk, group in groupby(lines, lambda line: line[0] in WALKING and (line[0] == "poll", line[2].split()[1])):
        group = [line for _, *line in group]
        middle = group[WALK_HEAD:-WALK_TAIL] if walk else []
        if len(middle) > 1:
            first, last = middle[0], middle[-1]
            rules = " and ".join(sorted({line[2].split(";")[0] for line in middle}))
            between = [f"{first[0]} to {last[0]}", f"{first[1]}, {len(middle)} times", f"{rules}; ..", "..", *last[4:]]
            group[WALK_HEAD:-WALK_TAIL] = [between]
        yield from group


def played_house(name):
    """A sample house, played by the rules: the page's lines, and its text. After each turn it must be the separately written program's."""
    c, wards, operations = house.listed((EXAMPLES / f"{name}.house").read_text(encoding="utf-8"))
    play, lines = House(c, wards), []
    expected = house_texts([house.house(c, wards, operations[:count]) for count in range(len(operations) + 1)])
    for number, words in enumerate(operations if play.opened else []):
        check_text(f"{name}, before turn {number}", play, expected[number])
        place, line = house_line(play, " ".join(words))
        lines.append([place, number, *line])
    check_text(name, play, expected[-1])
    check_alone(name, play)
    return lines, "".join(f"{line}\n" for line in play.text())


def check_alone(name, play):
    """Fails unless the one seat of a ward takes the rules of the one seat alone, looks left out, as far as it comes."""
    looks = {outcome[0] for row in SESSION.rows["gate", "look"] for outcome in row.outcomes}
    solo, _ = played_sheet("solo", (EXAMPLES / "solo.sheet").read_bytes())
    alone = [rule for rule in solo.used if rule not in looks]
    for board in sum(play.wards, []):
        walked = [rule for rule in board.used if rule not in looks]
        if board.n == 1 and walked != alone[:len(walked)]:
            sys.exit(f"paper cases: {name}: the one seat of a ward takes the rules {walked}, the seat alone {alone}")


def house_table(name):
    """A house, played by the rules."""
    return table(HOUSE_HEAD, folded(played_house(name)[0]))


def wards_told(wards):
    """The workers' wards, in number order."""
    return f"{len(wards)} times {wards[0]}" if len(wards) > 4 and len(set(wards)) == 1 else " ".join(map(str, wards)) or "none"


# c, and the ward of each worker.
HOUSES_OPENED = [(1, []), (5, [1] * 65), (1, [1] * 64), (1, [1] * 17), (1, [1] * 16), (0, [1]), (5, [1, 2, 3, 4, 5]), (2, [0, 2])]
HOUSES_OPENED += [(2, [1, 3]), (2, [1, 1]), (2, [1, 2]), (4, [4, 3, 2, 1])]


def house_openings_table():
    """What a house's opening is refused with, and openings worked by that; each answer must be the program's, and each row is met."""
    rows, met = [], set()
    for c, wards in HOUSES_OPENED:
        opening, [[line, *_]] = HouseOpening(c, wards), house_texts([house.house(c, wards, [])])
        if line != f"house {c} {len(wards)} {opening.number}":
            sys.exit(f"paper cases: c {c}, wards {wards}: the rules give {opening.number}, the separately written program {line}")
        met.add(opening.place)
        rows.append([c, wards_told(wards), len(wards), f"refused with {opening.number}" if opening.number else "opened"])
    if len(met) != 1 + len(HOUSE_OPENING_REFUSALS):
        sys.exit(f"paper cases: of the refusals of a house's opening these alone are met: {met}")
    return table(["Refused with", "If"], HOUSE_OPENING_REFUSALS) + "\n" + table(["c", "The workers' wards", "n", "The house is"], rows)


# The workers' wards; turns, and the last of them; and what it answers, a refusal or its register operation.
BOTH = "propose 0 3, propose 1 8"
HOUSE_CASES = [
    ([1, 2], "", "propose 2 0", "refused 4"),
    ([1, 2], "", "propose 0 0", "refused 5"),
    ([1, 2], "propose 0 3", "propose 0 0", "refused 5"),
    ([1, 2], "propose 0 3", "propose 0 8", "refused 6"),
    ([1, 2], "", "turn 0 yes", "refused 7"),
    ([1, 2], "", "look 0", "refused 7"),
    ([1, 2], "", "crash 0", "refused 7"),
    ([1, 2], "propose 0 3", "turn 0 no", "ward 1: none"),
    ([1, 2], "propose 0 3, turn 0 yes", "turn 0 no", "ward 1: none"),
    ([1, 2], "propose 0 3, 30 times turn 0 yes", "look 0", "H read blank"),
    ([1, 2], "propose 0 3, 48 times turn 0 yes", "look 0", "H read 3"),
    ([1, 2], "propose 0 3, 48 times turn 0 yes, look 0", "turn 0 yes", "refused 8"),
    ([1, 2], "propose 0 3, 30 times turn 0 yes", "crash 0", "none"),
    ([1, 2], "propose 0 3, 30 times turn 0 yes, crash 0", "look 0", "refused 8"),
    ([1, 1], f"{BOTH}, 62 times turn 0 yes, 2 times turn 1 yes", "turn 1 yes", "ward 1: D read 3"),
    ([1, 1], f"{BOTH}, 62 times turn 0 yes, 3 times turn 1 yes", "turn 1 yes", "V[1, 1] written 3"),
    ([1], "propose 0 7, 327 times turn 0 yes", "turn 0 yes", "H written 7"),
    ([1], "propose 0 7, 328 times turn 0 yes", "turn 0 yes", "refused 9"),
    ([1, 1], f"{BOTH}, 2265 turns held back in the ward", "turn 1 yes", "ward 1: none"),
    ([1, 1], f"{BOTH}, 2266 turns held back in the ward", "turn 0 yes", "refused 9"),
    ([1, 1], f"{BOTH}, 2266 turns held back in the ward", "look 0", "H read blank"),
    ([1, 1], f"{BOTH}, 2266 turns held back in the ward", "crash 0", "none"),
    ([1, 2], f"{BOTH}, 711 turns held back in the poll", "turn 1 yes", "V[8, 2] read 8"),
    ([1, 2], "reads 4294967295", "turn 2 yes", "refused 4"),
    ([1, 2], "reads 4294967295", "turn 0 yes", "refused 7"),
    ([1, 2], "propose 0 3, reads 4294967295", "turn 0 yes", "refused 16"),
    ([1, 2], "propose 0 3, reads 4294967295", "look 0", "refused 16"),
    ([1, 2], "propose 0 3, reads 4294967295", "crash 0", "none"),
]


def turns_told(play, words):
    """The turns that the words of a short case stand for, each in the house as those before it leave it."""
    for part in filter(None, words.split(", ")):
        if found := re.fullmatch(r"(\d+) times (.+)", part):
            yield from [found[2]] * int(found[1])
        elif found := re.fullmatch(r"(\d+) turns held back in the (ward|poll)", part):
            yield from islice(held(play, found[2]), int(found[1]))
        else:
            yield re.sub("^reads", f"set {COUNT_KINDS[0]} 0", part)


def short_house(wards, before):
    """A house after these turns, and the turns."""
    play, turns = House(max(wards), wards), []
    for words in turns_told(play, before):
        play.turn(words)
        turns.append(words)
    return play, turns


def check_short(play, wards, turns):
    """Fails unless what becomes of a short case is the separately written program's."""
    [text] = house_texts([house.house(play.c, wards, [words.split() for words in turns])])
    check_text(f"wards {wards_told(wards)}, {len(turns)} turns to {turns[-1]}", play, text)


def house_cases_table():
    """Short cases of houses, by the rules; the last turn of each answers as it should."""
    rows = []
    for wards, before, words, said in HOUSE_CASES:
        play, turns = short_house(wards, before)
        _, (_, rule, register, _, *stands, _, _, reads, writes, contested) = house_line(play, words)
        if register != said:
            sys.exit(f"paper cases: wards {wards_told(wards)}, {before}: {words} should be {said}, and is {register}")
        check_short(play, wards, [*turns, words])
        rows.append([wards_told(wards), before, words, rule, register, *stands, reads, writes, contested])
    return table(["Wards", "Before", "Turn", "Rule", "Read or written", "Then stands at", "o", "Value", *COUNTED], rows)


# The workers' wards, and the one of them that is alone.
HOUSES_ALONE = [([1], 0), ([1, 2], 0), ([1, 1], 0), ([1, 1, 2], 0), ([1, 2, 3, 4], 3), ([1] * 16, 15)]


def house_alone_table():
    """One worker alone, to its first house write and its house look."""
    rows = []
    for wards, alone in HOUSES_ALONE:
        play, turns = short_house(wards, f"propose {alone} 7")
        places = Counter()
        while not play.board["H"]:
            places[play.seats[alone].head] += 1
            turns.append(f"turn {alone} yes")
            play.turn(turns[-1])
        turns.append(f"look {alone}")
        play.turn(turns[-1])
        check_short(play, wards, turns)
        boards = [board.window for board in (play.wards[0][0], play.polls[0])]
        rows.append([wards_told(wards), alone, *boards, places.total(), *[places[place] for place in WALKING], *play.counts])
    walks = ["Of them at work", "At look", "At poll"]
    return table(["Wards", "Worker", "Ward's W", "Poll's W", "Turns to the house write", *walks, *COUNTED], rows)


def text_outs():
    """The text of each sample poll and house, and the file that it stands in."""
    kinds = {"poll": played_poll, "house": played_house}
    return {path.with_suffix(".out"): play(path.stem)[1] for kind, play in kinds.items() for path in sorted(EXAMPLES.glob(f"*.{kind}"))}


def form_table():
    """The blank form."""
    return table(CASE_HEAD, [[""] * len(CASE_HEAD)] * FORM_ROWS)


def made(name):
    """The table of that name."""
    kind, *case = name.split()
    return TABLES[kind](*case)


# The tables, in the order in which one works; the picture stands where WALK does.
TABLES = {
    "windows": windows_table,
    "rules": rules_table,
    "refusals": refusals_table,
    "turns": turns_table,
    "counts": counts_table,
    "form": form_table,
    "case": case_table,
    "closes": closes_table,
    "scope": scope_table,
    "short-counts": short_counts_table,
    "short-lists": short_lists_table,
    "poll-rules": poll_rules_table,
    "poll-refusals": lambda: refusals_table(POLL),
    "poll": poll_table,
    "house-openings": house_openings_table,
    "house-rules": lambda: rules_table(HOUSE),
    "house-refusals": lambda: refusals_table(HOUSE),
    "house": house_table,
    "house-cases": house_cases_table,
    "house-alone": house_alone_table,
    "opening-refusals": opening_refusals_table,
    "openings": openings_table,
    "turns-alone": None,
    "report": report_block,
}
# What another program writes.
ELSEWHERE = {name for name, make in TABLES.items() if make is None}
WALK = "](walk.svg)"


def check_order(page):
    """Fails unless the page has each table, and the picture behind the rules, in the order in which one works; the tables' kinds."""
    kinds = [name.split()[0] for _, name, _, _ in MARKED.findall(page)]
    found = list(dict.fromkeys(kinds))
    if found != list(TABLES):
        sys.exit(f"paper cases: the page has {', '.join(found)}, and should have {', '.join(TABLES)}")
    if not page.index("<!-- rules -->") < page.index(WALK) < page.index("<!-- refusals -->"):
        sys.exit("paper cases: the picture does not stand between the rules and the refusals")
    return kinds


# ---------------------------------------------------------------- the picture

# The rules of a seat's walk: all but the close, which moves no seat.
WALKED = [row for row in RULES if row[1] != CLOSE]


def box(words):
    """The box of a stance with its number."""
    return next((stance for stance in STANCES if stance.split()[0] == words.split()[0]), words)


def ruled_arrows():
    """From, to and words of each arrow that the rules ask for."""
    for at, turn, when, _, outcomes in WALKED:
        for found, then in outcomes:
            stance = then.split(";")[0]
            to = at if stance == "as before" else box(stance)
            asked = [turn * (turn != "work"), when * (when != "otherwise"), found]
            words = ", ".join(filter(None, asked))
            yield at, to, ": ".join(filter(None, [words, stance * (stance not in (to, "as before"))]))


def ruled_boxes():
    """Stance and words of each box: its name, and what is done there."""
    ats = dict.fromkeys([*STANCES, *(row[0] for row in WALKED)])
    for at in ats:
        done = {turn: does for row_at, turn, _, does, _ in WALKED if row_at == at and (does or turn != "work")}
        words = "; ".join(f"{turn}: {does or 'nothing'}" for turn, does in done.items() if turn != "propose")
        yield at, f"{at} {words.removeprefix('work: ')}".strip()


def drawn(*names):
    """The attributes of those names, and the words, of each element of the picture that has them."""
    for element in xml.etree.ElementTree.parse(PICTURE).iter():
        if names[0] in element.attrib:
            words = " ".join(" ".join(element.itertext()).split())
            yield *[element.attrib[name] for name in names], words


def check_picture():
    """Fails if the picture's boxes and arrows are not those of the rules, or if it does not fit on A4; how many arrows there are."""
    sizes = [xml.etree.ElementTree.parse(PICTURE).getroot().get(side, "") for side in ("width", "height")]
    for size, most in zip(sizes, (PICTURE_WIDTH, PICTURE_HEIGHT)):
        if not size.endswith("mm") or float(size.removesuffix("mm")) > most:
            sys.exit(f"paper cases: docs/walk.svg is {' by '.join(sizes)}; {PICTURE_WIDTH}mm by {PICTURE_HEIGHT}mm fit on an A4 page")
    ruled = [*ruled_boxes(), *ruled_arrows()]
    seen = [*drawn("data-stance"), *drawn("data-from", "data-to")]
    for one in ruled + seen:
        if ruled.count(one) != seen.count(one):
            sys.exit(f"paper cases: {seen.count(one)} times on docs/walk.svg, {ruled.count(one)} times in the rules: {one}")
    return sum(len(one) == 3 for one in seen)


def main():
    words = sys.argv[1:]
    if words in (["--help"], ["-h"]):
        print(__doc__.strip())
        return
    if words not in (["check"], ["write"]):
        sys.exit(f"paper_cases.py: {' '.join(words) or 'nothing'}: check or write is wanted; try --help")
    page = PAGE.read_text(encoding="utf-8")
    kinds = check_order(page)
    new = MARKED.sub(lambda m: m[0] if m[2] in ELSEWHERE else m[1] + "\n" + made(m[2]) + "\n" + m[4], page)
    texts = {PAGE: new, **text_outs()}
    if words == ["write"]:
        for path, text in texts.items():
            path.write_text(text, encoding="utf-8")
    for path, text in texts.items():
        if not path.exists() or path.read_text(encoding="utf-8") != text:
            sys.exit(f"paper cases: {path.relative_to(ROOT)} differs from the rules or the trace; `tests/paper_cases.py write` writes it anew")
    for random in f"{LISTS:,} random lists", f"{POLLS:,} random polls", f"{HOUSES:,} random houses":
        if random not in page:
            sys.exit(f"paper cases: the page does not speak of {random}")
    cases, polls, houses, reports, others = *map(kinds.count, ("case", "poll", "house", "report")), sum(map(kinds.count, ELSEWHERE))
    short, tables = len(HOUSE_CASES) + len(HOUSES_ALONE), len(kinds) - cases - polls - houses - reports - others
    print(f"paper cases: {cases} cases and {len(CLOSED)} turns in closed sessions are the trace's, {polls} of a poll, {houses} of a house, "
          f"{short} short ones of houses, {len(texts) - 1} texts of polls and houses and {check_reports()} reports the program's, {tables} tables "
          f"and {check_picture()} arrows the rules'; document 01 says so of {len(SCOPE)} cases")


if __name__ == "__main__":
    main()
