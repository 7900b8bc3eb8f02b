"""The rules of docs/PAPER-CASES.md, each written once.

paper_cases.py makes the page's tables of these rows and holds the picture docs/walk.svg to them; paper_lists.py plays random
lists, polls and houses by them, in these very words (paper_play.py knows what each word does), beside the separately written program.

In the rows r is the seat's round, k or i the number that stands with its stance, n the number of seats, L the round limit, W
the window and p the number of a sheet's pairs.
"""

STANCES = [
    "out",
    "gate",
    "put",
    "seek k",
    "take k",
    "compare i",
    "flag i",
    "check-mark i",
    "check-value i",
    "commit",
    "spent",
    "crashed",
    "decided",
]

# What a session is: open at first (02, wish 10: "The session gains a closed mark, open at first").
SESSION_STANCES = ["open", "closed"]

# The one turn that no seat takes: it is told to the session.
CLOSE = "close"

# The stances at which a seat is working.
WORKING = STANCES[STANCES.index("gate"):STANCES.index("commit") + 1]

# No stances: rows that are followed in the same turn.
FOLLOWED = ["go on", "next round"]

# Stands at, turn, if, does, and for each thing that may be found: what the seat then stands at. Of the rows for a stance and a
# turn the first one that fits is taken, and of what is found the first one that fits. "go on" is no stance: it is followed in
# the same turn. "already" is said of a number before anything is done, "now" of one after it. The last row is of no seat: it says what
# the session is after a close.
RULES = [
    ("out", "propose", "", "", [("", "gate; the number proposed becomes the own value")]),
    ("gate", "work", "r is already L", "", [("", "spent")]),
    ("gate", "work", "r is below L, hint no", "", [("", "gate")]),
    (
        "gate",
        "work",
        "otherwise",
        "add 1 to r; read T[r]",
        [("blank", "put"), ("filled, r is now L", "take L"), ("filled, r is now below L", "seek r + 1")],
    ),
    ("put", "work", "", "write the own value to T[r]", [("", "compare 0")]),
    (
        "seek k",
        "work",
        "",
        "read T[k]",
        [("blank", "take k − 1"), ("filled, k is L", "take L"), ("filled, k is below L", "seek k + 1")],
    ),
    ("take k", "work", "", "read T[k]; it becomes the own value; r becomes k", [("", "compare 0")]),
    ("compare i", "work", "", "read T[r − i]", [("the own value", "go on"), ("another value", "flag i")]),
    ("flag i", "work", "", "mark C[r − i]", [("", "go on")]),
    (
        "go on",
        "work",
        "",
        "",
        [
            ("i + 1 is below r and i + 1 is below W", "compare i + 1"),
            ("otherwise, r is W or more", "check-mark 0"),
            ("otherwise, r is below W", "gate"),
        ],
    ),
    ("check-mark i", "work", "", "read C[r − i]", [("marked", "gate"), ("unmarked", "check-value i")]),
    (
        "check-value i",
        "work",
        "",
        "read T[r − i]",
        [
            ("another value", "gate"),
            ("the own value, i + 1 is below W", "check-mark i + 1"),
            ("the own value, i + 1 is W", "commit"),
        ],
    ),
    ("commit", "work", "", "write the own value to D", [("", "gate")]),
    (
        "any working stance, spent",
        "look",
        "",
        "read D",
        [("blank", "as before"), ("filled", "decided; it becomes the own value")],
    ),
    ("any working stance, spent", "crash", "", "", [("", "crashed")]),
    # "A close sets it, also where it is set already"
    ("the session", CLOSE, "", "", [("", "closed")]),
]

# Number, turns, if: tried from top to bottom, before the rules.
REFUSALS = [
    (4, "propose, work, look, crash", "the seat's number is n or more"),
    (5, "propose", "the number proposed is 0"),
    (6, "propose", "the seat is not out"),
    (18, "propose", "the session is closed"),
    (7, "work, look, crash", "the seat is out"),
    (8, "work, look, crash", "the seat is crashed"),
    (8, "work, look, crash", "the seat is decided"),
    (9, "work", "the seat is spent"),
]

# Count, what makes it grow by 1, a remark.
COUNTS = [
    ("reads", "read", "of T, C or D, at work or in a look"),
    ("writes", "write or mark", "to T, C or D, also where the round was marked before"),
    ("contested", "mark of an unmarked round", "so it is the number of marked rounds"),
]

# 02, wish 9: "A cart runs the same library with at most 16 seats and 64 rounds; the server stays at 64 and 256."
LIMITS = {"server": (64, 256), "cart": (16, 64)}
MOST_SEATS, MOST_ROUNDS = LIMITS["server"]

# Number, what is opened, if: tried from top to bottom, before there is a board. The most seats and the most rounds are those of who
# opens. A poll has no L of its own. A sheet is opened by reading it, and length is that of its bytes: of 10 here is what a short one
# meets, and 11 and 12, of pairs and runs, come behind 2.
OPENING_REFUSALS = [
    (10, "sheet", "p is above 16"),
    (10, "sheet", "length is below 4 + 4p"),
    (1, "session, poll, sheet", "n is 0"),
    (1, "session, poll, sheet", "n is above the most seats"),
    (2, "session, sheet", "L is below W"),
    (2, "session, sheet", "L is above the most rounds"),
]

# 02, wish 8.
WINDOW = "the smallest whole number that, multiplied by itself, gives 4 times n or more"


def window(n):
    """W for n seats, as WINDOW says it."""
    return next(number for number in range(4 * n + 1) if number * number >= 4 * n)


def window_before(n):
    """01, before that wish: "2 times (the root of n, rounded up to a whole number) + 1"."""
    return 2 * next(root for root in range(n + 1) if root * root >= n) + 1


# ---------------------------------------------------------------- polls

# A poll is played by the rules above, with L = W. The lines of its list, and which of the turns above each is: there are no looks and
# no closes, and no turn has a hint, so that none has hint no.
POLL_TURNS = {"propose": "propose", "turn": "work", "crash": "crash"}

# Where a seat stands that has its answer: that word, with the own value.
ANSWERS = ["committed", "adopted"]

# The two differences: at these stances, what is done (None: as above), and the answer that the seat gets where it would go back to gate.
POLL_DIFFERENCES = [
    ("check-mark i, check-value i", None, "adopted"),
    ("commit", "", "committed"),
]


def poll_rule(rule):
    """A rule as it is in a poll."""
    at, turn, when, does, outcomes = rule
    for stances, done, answer in POLL_DIFFERENCES:
        if at in stances.split(", "):
            does = does if done is None else done
            outcomes = [(found, answer if then == "gate" else then) for found, then in outcomes]
    return at, turn, when, does, outcomes


def poll_refusals():
    """The refusals of a poll. An answered seat is refused as a decided one is; no seat of a poll is decided, none is spent, and no poll
    is closed."""
    for number, turns, met in REFUSALS:
        if met == "the seat is decided":
            yield from ((number, turns, f"the seat is {answer}") for answer in ANSWERS)
        elif met not in ("the seat is spent", "the session is closed"):
            yield number, turns, met


POLL_STANCES = STANCES + ANSWERS
POLL_RULES = [poll_rule(rule) for rule in RULES]
POLL_REFUSALS = list(poll_refusals())

# The outcomes, as the page numbers them, that no turn of a poll has: no seat is at gate in round L, no turn has hint no, and there are
# no looks and no closes.
NEVER_IN_POLLS = [2, 3, 24, 25, 27]

# ---------------------------------------------------------------- houses

# 02, wish 11: "c at most 4, at most 16 workers"; "for each outer round, 1 to 8, one session for each ward and one poll"; "64 rounds".
MOST_WARDS, MOST_WORKERS, OUTER_ROUNDS, WARD_ROUNDS = 4, 16, 8, 64

# Where a worker is working: what its next turn does.
PLACES = ["propose-ward", "work", "look", "write-table", "propose-poll", "poll", "read-table", "write-house"]
WORKER_STANCES = ["out", *PLACES, "spent", "crashed", "decided"]

# Rows as those of a session, for a worker. o is its outer round, w its ward, a the ward that the poll answers it, V the value table and H
# the house register. The ward and the poll are the boards of its outer round, played by the rules of a session and of a poll, and the ward
# seat is its seat there; the decision is the number that a decided ward seat holds. A look is a house look.
HOUSE_RULES = [
    ("out", "propose", "", "", [("", "propose-ward; the number proposed becomes the value")]),
    # "A worker proposes its value to its ward's session": "the first turn of an outer round only proposes to the ward"
    ("propose-ward", "turn", "", "propose the value to the ward", [("", "work")]),
    # "In a ward session a worker's turns alternate, work first, then a look at the ward's D"; it "works and looks until decided"; it
    # "becomes spent in the turn that .. makes its ward seat spent"
    ("work", "turn", "", "work in the ward, with the hint", [("the ward seat is now spent", "spent"), ("otherwise", "look")]),
    ("look", "turn", "", "look at the ward's D", [("the ward seat is now decided", "write-table"), ("otherwise", "work")]),
    ("write-table", "turn", "", "write the decision to V[o, w]", [("", "propose-poll")]),
    # It "polls with its ward number": "the turn after the table write only proposes to the poll"
    ("propose-poll", "turn", "", "propose w to the poll", [("", "poll")]),
    ("poll", "turn", "", "take a turn in the poll", [("it answers", "read-table"), ("otherwise", "poll")]),
    # It "reads the table at the answer's ward and takes that value"; "a blank table entry leaves the value"
    (
        "read-table",
        "turn",
        "",
        "read V[o, a]; if filled, it becomes the value",
        [("the answer is committed", "write-house"), ("the answer is adopted", "next round")],
    ),
    # "Committed, it then writes the house's own decision register; either way the next outer round follows"
    ("write-house", "turn", "", "write the value to H", [("", "next round")]),
    # It "becomes spent in the turn that ends outer round 8"
    ("next round", "turn", "", "", [("o is 8", "spent"), ("otherwise", "propose-ward; add 1 to o")]),
    # "A house look at the house register, taken instead of a turn by a working or spent worker, ends it as decided if filled"
    ("any working place, spent", "look", "", "read H", [("blank", "as before"), ("filled", "decided; it becomes the value")]),
    ("any working place, spent", "crash", "", "", [("", "crashed")]),
]


def house_refusals():
    """The refusals of a house: "Seat refusals 4 to 9 and 16 keep their order". A house is not closed."""
    for number, turns, met in REFUSALS:
        if met != "the session is closed":
            yield number, turns.replace("work", "turn"), met.replace("seat", "worker")
    yield 16, "turn, look", "a count is already 4,294,967,295"


HOUSE_REFUSALS = list(house_refusals())

# Number, if: "c not 1 to 4, over 16 workers, a worker's ward not 1 to c, or an empty ward; at opening, after 1 by the server's limits".
HOUSE_OPENING_REFUSALS = [
    (1, "n is 0"),
    (1, f"n is above {MOST_SEATS}"),
    (19, "c is 0"),
    (19, f"c is above {MOST_WARDS}"),
    (19, f"n is above {MOST_WORKERS}"),
    (19, "a worker's ward is 0"),
    (19, "a worker's ward is above c"),
    (19, "a ward has no worker"),
]
