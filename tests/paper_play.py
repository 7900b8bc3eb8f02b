"""Plays a list of turns, a poll or a house by the rows of paper_rules.py.

Nothing of the board's rules stands here: only what each word of a row does. A row with other words is an error when this is
loaded. Lines come out as the separately written program traces them (reference/src/trace.rs); those of a poll and of a house are the
text that the programs test_poll and test_house write.
"""
import re

from paper_rules import ANSWERS, CLOSE, COUNTS, FOLLOWED, HOUSE_OPENING_REFUSALS, HOUSE_REFUSALS, HOUSE_RULES, LIMITS, MOST_WARDS
from paper_rules import OPENING_REFUSALS, OUTER_ROUNDS, PLACES, POLL_REFUSALS, POLL_RULES, POLL_STANCES, POLL_TURNS, REFUSALS, RULES
from paper_rules import SESSION_STANCES, STANCES, WARD_ROUNDS, WORKER_STANCES, WORKING, window

# V and H are a house's.
BLANK = {"T": 0, "C": False, "D": 0, "V": 0, "H": 0}
FULL = 4_294_967_295
# How the texts write a hint, and the kinds of a house's operations that set a count.
HINTS, COUNT_KINDS = {"no": 0, "yes": 1}, [146, 147, 148]


class Seat:
    """A seat's record: the stance's word, the number with it, the round, the own value."""

    def __init__(self):
        self.head, self.place, self.round, self.own = "out", None, 0, 0

    def stance(self):
        """The stance with its number."""
        return self.head if self.place is None else f"{self.head} {self.place}"

    def __str__(self):
        return f"{self.stance()} round {self.round} value {self.own}"


class Session(Seat):
    """What the session as a whole is. It has no number, no round and no value."""

    def __init__(self):
        self.head, self.place, self.round, self.own = SESSION_STANCES[0], None, "", ""

    def __str__(self):
        return self.head


class Worker(Seat):
    """A worker's record: its round is the outer round, its own value the value. Its number, its ward and its seat there stay."""

    def __init__(self, number, ward, seat):
        self.head, self.place, self.round, self.own = "out", None, 1, 0
        self.number, self.ward, self.seat = number, ward, seat


class Turn:
    """One turn while it is played: who stands otherwise after it, a seat, a worker or, with a close, the session; the numbers that a row's
    words name; and the register operation made."""

    def __init__(self, play, words):
        word, *rest = words.split()
        self.kind, self.play, self.seat = play.rules.kinds[word], play, play.of(words)
        self.rest = rest[1:]
        self.number = int(self.rest[0]) if self.kind == "propose" else None
        self.found, self.register, self.made = None, "none", []
        self.names = {"the number proposed": self.number, **play.named(self.seat)}
        for one in "seat", "worker":
            self.names[f"the {one}'s number"] = int(rest[0]) if rest else None


# ---------------------------------------------------------------- words that name a number

NAMES = ["n", "L", "W", "r", "k", "i", "the seat's number", "the number proposed"]
# Of an opening alone.
NAMES += ["the most seats", "the most rounds", "p", "4p", "length"]
# Of a house alone.
NAMES += ["c", "o", "w", "a", "the worker's number"]


def value(words):
    """What gives the number of `A`, `A + B` or `A − B` in a turn."""
    first, sign, last = re.fullmatch(r"(.+?)(?: ([+−]) (\w+))?", words).groups()
    if not sign:
        return term(first)
    first, last = term(first), term(last)
    if sign == "+":
        return lambda turn: first(turn) + last(turn)
    return lambda turn: first(turn) - last(turn)


def term(word):
    """What gives the number of a digit, or the one that the word names."""
    if word.isdigit():
        return lambda turn: int(word)
    if word not in NAMES:
        raise ValueError(f"paper_rules.py: nobody knows this number: {word}")
    return lambda turn: turn.names[word]


# ---------------------------------------------------------------- words that ask

ASKED = {
    "": lambda turn: True,
    "otherwise": lambda turn: True,
    "hint no": lambda turn: turn.rest == ["no"],
    "blank": lambda turn: turn.found == 0,
    "filled": lambda turn: turn.found != 0,
    "marked": lambda turn: turn.found,
    "unmarked": lambda turn: not turn.found,
    "the own value": lambda turn: turn.found == turn.seat.own,
    "another value": lambda turn: turn.found != turn.seat.own,
    # of a house
    "it answers": lambda turn: turn.play.seat_in("poll", turn.seat).head in ANSWERS,
    "a count is already 4,294,967,295": lambda turn: FULL in turn.play.counts,
    "a worker's ward is 0": lambda opening: 0 in opening.wards,
    "a worker's ward is above c": lambda opening: max(opening.wards) > opening.names["c"],
    "a ward has no worker": lambda opening: not set(range(1, opening.names["c"] + 1)) <= set(opening.wards),
}
COMPARED = [
    (r"the session is (\w+)", lambda head: lambda turn: turn.play.session.head == head),
    (r"the (?:seat|worker) is not (\w+)", lambda head: lambda turn: turn.seat.head != head),
    (r"the (?:seat|worker) is (\w+)", lambda head: lambda turn: turn.seat.head == head),
    (r"the ward seat is (\w+)", lambda head: lambda turn: turn.play.seat_in("ward", turn.seat).head == head),
    (r"the answer is (\w+)", lambda head: lambda turn: turn.play.seat_in("poll", turn.seat).head == head),
    (r"(.+) is below (.+)", lambda a, b: lambda turn, a=value(a), b=value(b): a(turn) < b(turn)),
    (r"(.+) is above (.+)", lambda a, b: lambda turn, a=value(a), b=value(b): a(turn) > b(turn)),
    (r"(.+) is (.+) or more", lambda a, b: lambda turn, a=value(a), b=value(b): a(turn) >= b(turn)),
    (r"(.+) is (.+)", lambda a, b: lambda turn, a=value(a), b=value(b): a(turn) == b(turn)),
]


def matched(words, patterns):
    """What the first pattern that fits the words makes of them."""
    for pattern, make in patterns:
        found = re.fullmatch(pattern, words)
        if found:
            return make(*found.groups())
    raise ValueError(f"paper_rules.py: nobody knows what this does: {words}")


def condition(words):
    """What tells of a turn whether the words hold."""
    asked = [ASKED.get(part) or matched(re.sub(" is (already|now) ", " is ", part), COMPARED) for part in re.split(", | and ", words)]
    if len(asked) == 1:
        return asked[0]
    return lambda turn: all(holds(turn) for holds in asked)


# ---------------------------------------------------------------- words that do

def shown(held):
    """A register's content as the trace has it."""
    if isinstance(held, bool):
        return "marked" if held else "unmarked"
    return str(held or "blank")


def read(turn, row, at):
    """Reads a register."""
    turn.found = turn.play.board[row].get(at, BLANK[row])
    return f"read {shown(turn.found)}", ["read"]


WRITTEN = {
    "own value": lambda turn: turn.seat.own,
    "value": lambda turn: turn.seat.own,
    "decision": lambda turn: turn.play.seat_in("ward", turn.seat).own,
}


def write(what):
    """What writes a number to a register."""
    def use(turn, row, at):
        turn.play.board[row][at] = number = WRITTEN[what](turn)
        return f"written {number}", ["write"]
    return use


def mark(turn, row, at):
    """Marks a register."""
    first = not turn.play.board[row].get(at)
    turn.play.board[row][at] = True
    return "marked", ["mark", "mark of an unmarked round"] if first else ["mark"]


def register(use, row, place):
    """For words that end in a register, T[..], C[..], D, V[.., ..] or H: what uses it, and tells so."""
    parts = [value(part) for part in place[1:-1].split(", ")] if place else []

    def act(turn):
        at = tuple(part(turn) for part in parts)
        told, turn.made = use(turn, row, at if len(at) > 1 else at[0] if at else None)
        turn.register = f"{row}{[*at] if at else ''} {told}"
    return act


def on_board(which, words):
    """What takes a turn of the worker's seat in the ward or in the poll, and tells so; that turn is none that is refused."""
    def act(turn):
        board, name = turn.play.board_of(which, turn.seat)
        used, made = len(board.used), len(board.made)
        told = board.turn(words.format(**turn.names, value=turn.seat.own, hint=" ".join(turn.rest)))
        if told.startswith("refused"):
            raise ValueError(f"paper_rules.py: in a house, {name}: {words} is {told}")
        turn.register, turn.made, turn.play.inner = f"{name}: {told}", board.made[made:], board.used[used:]
    return act


def own(turn, number):
    """The own value becomes a number."""
    turn.seat.own = number


def round_becomes(name, number):
    """The round, r of a seat and o of a worker, becomes a number."""
    def act(turn, number=value(number)):
        turn.seat.round = turn.names[name] = number(turn)
    return act


DONE = [
    (r"read ([TCDVH])(\[.+\])?", lambda row, place: register(read, row, place)),
    (r"write the (own value|value|decision) to ([TDVH])(\[.+\])?", lambda what, row, place: register(write(what), row, place)),
    (r"mark (C)(\[.+\])", lambda row, place: register(mark, row, place)),
    (r"add 1 to ([ro])", lambda name: round_becomes(name, f"{name} + 1")),
    (r"(r) becomes (.+)", round_becomes),
    (r"it becomes the (?:own )?value", lambda: lambda turn: own(turn, turn.found)),
    (r"if filled, it becomes the value", lambda: lambda turn: own(turn, turn.found or turn.seat.own)),
    (r"the number proposed becomes the (?:own )?value", lambda: lambda turn: own(turn, turn.number)),
    (r"propose the value to the ward", lambda: on_board("ward", "propose {s} {value}")),
    (r"work in the ward, with the hint", lambda: on_board("ward", "work {s} {hint}")),
    (r"look at the ward's D", lambda: on_board("ward", "look {s}")),
    (r"propose w to the poll", lambda: on_board("poll", "propose {p} {w}")),
    (r"take a turn in the poll", lambda: on_board("poll", "turn {p}")),
]


def actions(words):
    """What carries out all that the words say."""
    return [matched(part, DONE) for part in words.split("; ") if part]


def stands(words, rules):
    """What moves a seat, a worker or the session to the stance that the words name; `go on` is followed, `as before` moves nothing."""
    if words == "as before":
        return lambda turn: None
    if words in FOLLOWED:
        return lambda turn: rules.rows[words, turn.kind][0].follow(turn)
    head, *number = words.split(" ", 1)
    assert head in rules.heads + SESSION_STANCES, words
    place = value(number[0]) if number else lambda turn: None

    def act(turn):
        turn.seat.head, turn.seat.place = head, place(turn)
    return act


# ---------------------------------------------------------------- words that count

# What a turn may have made. A mark of an unmarked round is a mark as well.
MADE = ["read", "write", "mark", "mark of an unmarked round"]


def counted(words):
    """What a count grows with."""
    made = words.split(" or ")
    if not set(made) <= set(MADE):
        raise ValueError(f"paper_rules.py: no turn makes this: {words}")
    return made


# ---------------------------------------------------------------- rows

class Row:
    """One row of the rules, ready to play; its outcomes are numbered on through the table."""

    def __init__(self, first, row, rules):
        _, _, when, does, outcomes = row
        if " now " in when or any(" already " in found for found, _ in outcomes):
            raise ValueError(f"paper_rules.py: `already` is said before anything is done, `now` after it: {row}")
        self.fits, self.does, self.outcomes = condition(when), actions(does), []
        for number, (found, then) in enumerate(outcomes, first):
            stance, _, rest = then.partition("; ")
            self.outcomes.append((number, condition(found), stands(stance, rules), actions(rest)))

    def follow(self, turn):
        """Does what the row says, then what its first fitting outcome says."""
        for act in self.does:
            act(turn)
        number, _, move, rest = next(outcome for outcome in self.outcomes if outcome[1](turn))
        turn.play.used.append(number)
        for act in rest:
            act(turn)
        move(turn)


class Rules:
    """The rules of a session, of a poll or of a house, ready to play; their outcomes are numbered from `first` on."""

    def __init__(self, stances, rules, refusals, kinds=None, first=1):
        self.rules, self.refusals, self.first = rules, refusals, first
        self.heads = [stance.split()[0] for stance in stances]
        self.kinds = kinds or {turn: turn for _, turn, _, _, _ in rules}
        self.rows = {}
        for first, row in self.numbered():
            made = Row(first, row, self)
            for head in self.heads_of(row[0]):
                self.rows.setdefault((head, row[1]), []).append(made)
        self.refused = {
            kind: [(place, row[0], condition(row[2])) for place, row in enumerate(refusals) if kind in row[1].split(", ")]
            for kind in self.kinds.values()
        }

    def numbered(self):
        """Each row with the number of its first outcome."""
        first = self.first
        for row in self.rules:
            yield first, row
            first += len(row[4])

    def numbers(self):
        """The numbers of all outcomes."""
        return range(self.first, self.first + sum(len(row[4]) for row in self.rules))

    def heads_of(self, at):
        """The stances that a row is for."""
        for part in at.split(", "):
            if part == "any working stance":
                yield from (stance.split()[0] for stance in WORKING)
            elif part == "any working place":
                yield from PLACES
            elif part == "the session":
                yield from SESSION_STANCES
            elif part in FOLLOWED:
                yield part
            else:
                yield self.heads[self.heads.index(part.split()[0])]

    def turns(self, kinds):
        """Those of the turns that a list of these rules has."""
        return ", ".join(kind for kind in self.kinds.values() if kind in kinds.split(", "))


SESSION = Rules(STANCES, RULES, REFUSALS)
POLL = Rules(POLL_STANCES, POLL_RULES, POLL_REFUSALS, POLL_TURNS)
HOUSE = Rules(WORKER_STANCES, HOUSE_RULES, HOUSE_REFUSALS, first=SESSION.numbers().stop)
COUNTED = [counted(made) for _, made, _ in COUNTS]
OPENINGS = [(place, number, kinds.split(", "), condition(met)) for place, (number, kinds, met) in enumerate(OPENING_REFUSALS)]
HOUSE_OPENINGS = [(place, number, condition(met)) for place, (number, met) in enumerate(HOUSE_OPENING_REFUSALS)]


class Opening:
    """What a caller opens: the numbers that a row's words name; the place of the row that refuses it, or None, and its number, or 0."""

    def __init__(self, caller, kind, n, limit=0, pairs=0, length=0):
        seats, rounds = LIMITS[caller]
        self.names = {"n": n, "L": limit, "W": window(n), "p": pairs, "4p": 4 * pairs, "length": length}
        self.names |= {"the most seats": seats, "the most rounds": rounds}
        refusals = ((place, number) for place, number, kinds, met in OPENINGS if kind in kinds and met(self))
        self.place, self.number = next(refusals, (None, 0))

    @classmethod
    def of_sheet(cls, caller, data):
        """A sheet that is read; bytes that it lacks are taken for 0."""
        n, pairs, *limit = (data + bytes(4))[:4]
        return cls(caller, "sheet", n, int.from_bytes(limit, "little"), pairs, len(data))


class HouseOpening:
    """A house that is opened, with each worker's ward: the place of the row that refuses it, or None, and its number, or 0."""

    def __init__(self, c, wards):
        self.names, self.wards = {"n": len(wards), "c": c}, wards
        self.place, self.number = next(((place, number) for place, number, met in HOUSE_OPENINGS if met(self)), (None, 0))


class Play:
    """A board with its seats, and the turns played on it."""

    rules, caller = SESSION, "server"

    def __init__(self, n, limit, width=None):
        self.n, self.limit, self.window = n, limit, width or window(n)
        self.seats, self.session = [Seat() for _ in range(n)], Session()
        self.board = {row: {} for row in BLANK}
        self.counts = [0] * len(COUNTS)
        self.used, self.refusals, self.made = [], [], []

    def of(self, words):
        """Whose turn it is: the session's with a close, else the seat's, or None if that is not there."""
        word, *rest = words.split()
        if word == CLOSE:
            return self.session
        return self.seats[int(rest[0])] if int(rest[0]) < self.n else None

    def named(self, seat):
        """The numbers that a row's words may name, in a turn of that seat."""
        numbers = {"n": self.n, "L": self.limit, "W": self.window}
        return numbers | {"r": seat.round, "k": seat.place, "i": seat.place} if seat else numbers

    def refused(self, turn):
        """The row of the refusals that a turn meets, or None."""
        return next((row for row in self.rules.refused[turn.kind] if row[2](turn)), None)

    def legal(self, words):
        """Whether a turn would not be refused."""
        return not self.refused(Turn(self, words))

    def turn(self, words):
        """Plays one turn; its register operation, or `refused NUMBER`."""
        turn = Turn(self, words)
        refused = self.refused(turn)
        if refused:
            self.refusals.append(refused[0])
            return f"refused {refused[1]}"
        next(row for row in self.rules.rows[turn.seat.head, turn.kind] if row.fits(turn)).follow(turn)
        self.made += turn.made
        for made in turn.made:
            self.counts = [count + (made in counted) for count, counted in zip(self.counts, COUNTED)]
        return turn.register

    def head(self):
        """The lines above the turns."""
        return [self.caller, f"n {self.n}", f"L {self.limit}"]

    def marked(self):
        """How many rounds are marked."""
        return len(self.board["C"])

    def round_line(self, r):
        """A round of the board, as the texts tell it."""
        return f"round {r} {self.board['T'].get(r, BLANK['T'])} {shown(self.board['C'].get(r, BLANK['C']))}"


class Told(Play):
    """A poll or a house, and the text that a program writes of it. One that is not opened takes no turn."""

    def turn(self, words):
        """Plays one turn, and keeps its line."""
        register, (word, *numbers) = super().turn(words), words.split()
        refused = register.startswith("refused")
        line = [word, *[HINTS.get(number, number) for number in numbers], register.split()[1] if refused else 0]
        self.lines.append(" ".join(map(str, line + self.answers(word, numbers[0], refused))))
        return register

    def answers(self, word, number, refused):
        """What stands behind a turn's number."""
        return []

    def text(self):
        """The whole text: the turns played so far, the counts, and what is left; or the refusal."""
        return [*self.lines, " ".join(["tally", *map(str, self.counts)]), *self.left()] if self.opened else self.lines


class Poll(Told):
    """A poll, and the text that the program test_poll writes of it."""

    rules = POLL

    def __init__(self, caller, n):
        super().__init__(n, window(n))
        self.caller, refused = caller, Opening(caller, "poll", n).number
        self.opened, self.lines = not refused, [f"poll {n} {refused}"]

    def answers(self, word, number, refused):
        return [not refused and self.answer(number) or "none"] if word == "turn" else []

    def answer(self, seat):
        """The answer that a seat has, or None."""
        record = self.seats[int(seat)]
        return f"{record.head} {record.own}" if record.head in ANSWERS else None

    def status(self, seat):
        """A seat as the text tells it at the end."""
        record = self.seats[seat]
        if record.head in ("out", "crashed"):
            return record.head
        return self.answer(seat) or f"working {record.round} {record.own}"

    def left(self):
        """The registers and the seats."""
        rounds, seats = range(1, self.limit + 1), range(self.n)
        return [*map(self.round_line, rounds), *[f"seat {seat} {self.status(seat)}" for seat in seats]]


class House(Told):
    """A house, and the text that the program test_house writes of it. Its boards are those of every outer round: a session for each ward,
    ward by ward, and a poll."""

    rules = HOUSE

    def __init__(self, c, wards):
        refused, n = HouseOpening(c, wards).number, len(wards)
        super().__init__(n, 0)
        self.c, self.opened, self.lines, self.inner = c, not refused, [f"house {c} {n} {refused}"], []
        self.seats = [Worker(number, ward, wards[:number].count(ward)) for number, ward in enumerate(wards)]
        rounds = range(OUTER_ROUNDS if self.opened else 0)
        self.wards = [[Play(n - c + 1, WARD_ROUNDS) for _ in rounds] for _ in range(c)]
        self.polls = [Poll("server", n) for _ in rounds]

    def head(self):
        return [f"c {self.c}", " ".join(["wards", *[str(worker.ward) for worker in self.seats]])]

    def boards(self):
        """The boards of all outer rounds, each with its number in the text."""
        return dict(enumerate(sum(self.wards, []))) | dict(enumerate(self.polls, MOST_WARDS * OUTER_ROUNDS))

    def marked(self):
        return sum(board.marked() for board in self.boards().values())

    def board_of(self, which, worker):
        """The ward's or the poll's board of the worker's outer round, and its name."""
        if which == "poll":
            return self.polls[worker.round - 1], which
        return self.wards[worker.ward - 1][worker.round - 1], f"{which} {worker.ward}"

    def seat_in(self, which, worker):
        """The worker's seat there."""
        board, _ = self.board_of(which, worker)
        return board.seats[worker.number if which == "poll" else worker.seat]

    def named(self, worker):
        numbers = {"n": self.n, "c": self.c}
        if not worker:
            return numbers
        answered = self.seat_in("poll", worker).own
        return numbers | {"o": worker.round, "w": worker.ward, "a": answered, "s": worker.seat, "p": worker.number}

    def turn(self, words):
        """Plays one turn, and keeps its line; or has a count as a test sets it."""
        self.inner = []
        word, *numbers = words.split()
        if word != "set":
            return super().turn(words)
        kind, _, number = map(int, numbers)
        self.counts[COUNT_KINDS.index(kind)] = number
        self.lines.append(words)
        return "none"

    def left(self):
        """The house register, the table, the workers, and the boards on which something stands."""
        table, wards = self.board["V"], range(1, MOST_WARDS + 1)
        rows = [[table.get((o, w), BLANK["V"]) for w in wards] for o in range(1, OUTER_ROUNDS + 1)]
        return [
            f"decision {self.board['H'].get(None, BLANK['H'])}",
            *[" ".join(map(str, ["row", o, *row])) for o, row in enumerate(rows, 1)],
            *[f"worker {worker.number} {worker.head} {worker.round} {worker.own}" for worker in self.seats],
            *[line for index, board in self.boards().items() for line in board_lines(index, board)],
        ]


def board_lines(index, board):
    """A board of a house as the text tells it; nothing of one on which nothing stands."""
    seats = [(number, seat) for number, seat in enumerate(board.seats) if seat.head != "out"]
    if not seats:
        return []
    return [
        f"board {index} {board.n} {board.limit} {board.board['D'].get(None, BLANK['D'])} {board.session}",
        *map(board.round_line, sorted({*board.board["T"], *board.board["C"]})),
        *[f"seat {number} {seat.head} {seat.place or 0} {seat.round} {seat.own}" for number, seat in seats],
    ]
