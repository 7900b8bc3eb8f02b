#!/usr/bin/env python3
"""Plays random lists, polls and houses by the rules of docs/PAPER-CASES.md and compares each line with what the separately written
program has: the trace of a list, the text of a poll or a house.

usage: paper_lists.py [LISTS [SEED]]      a third as many polls, a thirtieth as many houses; 3000 lists from seed 1 where left out

Every rule and every refusal must be met, and marks of rounds that are unmarked and of rounds that are marked. Each list and each poll
must leave as many rounds marked as contested says. Seats must become spent by turns with hint no, and take a further turn. Sessions must
be closed, before and after every stance is reached, closed again, worked on, looked at and crashed in, and refuse proposals with each of
their numbers; after a close no number may join those that were proposed. In polls too
every rule and every refusal must be met, but for the rules that the page says are never taken; every answer must be a number that
was proposed, the same for all seats where one has committed, and committed where all propose the same. Some polls are the cart's, with
its most seats and with more among them. What opening answers to either caller must be the program's for every n. In houses too every
rule and every refusal must be met, that of a full count apart. All decided workers must hold one number that was proposed to the house,
and there must be such houses in which two wards decided different numbers.
"""
import random
import subprocess
import sys
from collections import Counter
from pathlib import Path

ROOT = Path(__file__).resolve().parent.parent
PROGRAM = ROOT / "target" / "reference" / "reference"
sys.dont_write_bytecode = True
sys.path.append(str(ROOT / "examples"))
import house
import poll
import sheet
from paper_play import HOUSE, POLL, SESSION, House, HouseOpening, Opening, Play, Poll
from paper_rules import ANSWERS, CLOSE, COUNTS, LIMITS, MOST_SEATS, MOST_WARDS, NEVER_IN_POLLS, PLACES, REFUSALS, STANCES, window

LISTS, SEED = 3000, 1
POLLS, HOUSES = LISTS // 3, LISTS // 30
MOST_TURNS = 130
# No list here comes to it.
COUNTS_FULL = 16
CART_SEATS, _ = LIMITS["cart"]


class Composer:
    """Makes up a list of turns while it is played, most of them legal."""

    waking, hinted = "check-value", "work"

    def __init__(self, chance):
        self.chance, n = chance, chance.randint(1, 6)
        self.play = self.opened(n)
        self.turns, self.lines = [], []
        self.burst, self.seat = chance.choice([1, 2, 5, 30]), 0
        self.odds = chance.choice([0, 0.02, 0.1]), chance.choice([0, 0, 0.01]), chance.choice([0, 0, 0.05, 0.4])
        self.asleep = chance.randrange(n) if chance.random() < 0.5 else None
        self.spent, self.later = set(), 0
        self.closing = chance.choice([0, 0, 0, 0.01, 0.1])
        self.closed, self.stances, self.proposed = Counter(), set(), []

    def opened(self, n):
        """The board that the turns are played on."""
        return Play(n, window(n) + self.chance.choice([0, 0, 1, 2]))

    def next_seat(self):
        """Now and then another seat. One that is asleep stays at put until another one stands where it wakes, so that it writes late."""
        if self.chance.random() * self.burst < 1:
            self.seat = self.chance.randrange(self.play.n)
        if self.asleep is not None and self.play.seats[self.asleep].head == "put":
            woken = self.play.seats[self.seat].head == self.waking and self.chance.random() < 0.2
            if woken:
                self.seat, self.asleep = self.asleep, None
            elif self.seat == self.asleep:
                self.seat = (self.seat + 1) % self.play.n

    def words(self):
        """Some turn of the seat whose turn it is."""
        self.next_seat()
        if self.play.seats[self.seat].head == "out":
            return f"propose {self.seat} {self.chance.randint(1, 3)}"
        return self.words_after_proposal()

    def words_after_proposal(self):
        """Some turn of a seat that has proposed."""
        look, crash, no = self.odds
        dice = self.chance.random()
        if dice < look:
            return f"look {self.seat}"
        if dice < look + crash:
            return f"crash {self.seat}"
        return f"work {self.seat} {'no' if self.chance.random() < no else 'yes'}"

    def any_words(self):
        """Any turn at all, of a seat that may not be there."""
        seat, kind = self.chance.randint(0, self.play.n), self.chance.choice(list(self.play.rules.kinds))
        if kind == CLOSE:
            return kind
        rest = {"propose": [self.chance.randint(0, 1)], self.hinted: [self.chance.choice(["yes", "no"])]}.get(kind, [])
        return " ".join(map(str, [kind, seat, *rest]))

    def add(self, words):
        """Plays one turn and keeps the line that the trace should have."""
        closed, of, (kind, *rest) = self.play.session.head == "closed", self.play.of(words), words.split()
        if kind == CLOSE:
            self.stances |= {seat.head for seat in self.play.seats}
        register, refused = self.play.turn(words), None
        line = f"{len(self.turns):5} | {words:24} | {register}"
        if register.startswith("refused"):
            refused = int(register.split()[1])
        else:
            counts = " ".join(map(str, self.play.counts))
            line = f"{len(self.turns):5} | {words:24} | {register:25} | {str(of):40} | {counts}"
            if of.head == "spent" and words.endswith("no"):
                self.spent.add(of)
            if kind == "propose":
                self.proposed.append((int(rest[1]), closed))
        self.later += refused == 9 and of in self.spent
        self.closed[kind, refused] += closed
        self.turns.append(words)
        self.lines.append(line)

    def work_to_the_end(self):
        """A seat works alone until it stands at gate in round L, or is stuck; then it takes a turn or two, with either hint."""
        seat = self.chance.randrange(self.play.n)
        led, record = f"work {seat} yes", self.play.seats[seat]
        while self.play.legal(led) and (record.head, record.round) != ("gate", self.play.limit):
            self.add(led)
        for _ in range(self.chance.randint(1, 2)):
            words = f"work {seat} {self.chance.choice(['no', 'yes'])}"
            if not self.play.refusals:
                self.add(words)

    def compose(self):
        """The whole list: legal turns, some to the end of the last round, then any turns, to the first refused one. Some sessions are closed
        on the way, and some of these meet a late proposal."""
        for _ in range(self.chance.randrange(MOST_TURNS)):
            words = CLOSE if self.chance.random() < self.closing else self.words()
            if self.play.legal(words):
                self.add(words)
        if self.chance.random() < 0.2:
            self.work_to_the_end()
        if self.play.session.head == "closed" and not self.play.refusals and self.chance.random() < 0.2:
            self.add(f"propose {self.chance.randrange(self.play.n)} {self.chance.randint(0, 3)}")
        while not self.play.refusals and self.chance.random() < 0.8:
            self.add(self.any_words())
        return self

    def sheet(self):
        """The list's bytes."""
        entries = b"".join(sheet.entry(words.split()) for words in self.turns)
        return sheet.sheet(self.play.n, self.play.limit, [entries])


class PollComposer(Composer):
    """Makes up a poll, in which a refused turn ends nothing. One that is asleep may sleep until another one has committed. Now and then
    the cart opens one with all its seats, or is refused one with more."""

    odd = 0.02

    def opened(self, n):
        self.waking = self.chance.choice(["check-value", "committed"])
        caller = self.chance.choice(list(LIMITS))
        if caller == "cart" and self.chance.random() < 0.2:
            n = self.chance.choice([CART_SEATS, CART_SEATS + 1, self.chance.randint(CART_SEATS + 1, MOST_SEATS)])
        return Poll(caller, n)

    def words_after_proposal(self):
        _, crash, _ = self.odds
        return f"{'crash' if self.chance.random() < crash else 'turn'} {self.seat}"

    def compose(self):
        """The whole poll: turns that are not refused, to the answers of most seats, and some that may be; any turns if it is not opened."""
        if not self.play.opened:
            self.turns = [self.any_words() for _ in range(self.chance.randrange(MOST_TURNS))]
        for _ in range(self.length() if self.play.opened else 0):
            words = self.words()
            if self.play.legal(words):
                self.add(words)
            elif self.chance.random() < self.odd:
                self.add(self.any_words())
        self.lines = self.play.text()
        return self

    def length(self):
        """How many turns are made up."""
        return self.chance.randrange(3 * MOST_TURNS * self.play.n)

    def add(self, words):
        """Plays one turn."""
        self.turns.append(words)
        self.play.turn(words)

    def poll(self):
        """The poll's bytes."""
        return poll.poll(self.play.caller, self.play.n, [words.split() for words in self.turns])


def held(play, which):
    """Turns of a house, one after another as those before them leave it: a worker that stands before a write to T in its ward, or in its
    poll, is held back until another one stands before the same write; the lowest number that is not held back comes first."""
    met = set()
    while working := [worker for worker in play.seats if worker.head in PLACES]:
        writes = {}
        for worker in working:
            seat = play.seat_in(which, worker)
            if worker.head == {"ward": "work", "poll": "poll"}[which] and seat.head == "put":
                writes[worker] = (play.board_of(which, worker)[0], seat.round)
        met |= {write for write, workers in Counter(writes.values()).items() if workers > 1}
        free = [worker for worker in working if worker not in writes or writes[worker] in met]
        yield f"turn {(free or working)[0].number} yes"


class HouseComposer(PollComposer):
    """Makes up a house. In some two workers hold each other back in their ward or in the polls."""

    hinted, odd = "turn", 0.5

    def __init__(self, chance):
        super().__init__(chance)
        self.asleep = None

    def opened(self, n):
        chance, which = self.chance, self.chance.choice(["ward", "poll", *[None] * 10])
        c = {"ward": 1, "poll": 2}.get(which) or chance.randint(1, min(n, MOST_WARDS))
        wards = [*range(1, c + 1), *(chance.randint(1, c) for _ in range((2 if which else n) - c))]
        chance.shuffle(wards)
        play = House(c, wards)
        self.held = held(play, which) if which else None
        return play

    def length(self):
        return 3000 if self.held else self.chance.randrange(9 * MOST_TURNS)

    def words(self):
        if self.held and all(worker.head != "out" for worker in self.play.seats):
            return next(self.held, None) or self.any_words()
        return super().words()

    def words_after_proposal(self):
        return super(PollComposer, self).words_after_proposal().replace("work", "turn")

    def house(self):
        """The house's bytes."""
        return house.house(self.play.c, [worker.ward for worker in self.play.seats], [words.split() for words in self.turns])


def printed(what, data):
    """The lines that the program prints of the data."""
    return subprocess.run([PROGRAM, *what.split()], input=data, capture_output=True, check=True).stdout.decode().splitlines()


def read_by(caller, data):
    """The program's number for a sheet without entries that a caller reads, 0 where it is opened."""
    return int(printed({"server": "run 0 0", "cart": "run 0 0 cart"}[caller], data)[0].split()[0])


def traces(sheets):
    """The program's trace of each sheet."""
    data = b"".join(len(one).to_bytes(2, "little") + one for one in sheets)
    found = [[]]
    for line in printed("traces", data):
        if line:
            found[-1].append(line)
        else:
            found.append([])
    return found[:-1]


def texts(kind, lists):
    """The program's text of each poll or house."""
    found = []
    for line in printed(f"{kind}s", b"".join(lists)):
        if line.startswith(f"{kind} "):
            found.append([])
        found[-1].append(line)
    return found


def poll_texts(polls):
    """The program's text of each poll."""
    return texts("poll", polls)


def house_texts(houses):
    """The program's text of each house."""
    return texts("house", houses)


def compare(what, lists, found):
    """Fails at the first line that differs from what the program has."""
    for number, (one, expected) in enumerate(zip(lists, found, strict=True)):
        for ours, theirs in zip(one.lines + ["the end"], expected + ["the end"]):
            if ours != theirs:
                turns = "\n".join([*one.play.head(), *one.turns])
                sys.exit(f"paper lists: {what} {number}\n{turns}\nby the rules {ours}\nby the program {theirs}")


def check_used(lists, rules, never=()):
    """Fails if a rule or a refusal was never met, or a rule that is never to be met was."""
    used = Counter(rule for one in lists for rule in one.play.used)
    refusals = Counter(refusal for one in lists for refusal in one.play.refusals)
    for rule in rules.numbers():
        if (rule in never) != (used[rule] == 0):
            sys.exit(f"paper lists: rule {rule} was used {used[rule]} times")
    for place, row in enumerate(rules.refusals):
        if not refusals[place] and row[0] != COUNTS_FULL:
            sys.exit(f"paper lists: this refusal was never met: {row}")
    return len(used), len(refusals), min(used.values())


def check_marks(lists):
    """Fails if contested is not the number of marked rounds, or if one kind of mark is seldom made."""
    contested = [count for count, _, _ in COUNTS].index("contested")
    for number, one in enumerate(lists):
        if one.play.counts[contested] != one.play.marked():
            sys.exit(f"paper lists: list {number}: contested {one.play.counts[contested]}, marked rounds {one.play.marked()}")
    made = Counter(made for one in lists for made in one.play.made)
    first = made["mark of an unmarked round"]
    again = made["mark"] - first
    if min(first, again) * 10 < len(lists):
        sys.exit(f"paper lists: {first} marks of an unmarked round and {again} of a marked one are too few")
    return first, again


def check_spent(lists):
    """Fails if few seats become spent by a turn with hint no, or few of those take a further turn."""
    spent, later = sum(len(one.spent) for one in lists), sum(one.later for one in lists)
    if min(spent, 2 * later) * 20 < len(lists):
        sys.exit(f"paper lists: {spent} seats spent by hint no, and {later} further turns of such a seat, are too few")
    return spent, later


def check_closed(lists):
    """Fails if a number was proposed in a closed session, if there were few turns of a kind, or few refusals of a proposal, in a closed
    session, or if there was no close while a seat stood at some stance."""
    late = [one.proposed for one in lists if any(closed for _, closed in one.proposed)]
    if late:
        sys.exit(f"paper lists: proposed, and whether in a closed session: {late[0]}")
    met = sum((one.closed for one in lists), Counter())
    wanted = [(kind, None) for kind in SESSION.kinds if kind != "propose"]
    wanted += [("propose", number) for number, turns, _ in REFUSALS if "propose" in turns.split(", ")]
    for kind, refused in wanted:
        if met[kind, refused] * 200 < len(lists):
            answer = f"refused with {refused}" if refused else "accepted"
            sys.exit(f"paper lists: in closed sessions {met[kind, refused]} times {kind}, {answer}, is too seldom")
    stances = set().union(*(one.stances for one in lists))
    never = [stance for stance, head in zip(STANCES, SESSION.heads) if head not in stances]
    if never:
        sys.exit(f"paper lists: no close while a seat stood at {', '.join(never)}")
    return sum(CLOSE in one.turns for one in lists), met


def check_answers(polls):
    """Fails if an answer was not proposed, answers differ where a seat has committed, one is adopted where all propose the same number,
    or few polls have both answers."""
    both = 0
    for number, one in enumerate(polls):
        answers = [seat for seat in one.play.seats if seat.head in ANSWERS]
        values, heads = {seat.own for seat in answers}, {seat.head for seat in answers}
        proposed = {int(line.split()[2]) for line in one.lines if line.startswith("propose") and line.endswith(" 0")}
        if not values <= proposed or "committed" in heads and len(values) > 1 or len(proposed) == 1 and "adopted" in heads:
            sys.exit(f"paper lists: poll {number}: proposed {proposed}, answers {[str(seat) for seat in answers]}")
        both += len(heads) == len(ANSWERS)
    if both * 50 < len(polls):
        sys.exit(f"paper lists: {both} polls with both answers are too few")
    return both


def check_carts(polls):
    """Fails if few polls are the cart's with all its seats, or are refused with one seat more."""
    carts = Counter((one.play.caller, one.play.n, one.play.opened) for one in polls)
    full, over = carts["cart", CART_SEATS, True], carts["cart", CART_SEATS + 1, False]
    if min(full, over) * 100 < len(polls):
        sys.exit(f"paper lists: {full} polls of the cart with {CART_SEATS} seats, and {over} refused with one more, are too few")
    return sum(one.play.caller == "cart" for one in polls), full, sum(not one.play.opened for one in polls)


def check_houses(houses):
    """Fails if a decided number was not proposed, if two are decided in one house, or if in few houses with a decision two wards of an
    outer round decided different numbers; how many have a decision, and how many such wards too."""
    apart = 0
    for number, one in enumerate(houses):
        decided = {worker.own for worker in one.play.seats if worker.head == "decided"}
        proposed = {int(line.split()[2]) for line in one.lines if line.startswith("propose") and line.endswith(" 0")}
        if len(decided) > 1 or not decided <= proposed:
            sys.exit(f"paper lists: house {number}: proposed {proposed}, decided {decided}")
        rounds = [{board.board["D"][None] for board in boards if board.board["D"]} for boards in zip(*one.play.wards)]
        apart += bool(decided) and max(map(len, rounds)) > 1
    if apart * 50 < len(houses):
        sys.exit(f"paper lists: {apart} houses decided whose wards did not agree are too few")
    return sum("decided" in {worker.head for worker in one.play.seats} for one in houses), apart


def openings(caller):
    """Each poll, by its n, and each session, about W and the limits of both callers, with its number by the rules and by the program."""
    for n, text in enumerate(poll_texts([poll.poll(caller, n, []) for n in range(256)])):
        yield f"poll, n {n}", Opening(caller, "poll", n).number, int(text[0].split()[2])
    for n in range(MOST_SEATS + 2):
        for most in [window(n) - 1, *(rounds for _, rounds in LIMITS.values())]:
            for limit in {max(most, 0), most + 1}:
                yield f"session, n {n}, L {limit}", Opening(caller, "session", n, limit).number, read_by(caller, sheet.sheet(n, limit, []))


def house_openings():
    """Houses of 0 to 6 wards and of numbers of workers about the limits, with all wards taken, one worker in ward 0 or c + 1, or all in
    ward 1: each with its number by the rules and by the program."""
    taken = [(c, [number % (c or 1) + 1 for number in range(n)]) for c in range(7) for n in [*range(20), 63, 64, 65, 66]]
    opened = taken + [(c, [1] * len(wards)) for c, wards in taken]
    opened += [(c, [first, *wards[1:]]) for c, wards in taken if wards for first in (0, c + 1)]
    for (c, wards), text in zip(opened, house_texts([house.house(c, wards, []) for c, wards in opened])):
        yield f"house, c {c}, wards {wards}", HouseOpening(c, wards).number, int(text[0].split()[3])


def check_openings():
    """Fails unless the numbers of either caller's openings, and of those of houses, are the program's; how many they are."""
    found = [(caller, *one) for caller in LIMITS for one in openings(caller)] + [("server", *one) for one in house_openings()]
    for caller, what, ours, theirs in found:
        if ours != theirs:
            sys.exit(f"paper lists: the {caller}'s {what}: by the rules {ours}, by the program {theirs}")
    return len(found)


def checked(what, lists, found, rules, never=()):
    """Checks what holds for lists and polls alike, and tells what was met."""
    compare(what, lists, found)
    met, refusals, least = check_used(lists, rules, never)
    first, again = check_marks(lists)
    turns = sum(len(one.turns) for one in lists)
    return (f"{len(lists)} {what}s, {turns} turns as the program has them; {met} rules, each {least} times or more; {refusals} refusals; "
            f"{first} marks of unmarked rounds, {again} of marked ones")


def main():
    words = sys.argv[1:]
    if words in (["--help"], ["-h"]):
        print(__doc__.strip())
        return
    if len(words) > 2 or not all(word.isdecimal() for word in words):
        sys.exit(f"paper_lists.py: {' '.join(words)}: a number of lists and a seed are named at most; try --help")
    count, seed = [*map(int, words), *[LISTS, SEED][len(words):]]
    chance = random.Random(seed)
    lists = [Composer(chance).compose() for _ in range(count)]
    told = checked("list", lists, traces([one.sheet() for one in lists]), SESSION)
    spent, later = check_spent(lists)
    print(f"paper lists: seed {seed}, {told}; {spent} seats spent by hint no, {later} refused a turn after that")
    closed, met = check_closed(lists)
    shown = ", ".join(f"{kind} {'refused ' * bool(refused)}{refused or 'accepted'} {times}" for (kind, refused), times in sorted(met.items(), key=str))
    print(f"paper lists: {closed} lists with a close, at every stance of a seat; in closed sessions: {shown}")
    polls = [PollComposer(chance).compose() for _ in range(count * POLLS // LISTS)]
    told = checked("poll", polls, poll_texts([one.poll() for one in polls]), POLL, NEVER_IN_POLLS)
    carts, full, refused = check_carts(polls)
    print(f"paper lists: {told}; {check_answers(polls)} polls with both answers; {carts} polls of the cart's, {full} with {CART_SEATS} seats, "
          f"{refused} refused")
    houses = [HouseComposer(chance).compose() for _ in range(count * HOUSES // LISTS)]
    told = checked("house", houses, house_texts([one.house() for one in houses]), HOUSE)
    decided, apart = check_houses(houses)
    print(f"paper lists: {told}; {decided} houses with decided workers, {apart} of them with wards that decided different numbers")
    print(f"paper lists: {check_openings()} openings, by the server and by the cart, of houses too, answered as the program answers them")


if __name__ == "__main__":
    main()
