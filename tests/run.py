#!/usr/bin/env python3
"""Runs sheets under budgets through the proved program and the separate one, and compares the two lines that each prints: how the run
ends, and the standing values of the session that it leaves, read out to a buffer. Each sheet is run as the server and as the bedside cart
(document 02, wish 9).

usage: run.py PROVED SEPARATE

Document 01's case "Budget 0 with one entry: budget ended, 0", sheets with closes (document 02, wish 10) under every budget, whose ends are
known beforehand, the sample sheets under every budget up to 20 and some larger ones, random sheets from one seed, some of them damaged or about the cart's limits, and boards whose registers hold given values, read out to
buffers of several lengths. Ends with 1 at the first difference, or where the cases reach too little.
"""

import collections
import glob
import itertools
import random
import struct
import subprocess
import sys

sys.dont_write_bytecode = True
from paper_rules import window

if sys.argv[1:] in (["--help"], ["-h"]):
    print(__doc__.strip())
    sys.exit()

PROVED, SEPARATE = sys.argv[1:]
SEED = 1
RANDOM_SHEETS = 300
MOST = 2**32 - 1
# The random sheets must end in every way that a sheet of this length can.
ENDINGS = {0, 1, 2, *range(4, 14), 18, 100}
# A sheet that ends so is not run.
REFUSED_SHEETS = {1, 2, 10, 11, 12}
# The bytes that name the callers: "at most 16 seats and 64 rounds", and any byte but 0.
SERVER = 0
CARTS = itertools.cycle([1, 2, 255])
CART_SEATS, CART_ROUNDS = 16, 64
# What the random sheets must show of the cart: sheets that are run and read out, and what only the server runs.
OF_THE_CART = {"run", "read out", "n 16", "L 64", "1 alone", "2 alone", "n 17: 1 alone", "L 65: 2 alone"}
# What a place of the buffer holds at first.
MARKER = str(2**32 - 1)
MOST_PLACES = 256
BOARDS = 60
# Document 02, wish 10: entries for two seats with L = 3; the number that they end with, and how many are carried out.
CLOSE, PROPOSAL = (4, 0, 0), (0, 0, 7)
CLOSES = [
    ([PROPOSAL, CLOSE, (0, 1, 8)], 18, 2),
    ([CLOSE, CLOSE, PROPOSAL], 18, 2),
    ([PROPOSAL, CLOSE, PROPOSAL], 6, 2),
    ([PROPOSAL, CLOSE, (0, 0, 0)], 5, 2),
    ([PROPOSAL, CLOSE, (0, 1, 0)], 5, 2),
    ([PROPOSAL, CLOSE, (0, 2, 8)], 4, 2),
    ([PROPOSAL, CLOSE, (1, 0, 1), CLOSE, (2, 0, 0), (3, 0, 0), CLOSE], 0, 7),
    ([CLOSE, (4, 1, 0)], 13, 1),
    ([CLOSE, (4, 2, 0)], 13, 1),
    ([CLOSE, (4, 64, 0)], 13, 1),
    ([CLOSE, (4, 0, 1)], 13, 1),
    ([CLOSE, (5, 0, 0)], 13, 1),
]


def printed(words, told):
    """What a program prints."""
    return subprocess.run(words, input=told, capture_output=True, check=True).stdout.decode()


def proved(caller, sheet, budget, places=0):
    return printed([PROVED], struct.pack("<BIH", caller, budget, places) + sheet)


def separate(caller, sheet, budget, places=0):
    return printed([SEPARATE, "run", str(budget), str(places)] + ["cart"] * (caller != SERVER), sheet)


def same(what, sheet, budget, places=0):
    """The two lines as the server and as the cart, which must be the same from both programs."""
    told = []
    for caller in (SERVER, next(CARTS)):
        ours, theirs = (program(caller, sheet, budget, places) for program in (proved, separate))
        if ours != theirs:
            sys.exit(f"run: {what}, caller {caller}, budget {budget}, {places} places: {ours!r}, and the separate program has {theirs!r}")
        told.append(ours.splitlines())
    return told


def entries(rng, n):
    """Proposals of most seats, then turns of any. In one of six there is a close somewhere, and in the end a proposal that comes too late."""
    seats = rng.sample(range(n), rng.randint(1, n))
    made = [(0, seat, rng.randint(0, 99)) for seat in seats]
    for _ in range(rng.randint(0, 60)):
        seat = rng.choice(seats) if rng.random() < 0.99 else rng.randint(0, n)
        kind = rng.choices([0, 1, 2, 3, 4, 5], [1, 300, 20, 1, 1, 1])[0]
        value = {0: rng.randint(0, 9), 1: int(rng.random() < 0.9)}.get(kind, 0)
        made.append((kind, seat, value))
    if rng.random() < 1 / 6:
        made.insert(rng.randint(0, len(made)), CLOSE)
        made.append((0, rng.randrange(n), rng.randint(0, 9)))
    return made


def joined(n, limit, runs):
    """A sheet of these runs of entries."""
    data = [[struct.pack("<BBI", *entry) for entry in run] for run in runs]
    made, place = struct.pack("<BBH", n, len(runs), limit), 4 + 4 * len(runs)
    for run in data:
        made += struct.pack("<HH", place, 6 * len(run))
        place += 6 * len(run)
    return made + b"".join(entry for run in data for entry in run)


def size(rng):
    """n and L; one pair in four is about the cart's limits."""
    if rng.random() < 0.25:
        return rng.randint(CART_SEATS - 1, CART_SEATS + 1), rng.randint(CART_ROUNDS - 1, CART_ROUNDS + 1)
    n = rng.randint(1, 6)
    return n, rng.choice([window(n), 20, 256])


def sheet(rng):
    """A sheet of one or two runs; one in five is damaged."""
    n, limit = size(rng)
    data = entries(rng, n)
    cut = rng.randint(0, len(data))
    runs = [data] if rng.random() < 0.5 else [data[:cut], data[cut:]]
    made = bytearray(joined(n, limit, runs))
    if rng.random() < 0.2:
        made[rng.randrange(min(12, len(made)))] = rng.randrange(256)
    return bytes(made)


def of_the_cart(made, server, cart):
    """What a sheet shows of the cart, by the lines of either caller."""
    ran, code = (int(lines[0].split()[0]) for lines in (server, cart))
    n, limit = made[0], int.from_bytes(made[2:4], "little")
    if code not in REFUSED_SHEETS:
        yield "run"
        yield from [f"n {n}"] * (n == CART_SEATS) + [f"L {limit}"] * (limit == CART_ROUNDS)
        if not cart[1].startswith(("0 0", "15 ")):
            yield "read out"
        if server != cart:
            sys.exit(f"run: the server has {server} where the cart has {cart}")
    elif ran not in REFUSED_SHEETS:
        yield f"{code} alone"
        yield f"n {n}: {code} alone"
        yield f"L {limit}: {code} alone"


# ---------------------------------------------------------------- boards with given values


def board(values):
    """A sheet that leaves these values in the registers of the first rounds: all seats walk on side by side, seat s stays behind where it
    is about to write round s + 1, and in the end each writes. With hint no a seat goes on until it stands at gate, and there it waits."""
    n, w = len(values), window(len(values))
    walk = [(0, seat, value) for seat, value in enumerate(values)]
    walk += [(1, seat, 1) for seat in range(n)]
    for behind in range(1, n):
        most = 1 + 2 * min(behind, w) + (2 * w + 1 if behind >= w else 0)
        for seat in range(behind, n):
            walk += [(1, seat, 0)] * most + [(1, seat, 1)]
    walk += [(1, seat, 0) for seat in range(n)]
    return joined(n, max(w, n + 1), [walk])


def drawn(rng):
    """Values of many kinds, of few, or all of one kind."""
    n = rng.randint(1, 12)
    kinds = rng.sample(range(1, 100), {0: n, 1: min(n, 3), 2: 1}[rng.randrange(3)])
    return kinds if len(kinds) == n else [rng.choice(kinds) for _ in range(n)]


def read_out(values, listed):
    """The read-out of a board with these values, whose list is given, to buffers of every kind of length."""
    made = board(values)
    for kind, places in (("short", len(listed) - 1), ("exact", len(listed)), ("longer", len(listed) + 3), ("none", 0), ("all", 65_535)):
        told = listed if places >= len(listed) else []
        lent = min(places, MOST_PLACES)
        expected = " ".join([f"0 {len(told)}" if told else "15 0", *map(str, told), *[MARKER] * (lent - len(told))])
        if [lines[1] for lines in same(f"a board of {values}", made, MOST, places)] != [expected] * 2:
            sys.exit(f"run: the standing values of {values} to {places} places are not {expected!r}")
        yield kind


def kinds_of(values, listed):
    """What the order of a board's list tells from other orders, and how many values are equal."""
    last_round = list(dict.fromkeys(reversed(values)))[::-1]
    if listed not in (sorted(listed), last_round, last_round[::-1], listed[::-1]):
        yield "order"
    yield {1: "one value", len(values): "all different"}.get(len(listed), "some equal")


def boards(rng):
    """Boards by first round; every kind of board and of buffer must be reached."""
    reached = collections.Counter()
    for values in [[7], [3, 1, 3, 2, 1, 3, 5], *(drawn(rng) for _ in range(BOARDS))]:
        listed = list(dict.fromkeys(values))
        reached.update(kinds_of(values, listed))
        reached.update(read_out(values, listed))
    missing = {"order", "one value", "all different", "some equal", "short", "exact", "longer", "none", "all"} - set(reached)
    if missing:
        sys.exit(f"run: no board or buffer of these kinds: {sorted(missing)}")
    return reached


def closed():
    """Sheets with closes, under every budget: a close is counted in it and among the entries carried out. How many runs that makes."""
    runs = 0
    for data, code, done in CLOSES:
        made, tried = joined(2, 3, [data]), done + (code != 0)
        for budget in range(len(data) + 2):
            expected = [code, done] if budget >= tried else [100, budget]
            for lines in same(f"{data}", made, budget):
                if [int(word) for word in lines[0].split()[:2]] != expected:
                    sys.exit(f"run: {data}, budget {budget}: {lines[0]!r}, not {expected}")
            runs += 1
    return runs


def main():
    one = joined(1, window(1), [[(0, 0, 1)]])
    ended, finished = ["100 0 0 0 0", "0 0"], ["0 1 0 0 0", f"0 0 {MARKER}"]
    if same("one entry", one, 0) != [ended] * 2 or same("one entry", one, 1, 1) != [finished] * 2:
        sys.exit("run: a sheet of one entry does not end as document 01 has it")
    count = 2 + closed()
    for name in sorted(glob.glob("examples/*.sheet")):
        with open(name, "rb") as file:
            sample = file.read()
        for budget in [*range(21), 100, 10_921, MOST]:
            same(name, sample, budget)
            count += 1
    reached, read, cart = collections.Counter(), collections.Counter(), collections.Counter()
    rng = random.Random(SEED)
    for index in range(RANDOM_SHEETS):
        made = sheet(rng)
        budget = rng.choice([rng.randint(0, 70), 65_536 * rng.randint(0, 9), MOST])
        lines = same(f"random sheet {index} of seed {SEED}", made, budget, rng.randint(0, 4))
        cart.update(of_the_cart(made, *lines))
        ending, standing = lines[SERVER]
        reached[int(ending.split()[0])] += 1
        read[int(standing.split()[0])] += 1
        count += 1
    if ENDINGS - set(reached) or {0, 3, 15} - set(read):
        sys.exit(f"run: no random sheet ends with {sorted(ENDINGS - set(reached))}, or is read out with {sorted({0, 3, 15} - set(read))}")
    if OF_THE_CART - set(cart):
        sys.exit(f"run: no random sheet shows this of the cart: {sorted(OF_THE_CART - set(cart))}")
    kinds = boards(rng)
    # The comparison sees a budget that is one too large, a buffer, and a caller.
    large = joined(CART_SEATS + 1, CART_ROUNDS, [])
    if (
        proved(SERVER, one, 1) == separate(SERVER, one, 0)
        or proved(SERVER, one, 1, 1) == separate(SERVER, one, 1, 0)
        or proved(SERVER, large, 0) == separate(next(CARTS), large, 0)
    ):
        sys.exit("run: a wrong budget, buffer or caller is not seen")
    print(f"run: {count} runs by either caller as the separate program has them; random sheets end with {dict(sorted(reached.items()))}")
    print(f"run: as the cart: { {kind: cart[kind] for kind in sorted(OF_THE_CART)} }")
    print(f"run: their standing values are read out with {dict(sorted(read.items()))}; boards and buffers: {dict(sorted(kinds.items()))}")


main()
