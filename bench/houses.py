#!/usr/bin/env python3
"""What a call on a house costs, of the proved program test_house beside the separate one, and the stack that test_house needs.

    houses.py TEST_HOUSE REFERENCE

Both read the same houses (format at the head of reference/src/houses.rs) and must print the same. A call's time is that of 10,000 calls
less that of 10,000 operations that set nothing, the best of several runs that alternate between the two sides, by their number.
"""
import resource
import subprocess
import sys
import time

CALLS = 10_000
RUNS = 11
HOUSES = {"1 worker": [1], "2 workers, 2 wards": [1, 2], "16 workers, 4 wards": [1, 2, 3, 4] * 4}
PROPOSAL, TURN, LOOK, NOTHING = 0, 1, 3, 200
OPERATIONS = {"turn, hint yes": TURN, "house look": LOOK}


def house(wards, kind):
    """The bytes of a house in which every worker proposes, and then each in turn makes a call of that kind."""
    calls = [(PROPOSAL, p, 1 + p) for p in range(len(wards))] + [(kind, i % len(wards), 1) for i in range(CALLS)]
    operations = b"".join(bytes([kind, p]) + v.to_bytes(4, "little") for kind, p, v in calls)
    return bytes([max(wards), len(wards), *wards]) + len(calls).to_bytes(2, "little") + operations


def timed(side, given):
    start = time.perf_counter()
    told = subprocess.run(side, input=given, stdout=subprocess.PIPE, check=True).stdout
    return time.perf_counter() - start, told


def cost(sides, wards, kind):
    """Microseconds a call of each side."""
    best = {}
    for _ in range(RUNS):
        for given in (kind, NOTHING):
            runs = [timed(side, house(wards, given)) for side in sides]
            if runs[0][1] != runs[1][1]:
                sys.exit(f"houses: the two sides differ, wards {wards}, kind {given}")
            for which, (seconds, _) in enumerate(runs):
                best[which, given] = min(seconds, best.get((which, given), seconds))
    return [1e6 * (best[which, kind] - best[which, NOTHING]) / CALLS for which in (0, 1)]


def stack(side, given):
    """The least stack, in units of 64 KB, with which it runs."""
    low, high = 0, 128
    while high - low > 1:
        size = (low + high) // 2
        limit = 65536 * size
        run = subprocess.run(side, input=given, stdout=subprocess.DEVNULL,
                             preexec_fn=lambda: resource.setrlimit(resource.RLIMIT_STACK, (limit, limit)))
        low, high = (low, size) if run.returncode == 0 else (size, high)
    return high


def main():
    if len(sys.argv) != 3:
        print(__doc__.strip())
        sys.exit(0 if sys.argv[1:] in (["--help"], ["-h"]) else 2)
    sides = [[sys.argv[1]], [sys.argv[2], "houses"]]
    print("| house | call | proved, µs | separate, µs | ratio |\n|---|---|---|---|---|")
    for name, wards in HOUSES.items():
        for call, kind in OPERATIONS.items():
            ours, theirs = cost(sides, wards, kind)
            print(f"| {name} | {call} | {ours:.1f} | {theirs:.2f} | {ours / theirs:.1f} |")
    print(f"stack of test_house: {64 * stack(sides[0], house(HOUSES['16 workers, 4 wards'], TURN))} KB")


main()
