#!/usr/bin/env python3
"""What a name takes in Python: ns of processor time, the least of some rounds, for 64, 1,024 and 262,144 clients.

    bench/python/names.py [ROUNDS]

Random clients, by the ways of the package and by those of numpy, pandas and Python. It prints a row for each way. It
needs numpy, pandas and the package renamer, as bindings/python/README.md says.
"""
import gc
import itertools
import sys
import time

import numpy as np
import pandas as pd

import renamer
from renamer._parts import count_off

SIZES = (64, 1_024, 262_144)
# So many clients at least are named in a round.
EACH = 20_000


def lane(clients):
    """A floor of its own, with its lane."""
    floor = renamer.Floor("tree", 2, clients)
    return floor, floor.lane()


def ways(clients):
    """Each way to name clients: its name, what is made before it is timed, and what is timed."""
    listed, size = clients.tolist(), len(clients)
    asked = np.zeros(size, renamer.CLIENT)
    asked["client"] = clients
    nothing = int
    yield "numpy.arange", nothing, lambda _: np.arange(size)
    yield "numpy.unique with return_inverse", nothing, lambda _: np.unique(clients, return_inverse=True)
    yield "pandas.factorize", nothing, lambda _: pd.factorize(clients)
    yield "a dict of a list", nothing, lambda _: {client: name for name, client in enumerate(listed)}
    yield "renamer.number", nothing, lambda _: renamer.number(clients)
    yield "renamer.number with share", nothing, lambda _: renamer.number(clients, share=True)
    yield "of that the floors", nothing, lambda _: count_off(size)
    yield "lane.name_many", lambda: lane(size), lambda made: made[1].name_many(clients)
    yield "lane.grant_many", lambda: lane(size), lambda made: made[1].grant_many(asked)
    yield "lane.name, one by one", lambda: lane(size), lambda made: [made[1].name(client) for client in listed]
    yield "itertools.count, one by one", itertools.count, lambda counter: [next(counter) for _ in listed]


def least(make, call, calls, rounds):
    """The least time of a call, over some rounds of so many calls."""
    best = float("inf")
    for _ in range(rounds):
        given = [make() for _ in range(calls)]
        gc.disable()
        begun = time.process_time_ns()
        for one in given:
            call(one)
        best = min(best, (time.process_time_ns() - begun) / calls)
        gc.enable()
    return best


def main():
    rounds, rows = int(sys.argv[1]) if sys.argv[1:] else 15, {}
    for size in SIZES:
        clients = np.random.default_rng(size).integers(0, 2**64, size, dtype=np.uint64)
        for name, make, call in ways(clients):
            rows.setdefault(name, []).append(least(make, call, max(1, EACH // size), rounds) / size)
    print(f"{'':34}" + "".join(f"{size:>10}" for size in SIZES))
    for name, found in rows.items():
        print(f"{name:34}" + "".join(f"{each:10.1f}" for each in found))


if __name__ == "__main__":
    main()
