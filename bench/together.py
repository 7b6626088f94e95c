#!/usr/bin/env python3
"""What `renamer run --together` takes, by which all workers walk each epoch on one network, beside a run by one worker.

One, two and four workers on the full batch, 16 epochs of 65,536 clients with random identities and entries, on the
trees and the bitonic networks of width 2 and 64, with one client in hand and with 64: five runs each, by the clock and
in processor time. The peer is the same run by one worker without the option.
"""
import functools
import itertools

import measure

NETWORKS, WIDTHS, HANDS, WORKERS = ("tree", "bitonic"), (2, 64), (1, 64), {1: "one", 2: "two", 4: "four"}


def rows(bench):
    full = functools.cache(bench.full)
    for network, width, hand in itertools.product(NETWORKS, WIDTHS, HANDS):
        path = full(1 if network == "tree" else width)
        words = bench.ours(network, width, "--hand", hand)
        jobs = [words, *([*words, "--together", "--workers", str(count)] for count in WORKERS)]
        bench.agree(jobs, path, seen=measure.settled)
        one, *together = bench.in_turn([(job, path) for job in jobs], bench.size(5, 3))
        for count, spent in zip(WORKERS.values(), together):
            name = f"{count} to one, {network} {width}, hand {hand}"
            yield measure.ratio(name, (spent, one), "clock")
            yield measure.ratio(f"{name}, processor time", (spent, one))


if __name__ == "__main__":
    measure.main(__doc__, rows)
