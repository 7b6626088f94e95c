#!/usr/bin/env python3
"""The time by the clock of `renamer run` by several workers, beside the same run by one.

Four workers on the full batch, 16 epochs of 65,536 clients with random identities and entries, on the tree of width 64 and
on bitonic 64, each with 64 clients in hand, and on bitonic 64 with one; five runs each, with the processor time too. And
10,000 epochs of one client on bitonic 64 by 64 workers, as grants.
"""
import measure


def rows(bench):
    rounds = bench.size(5, 3)

    def pair(network, workers, hand, path, form="report"):
        words = bench.ours(network, 64, "--hand", hand, "--form", form)
        jobs = [[*words, "--workers", str(count)] for count in (workers, 1)]
        bench.agree(jobs, path, seen=measure.settled)
        return bench.in_turn([(job, path) for job in jobs], rounds)

    many, one = bench.full(64), bench.full(1)
    for network, hand, path in (("tree", 64, one), ("bitonic", 64, many), ("bitonic", 1, many)):
        spent = pair(network, 4, hand, path)
        yield measure.ratio(f"four to one, {network} 64, hand {hand}", spent, "clock")
        yield measure.ratio(f"four to one, {network} 64, hand {hand}, processor time", spent)

    spent = pair("bitonic", 64, 1, bench.single(bench.size(10_000, 500)), "grants")
    yield measure.ratio("64 to one, epochs of one client", spent, "clock")
    yield measure.ratio("64 to one, epochs of one client, processor time", spent)


if __name__ == "__main__":
    measure.main(__doc__, rows)
