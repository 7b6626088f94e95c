#!/usr/bin/env python3
"""What a name takes by network and width: docs/CHOOSING.md and bench/README.md, *Choosing*.

Four epochs of 262,144 clients with random identities, whose entries follow by rule, as grants: nanoseconds of processor
time a name, from reading the batch to writing the list. It is the least of nine runs each, in turn, since what runs
beside only adds.
"""
import measure

NETWORKS = (
    *(("tree", width) for width in (2, 8, 64, 256)),
    *(("bitonic", width) for width in (2, 8, 64, 256)),
    *(("periodic", width) for width in (8, 64, 256)),
)


def rows(bench):
    epochs, clients = 4, bench.size(262_144, 4_096)
    places = (epoch for epoch in range(epochs) for _ in range(clients))
    path = bench.write("by_rule", "epoch,client", (f"{epoch},{bench.chance.getrandbits(64)}" for epoch in places))
    jobs = [(bench.ours(network, width, "--form", "grants"), path) for network, width in NETWORKS]
    for (network, width), runs in zip(NETWORKS, bench.in_turn(jobs, bench.size(9, 3))):
        least = min(one.processor for one in runs)
        yield measure.Row(f"{network} {width}", least / (epochs * clients) * 1e9, unit=" ns a name")


if __name__ == "__main__":
    measure.main(__doc__, rows)
