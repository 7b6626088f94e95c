#!/usr/bin/env python3
"""The processor time of `renamer run`, beside `plain`, which does the same by single steps. Five runs each.

The peer links its tokens, and clears its words between epochs. They run the full batch, 16 epochs of 65,536 clients with
random identities and entries, on bitonic 64 and periodic 64 and, through its one entry, on the tree of width 64; and
65,536 epochs of one client, as grants. And the full batch runs beside a Python script that keeps a dict from client to
name, as grants. Reading only is a batch of a million records in 16 epochs that is refused at its last record; the peer
reads with Rust's `csv`.
"""
import itertools
import sys

import measure

SCRIPT = """import csv, sys
rows = csv.reader(sys.stdin)
next(rows)
names, lines, latest = {}, ["epoch,client,name\\n"], None
for epoch, client, entry in rows:
    if epoch != latest:
        latest, names = epoch, {}
    names[int(client)] = len(names)
    lines.append(f"{epoch},{client},{names[int(client)]}\\n")
sys.stdout.writelines(lines)
"""


def cause(said):
    """The record that was refused, and why."""
    return said.split(b"record ")[-1]


def reading_only(bench):
    clients, chance = bench.size(62_500, 2_000), bench.chance
    records = (f"{epoch},{chance.getrandbits(64)},0" for epoch in range(16) for _ in range(clients))
    path = bench.write("refused", "epoch,client,entry", itertools.chain(records, ("16,1,1",)))
    pair = bench.ours("tree", 2), bench.plain("tree", 2, 1, "report")
    bench.agree(pair, path, status=1, stream="errors", seen=cause)
    return bench.compare("reading only", [(words, path, 1) for words in pair], bench.size(10, 3))


def rows(bench):
    rounds = bench.size(5, 3)
    yield reading_only(bench)

    def pair(network, hand, form="report"):
        ours = bench.ours(network, 64, "--hand", hand, "--form", form)
        return ours, bench.plain(network, 64, hand, form)

    def compare(name, jobs, path):
        bench.agree(jobs, path)
        return bench.compare(name, [(words, path) for words in jobs], rounds)

    many, one = bench.full(64), bench.full(1)
    yield compare("tree 64, hand 1", pair("tree", 1), one)
    yield compare("bitonic 64, hand 1", pair("bitonic", 1), many)
    yield compare("bitonic 64, hand 64", pair("bitonic", 64), many)
    yield compare("periodic 64, hand 64", pair("periodic", 64), many)
    yield compare("epochs of one client", pair("bitonic", 1, "grants"), bench.single(bench.size(65_536, 4_096)))

    script = bench.folder / "script.py"
    script.write_text(SCRIPT)
    ours, _ = pair("bitonic", 1, "grants")
    yield compare("a Python script with a dict", (ours, [sys.executable, str(script)]), many)


if __name__ == "__main__":
    measure.main(__doc__, rows)
