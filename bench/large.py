#!/usr/bin/env python3
"""What one large epoch takes: `renamer run --large`, beside mawk, Python, sort and sqlite3, which find a client that
stands twice too; and `renamer check --large` of its list of grants.

An epoch has 1, 10 or 50 million clients with random identities of 64 bits; the network is the tree of width 2, and
grants are printed. A row is the time by the clock. Beside it stand the processor's time, and the bytes at the peak by
client, as the kernel counts what is resident: sort and sqlite3 have more on disk. Of a million clients these are the
medians of five runs in turn, of more those of one. A peer that is not here is left out. 50 million clients take up to
6 GB of memory, 8 GB of the disk, and most of an hour: so give it --seconds 7200.
"""
import dataclasses
import re
import shutil
import statistics

import measure

PYTHON = """import sys
next(sys.stdin)
names = {}
for line in sys.stdin:
    names.setdefault(int(line.split(",")[1]), len(names))
sys.stdout.writelines(f"{client},{name}\\n" for client, name in names.items())
"""
# To look whether all ways print the same identities: names are shorter.
FEW, IDENTITY = 5_000, re.compile(rb"\d{8,}")
MILLION, ROUNDS = 1_000_000, 5


@dataclasses.dataclass
class Taken:
    """What a run took: seconds by the clock and of processors, and bytes at its peak."""
    clock: float
    processor: float
    peak: int


def ways(bench):
    """The words of each way, by its name. sqlite3 has its table in a new file."""
    yield "run --large", bench.ours("tree", 2, "--form", "grants", "--large")
    make, take = "create table batch (epoch, client text unique)", ".import --csv --skip 1 /dev/stdin batch"
    peers = {
        "mawk '!seen[$0]++'": ["mawk", "!seen[$0]++"],
        "a Python script with a dict": ["python3", "-c", PYTHON],
        "sort -u": ["sort", "-u", "-T", bench.folder],
        "sqlite3, a unique column": ["sqlite3", bench.folder / "batch.db", make, take, "select client from batch"],
    }
    for name, (program, *words) in peers.items():
        if shutil.which(program):
            yield name, [shutil.which(program), *map(str, words)]


def epoch(bench, clients):
    identities = (bench.chance.getrandbits(64) for _ in range(clients))
    return bench.write(f"epoch-{clients}", "epoch,client", (f"1,{client}" for client in identities))


def take(bench, words, path):
    """One run, and its peak."""
    (bench.folder / "batch.db").unlink(missing_ok=True)
    with open(bench.folder / "peak.txt", "w+") as errors:
        spent = bench.run([*measure.PEAK, *words], path, errors=errors, LC_ALL="C")
        errors.seek(0)
        return Taken(spent.clock, spent.processor, 1024 * int(errors.read()))


def grants(bench, words, path):
    """The list of grants that a run prints."""
    with open(bench.folder / "grants", "wb") as output:
        bench.run(words, path, output=output)
    return bench.folder / "grants"


def row(name, clients, runs):
    clock, processor, peak = (statistics.median(each) for each in zip(*map(dataclasses.astuple, runs)))
    detail = f"{processor:.3g} s of processor, {peak / clients:.0f} bytes a client, {len(runs)} runs"
    return measure.Row(f"{clients:,} clients, {name}", clock, detail, " s by the clock")


def rows(bench):
    asked, few = dict(ways(bench)), epoch(bench, FEW)
    for words in asked.values():
        bench.agree([words], few, seen=lambda text: len(set(IDENTITY.findall(text))) == FEW)
    for clients in bench.size((MILLION, 10 * MILLION, 50 * MILLION), (MILLION // 10,)):
        path, rounds = epoch(bench, clients), ROUNDS if clients <= MILLION else 1
        runs = [[take(bench, words, path) for words in asked.values()] for _ in range(rounds)]
        yield from (row(name, clients, way) for name, *way in zip(asked, *runs))
        ours, check = next(iter(asked.values())), [bench.proved, "check", "--width", "2", "--large"]
        listed = grants(bench, ours, path)
        yield row("check --large", clients, [take(bench, check, listed) for _ in range(rounds)])
        path.unlink()


if __name__ == "__main__":
    measure.main(__doc__, rows)
