#!/usr/bin/env python3
"""What a name costs by the library, through the crate in bindings/rust, beside other ways to number clients.

Floors of 262,144 names on the trees of width 2 and 64 and the bitonic networks of width 8 and 64, in one, two and four
threads; beside these peers: one atomic add on one word for a name (`AtomicU64::fetch_add`), or for 64; the same add,
and the client written to an array; a vector of clients behind a mutex (`Mutex<Vec>`) and one that needs none
(`tbb::concurrent_vector`, in C++); a table of clients behind a mutex (`Mutex<HashMap>`); a slab behind a mutex (`slab`)
and one of shards (`sharded_slab`), of which there are rows too by which each client gives its key back before the next
comes. Each gives distinct numbers, dense ones but for a slab of shards, and begins with room for all clients, but for
that slab. Each thread lets its clients in by entries of its own; for the bitonic networks there are rows beside that by
which each takes all entries. Rows `apart` are of floors whose words lie 128 bytes apart.

Rows of takes and lists of takes are of takers, which keep no list. One thread is compared by processor time, in
uncontended adds, and on some networks to a walk in plain Rust, which makes as many adds as a name is, each on the word
that the last one's number leads to. Single calls that name clients are compared to such a walk with a call and a grant:
for each client a function is called that is no part of its caller, and that puts a grant of 32 bytes on a list with
room, as a lane does. Takes are compared to the plain walk itself, which is made without a call, though a take is one.
Several threads are compared by the clock, each way to the add by as many threads. A ratio is the median over ten
rounds, in which all ways run in turn; a run is the median of five epochs after a first, in which its memory comes from
the system. It measures the names only, and not what is made before. Rows of lanes are what a lane takes without a name,
by one thread: split off, handed back and joined, with as many there as the row says; the same of every eighth by turns,
while the others are out; and a join while none is back. Rows of slots are what it takes to take one of so many and to
give it back, while the others are free or out; and the same of 1,000 by a free list behind a mutex, by a bitmap, and by
boost's stack and queue and moodycamel's queue, all without a lock. The rows of slabs are left out if the folder of
crates has none, and those of C++ if a header is not there.
"""
import os
import statistics

import measure

NETWORKS = (("tree", 2), ("tree", 64), ("bitonic", 8), ("bitonic", 64))
THREADS = {1: "one thread", 2: "two threads", 4: "four threads"}
# How many lanes are there.
LANES = (1, 8, 64, 1000, 100000)
BY_LANES = {"lanes": "split off, handed back and joined", "eighth": "with seven eighths of them out",
            "none": "a join with none back"}
# How many slots there are, and of how many other pools are.
SLOTS, POOLED = (8, 1000, 100000), 1000
BY_SLOTS = {"slots": "taken and given back", "last": "the last of them"}
TABLE, ADD, ADD_MANY, REFUSED = "a mutex and table", "the add", "the add of 64", "a refused call"
# How many adds a name is, and a take.
ADDS = {"tree 2": 3, "tree 64": 8, "bitonic 64": 23}
# Walks in plain Rust.
PLAIN, GRANTED = "a plain walk of {} adds", "a plain walk of {} adds with call and grant"
PEERS = {ADD: "add", ADD_MANY: "add-many", "the add and an array": "holders", "a mutex and vector": "vector",
         TABLE: "table"}
SLABS = {"a mutex and slab": "slab", "a mutex and slab, given back": "slab-back",
         "a sharded slab": "sharded", "a sharded slab, given back": "sharded-back"}
IN_C = {"a concurrent vector": "vector"}
POOLS = {"a mutex and free list": "list", "a bitmap": "bitmap", "a stack without a lock": "stack",
         "a queue without a lock": "queue", "moodycamel's queue": "moodycamel"}
HEADERS = ("/usr/include/tbb/concurrent_vector.h", "/usr/include/boost/lockfree/stack.hpp",
           "/usr/include/concurrentqueue/concurrentqueue.h")
BY_LISTS = (" by lists of 64", " by takes of 64")
ALL_OVER = {f"{network} {width} by all entries": ["all-over", network, str(width)]
            for network, width in NETWORKS if network == "bitonic"}
APART = {f"{network} {width} apart": ["apart", network, str(width)] for network, width in NETWORKS if width > 2}


def ways(namers, slabs, peers):
    """The words of each way but those of its threads and rounds."""
    found = {name: [namers, word] for name, word in PEERS.items()}
    for network, width in NETWORKS:
        found[f"{network} {width}"] = [namers, "name", network, str(width)]
        found[f"{network} {width} by lists of 64"] = [namers, "many", network, str(width)]
        found[f"{network} {width} by takes"] = [namers, "take", network, str(width)]
        found[f"{network} {width} by takes of 64"] = [namers, "take-many", network, str(width)]
    found |= {name: [namers, *words] for name, words in APART.items()}
    found |= {name: [slabs, word] for name, word in SLABS.items() if slabs}
    return found | {name: [peers, word] for name, word in (IN_C | POOLS).items() if peers}


def lanes_and_slots(namers):
    """The words of each way of lanes and slots, by its threads."""
    found = {(f"{lanes} lane{'s' * (lanes > 1)}, {what}", 1): [namers, word, str(lanes), "1"]
             for word, what in BY_LANES.items() for lanes in LANES}
    return found | {(f"{slots} slots, {what}", threads): [namers, word, str(slots), str(threads)]
                    for word, what in BY_SLOTS.items() for slots in SLOTS
                    for threads in (THREADS if (word, slots) == ("slots", POOLED) else (1,))}


def measured(bench, jobs):
    """What a name takes by each job, in nanoseconds, round by round: by the clock, and of a processor."""
    names, spent = list(jobs), {job: [] for job in jobs}
    for first in range(bench.size(10, 2)):
        for place in range(len(names)):
            job = names[(first + place) % len(names)]
            clock, processor = map(float, bench.written([*jobs[job], str(bench.size(5, 1))]).split())
            spent[job].append({"clock": clock, "processor": processor})
    return spent


def compared(spent, job, other, by):
    """The median of the ratios of two jobs, and the medians of their times."""
    first, second = ([one[by] for one in spent[name]] for name in (job, other))
    ratio = statistics.median(a / b for a, b in zip(first, second))
    return ratio, f"{statistics.median(first):.1f} ns and {statistics.median(second):.1f} ns"


def rows(bench):
    namers = bench.cargo("library", "namers", library=True)
    slabs = bench.cargo("slabs", "slabs") if bench.has_crates("slab", "sharded-slab") else None
    are_there, compiler = all(map(os.path.exists, HEADERS)), ["c++", "-O3", "-Wl,--no-as-needed", "-ltbb"]
    peers = bench.compiled(compiler, "library/peers.cpp", "peers") if are_there else None
    found = ways(namers, slabs, peers)
    jobs = {(way, threads): [*words, str(threads)] for way, words in found.items() for threads in THREADS}
    jobs |= {(way, threads): [namers, *words, str(threads)] for way, words in ALL_OVER.items() for threads in (2, 4)}
    jobs[REFUSED, 1] = [namers, "refused", "1"]
    jobs |= lanes_and_slots(namers)
    jobs |= {(walk.format(adds), 1): [namers, word, str(adds), "1"]
             for walk, word in ((PLAIN, "walk"), (GRANTED, "granted-walk")) for adds in ADDS.values()}
    spent = measured(bench, jobs)
    for way, threads in jobs:
        if way != ADD:
            by, unit = ("processor", " adds") if threads == 1 else ("clock", "")
            ratio, times = compared(spent, (way, threads), (ADD, threads), by)
            yield measure.Row(f"{way}, {THREADS[threads]}", ratio, f"{times}{' by the clock' * (threads > 1)}", unit)
    for way in (network + by for network in ("tree 2", "tree 64") for by in BY_LISTS):
        ratio, times = compared(spent, (way, 1), (ADD_MANY, 1), "processor")
        yield measure.Row(f"{way}, one thread, to {ADD_MANY}", ratio, times)
    for by, walk in (("", GRANTED), (" by takes", PLAIN), (" by takes of 64", PLAIN)):
        for network, adds in ADDS.items():
            ratio, times = compared(spent, (network + by, 1), (walk.format(adds), 1), "processor")
            yield measure.Row(f"{network}{by}, one thread, to {walk.format(adds)}", ratio, times)
    no_floor = (*PEERS, *SLABS, *IN_C, *POOLS)
    for way in [way for way, threads in jobs if threads == 4 and way not in no_floor and " slots" not in way]:
        ratio, times = compared(spent, (way, 4), (TABLE, 4), "clock")
        yield measure.Row(f"{way}, four threads, to {TABLE}", ratio, f"{times} by the clock")


if __name__ == "__main__":
    measure.main(__doc__, rows)
