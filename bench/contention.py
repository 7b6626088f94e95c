#!/usr/bin/env python3
"""A model of processors that name clients by atomic adds, of which a cache line serves one at a time: docs/SCALE.md.

    bench/contention.py           prints names per microsecond by the number of processors: the table of the page
    bench/contention.py --check   says whether the model gives what can be reckoned by hand

Each processor asks for one name after another. An add waits until its line is free. On a line that the processor used
last it takes OWN nanoseconds; on any other it takes OTHER, and keeps the line for BUSY of these. So adds on one line by
many processors follow one another at the distance BUSY, while each of them takes longer.

The networks are those that `renamer show` prints. The status of a check is 0 only if each rate is as by hand.
"""
import heapq
import multiprocessing
import pathlib
import random
import sys

# No folder of compiled modules among the scripts.
sys.dont_write_bytecode = True
ROOT = pathlib.Path(__file__).resolve().parents[1]
sys.path.append(str(ROOT / "tools"))
from picture_parts.wiring import End, Wiring, shown

OWN, OTHER, BUSY = 7.0, 58.0, 20.0
WORDS_IN_A_LINE = 8
# An add takes from 0.7 to 1.3 of its price, at random. If all took the same, processors would walk in step, and each
# would find its own lines.
SPREAD = 0.3
NETWORKS = ("tree-64", "bitonic-8", "bitonic-16", "bitonic-32", "bitonic-64")
STRIDES, PROCESSORS = (8, 1), (1, 2, 4, 8, 16, 32, 64, 128, 256, 1024)
# A rate is reckoned from so many names, and from so many of each processor.
NAMES, NAMES_OF_EACH = 8000, 20
# By hand a rate may be off by a fiftieth: prices are drawn at random, and the last names end at different times.
EXACT = 0.02


class Lines:
    """Cache lines: when each is free, and which processor used it last."""

    def __init__(self):
        self.random, self.free, self.last = random.Random(1), {}, {}

    def add(self, processor, now, line):
        """When an add on the line ends that is asked for now."""
        start = max(now, self.free.get(line, 0.0))
        is_own = self.last.get(line, processor) == processor
        end = start + (OWN if is_own else OTHER) * self.random.uniform(1 - SPREAD, 1 + SPREAD)
        self.free[line] = end if is_own else start + BUSY
        self.last[line] = processor
        return end


def word_of(network, end):
    """The word of an end: words are those of the entries, of the balancers and of the exits."""
    return network.entries + end.number + (network.balancers if end.is_exit else 0)


def rate(network, stride, processors, names=0):
    """The names per microsecond of a network whose words lie so many words apart, or of one word without a network.

    A name is an add at an entry, at each balancer on the way and at an exit. A processor lets its clients in by one
    entry of its own, or by all in turn if there are fewer entries than processors.
    """
    entries, balancers = (network.entries, network.balancers) if network else (1, 0)
    lines, counts, named, now = Lines(), [0] * balancers, 0, 0.0
    names = names or max(NAMES, NAMES_OF_EACH * processors)
    # When a processor goes on, its number, the wire on which its client stands, and by which entry the next comes in.
    waiting = [(0.0, processor, None, processor % entries) for processor in range(processors)]
    while named < names:
        now, processor, wire, entry = heapq.heappop(waiting)
        end = network.ends[wire] if network and wire is not None else None
        word = entry if end is None else word_of(network, end)
        now = lines.add(processor, now, word * stride // WORDS_IN_A_LINE)
        if network is None or (end and end.is_exit):
            wire, named, entry = None, named + 1, (entry + (entries < processors)) % entries
        elif end is None:
            wire = entry
        else:
            wire = entries + 2 * end.number + counts[end.number] % 2
            counts[end.number] += 1
        heapq.heappush(waiting, (now, processor, wire, entry))
    return 1000 * names / now


def table():
    """The rows of the page: one counter, and each network with each stride."""
    networks = [shown(ROOT / "renamer", name) for name in NETWORKS]
    kinds = [(None, 1)] + [(network, stride) for network in networks for stride in STRIDES]
    with multiprocessing.Pool() as pool:
        rates = iter(pool.starmap(rate, [(*kind, number) for kind in kinds for number in PROCESSORS], chunksize=1))
    for name, stride in [("one counter", "")] + [(name, stride) for name in NETWORKS for stride in STRIDES]:
        row = [next(rates) for _ in PROCESSORS]
        title = name.replace("-", " ") if stride != STRIDES[-1] else ""
        yield f"| {title} | {stride} | {' | '.join(f'{value:.{int(value < 9.95)}f}' for value in row)} |".replace("  ", " ")


# ---- by hand

def exits_only(width):
    """Entries whose wires end at exits of their own."""
    return Wiring("", width, [End(True, number) for number in range(width)], [])


def one_way(depth):
    """One entry, and a balancer after another: output 0 leads on, and output 1 to the same exit for all that came by it."""
    ons = [End(False, balancer + 1) for balancer in range(depth - 1)] + [End(True, 0)]
    return Wiring("", 1, [End(False, 0), *(on for on in ons for _ in range(2))], [[]] * depth)


# A network, its stride, the processors, and the rate by hand.
BY_HAND = (
    (None, 1, 1, 1000 / OWN),  # one counter
    (None, 1, 64, 1000 / BUSY),  # an add each time its line is free
    (one_way(6), 8, 1, 1000 / (8 * OWN)),  # eight adds
    (one_way(6), 8, 64, 1000 / BUSY),  # the entry's add each time its line is free
    (one_way(6), 1, 64, 1000 / (8 * BUSY)),  # eight words in one line
    (exits_only(64), 8, 64, 64 * 1000 / (2 * OWN)),  # lines of one's own: two adds
)


def main():
    if sys.argv[1:] not in ([], ["--check"]):
        print(__doc__)
        return 2 * (sys.argv[1:] not in (["-h"], ["--help"]))
    if not sys.argv[1:]:
        print("\n".join(table()))
        return 0
    found = [(rate(network, stride, processors, 10000), by_hand) for network, stride, processors, by_hand in BY_HAND]
    wrong = [(modelled, by_hand) for modelled, by_hand in found if abs(modelled / by_hand - 1) > EXACT]
    print("".join(f"{modelled:.2f}, and not {by_hand:.2f}\n" for modelled, by_hand in wrong), end="")
    print(f"{len(found)} rates, {len(wrong)} wrong")
    return len(wrong) > 0


if __name__ == "__main__":
    sys.exit(main())
