#!/usr/bin/env python3
"""What `renamer run --carry` takes beside `renamer run`, and what several workers take beside one, with it and without.

Carry: the full batch, 16 epochs of 65,536 clients, on bitonic 64 by one worker with one client in hand, and 65,536
epochs of one client, as grants. Times do not show a ratio near 1, so the instructions are counted, by valgrind's
callgrind; the times are of 60 runs each.

Workers: one epoch of each size of EPOCHS, nine runs, and half a million clients in epochs of this size, three runs, as
grants, on the networks and with the hands of FORMS, by the clock and in processor time. Where a ratio is above
AGAIN_ABOVE, as one of hundreds may be by a pause of the machine, the jobs of that form run again, AGAIN times, and
these runs count. Of all these a row has the one whose ratio is the greatest. The last row has the epochs of 65,536
clients on bitonic 64 by hand 1, by the clock.
"""
import collections
import itertools
import re

import measure

EPOCHS = (1, 2, 63, 64, 65, 128, 1_000, 8_191, 8_192, 10_000, 16_383, 16_384, 16_385, 65_536, 262_144)
WORKERS = (2, 4, 16, 64)
# Above which ratio a form is measured again, by the clock and in processor time, and by how many runs.
AGAIN_ABOVE, AGAIN = {"clock": 1.15, "processor": 1.4}, 15
# A network, and how many clients a worker has in hand.
FORMS = (("tree", 2, 1), ("tree", 64, 64), ("bitonic", 64, 1), ("bitonic", 64, 64))


def instructions(bench, words, path):
    counting = ["valgrind", "--tool=callgrind", "--callgrind-out-file=/dev/null", *words]
    found = re.search(rb"Collected : (\d+)", bench.written(counting, path, stream="errors"))
    if found is None:
        raise measure.Failed("valgrind counted no instructions")
    return int(found[1])


def beside_no_carry(bench):
    """Carry, beside none."""
    inputs = (
        ("full batch", bench.full(64), "report"),
        ("epochs of one client", bench.single(bench.size(65_536, 4_096)), "grants"),
    )
    for name, path, form in inputs:
        words = bench.ours("bitonic", 64, "--form", form)
        pair = [*words, "--carry"], words
        bench.agree(pair, path)
        counts = [instructions(bench, job, path) for job in pair]
        detail = " and ".join(f"{count:,}" for count in counts)
        yield measure.Row(f"{name}, instructions", counts[0] / counts[1], detail)
        yield bench.compare(f"{name}, times", [(job, path) for job in pair], bench.size(60, 3))


def batches(bench):
    """One epoch of each size, and many: what they are called, the file, and how many runs are made."""
    for clients, many in itertools.product(EPOCHS, (False, True)):
        count = min(524_288 if many else clients, bench.size(524_288, 8_192))
        records = (f"{at // clients},{bench.chance.getrandbits(64)}" for at in range(count))
        path = bench.write("batch", "epoch,client", records)
        yield f"{'epochs' if many else 'one epoch'} of {clients}", path, 3 if many else bench.size(9, 3)


def of_workers(bench, jobs, rounds):
    """What each job but the first took beside that: a row of each, by each time."""
    for runs in (rounds, bench.size(AGAIN, 3)):
        one, *others = bench.in_turn(jobs, runs)
        found = {(at, by): measure.ratio("", (spent, one), by) for at, spent in enumerate(others) for by in AGAIN_ABOVE}
        if all(row.value <= AGAIN_ABOVE[by] for (_, by), row in found.items()):
            break
    return found


def beside_one(bench):
    """Several workers, beside one. Their number settles only how long it takes, so their outputs are the same."""
    found = collections.defaultdict(dict)
    for batch, path, rounds in batches(bench):
        for (network, width, hand), carry in itertools.product(FORMS, (False, True)):
            words = bench.ours(network, width, "--hand", hand, "--form", "grants", *["--carry"] * carry)
            jobs = [[*words, "--workers", str(count)] for count in (1, *WORKERS)]
            bench.agree(jobs, path)
            for (at, by), row in of_workers(bench, [(job, path) for job in jobs], rounds).items():
                found[WORKERS[at], carry, by][f"{batch}, {network} {width}, hand {hand}"] = row
    for (count, carry, by), rows in sorted(found.items()):
        worst = max(rows, key=lambda name: rows[name].value)
        name = f"{count} to one, the most of all epochs{', carried' * carry}{', processor time' * (by == 'processor')}"
        yield measure.Row(name, rows[worst].value, f"{worst}: {rows[worst].detail}")
    row = found[4, False, "clock"]["epochs of 65536, bitonic 64, hand 1"]
    yield measure.Row("4 to one, epochs of 65536", row.value, row.detail)


def rows(bench):
    yield from beside_no_carry(bench)
    yield from beside_one(bench)


if __name__ == "__main__":
    measure.main(__doc__, rows)
