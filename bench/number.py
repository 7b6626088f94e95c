#!/usr/bin/env python3
"""What renamer-number takes to add a column of names to a CSV, beside mawk with an array.

A row is the ratio of processor times, with all children: for a million rows of three columns with 500,000 different
ids, of which half the rows repeat one, in random order. Beside it stand two rows of memory: what is resident at the
peak, in megabytes, for a million rows of 20 and of 500 bytes with as many ids, from a file that is read twice.
"""
import sys

import measure

AWK = 'NR>1&&!($2 in n){n[$2]=k++}{print $0","n[$2]}'
ROUNDS = 7


def orders(bench, ids):
    """The table: each id once, and as many rows again of random ids."""
    chance = bench.chance
    rows = [chance.getrandbits(40) for _ in range(ids)]
    rows += chance.choices(rows, k=ids)
    chance.shuffle(rows)
    numbered = enumerate(rows)
    return bench.write("orders.csv", "order_id,customer_id,amount",
                       (f"{at},{client},{chance.randrange(10**7) / 100:.2f}" for at, client in numbered))


def wide(bench, rows, width):
    """A table of so many rows and ids, of so many bytes a row with its line end."""
    return bench.write(f"wide-{width}.csv", "id,text", (f"{at:07d},{'x' * (width - 9)}" for at in range(rows)))


def rows(bench):
    tool = str(measure.ROOT / "tools" / "number")
    ours = ["env", f"RENAMER={bench.proved}", sys.executable, tool, "--share", "--column"]
    orders_csv = orders(bench, bench.size(500_000, 20_000))
    pair = [[*ours, "customer_id"], ["mawk", "-F,", AWK]]
    bench.agree(pair, orders_csv, seen=lambda text: text.partition(b"\n")[2])
    yield bench.compare("a million rows, to mawk", [(words, orders_csv) for words in pair], bench.size(ROUNDS, 1))
    count = bench.size(1_000_000, 20_000)
    for width in (20, 500):
        table = wide(bench, count, width)
        kilobytes = int(bench.written([*measure.PEAK, *ours, "id"], table, stream="errors"))
        each = f"{kilobytes * 1024 / count:.0f} bytes a row"
        yield measure.Row(f"peak of rows of {width} bytes", kilobytes / 1000, each, " MB")
        table.unlink()


if __name__ == "__main__":
    measure.main(__doc__, rows)
