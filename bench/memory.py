#!/usr/bin/env python3
"""The memory of `renamer` at its peak, as the kernel counts what is resident.

The report of 1,048,576 epochs of one client on bitonic 256, in megabytes of a million bytes; and that of an epoch of
262,144 clients there, beyond an empty batch, by client. A check by width 256 of the grants of as many epochs of one
client, and a replay of as many turns on tree 256, whose texts have a count for each exit of each epoch. GNU `time`
prints the peak of what it starts: what a script starts would begin with the script's own.
"""
import measure


def rows(bench):
    words = bench.ours("bitonic", 256)

    def of(path, words=words):
        """The peak in bytes of a job, a run if no other is asked for."""
        return 1024 * int(bench.written([*measure.PEAK, *words], path, stream="errors"))

    epochs, clients = bench.size(1_048_576, 4_096), bench.size(262_144, 16_384)
    yield measure.Row("epochs of one client, bitonic 256", of(bench.single(epochs)) / 1e6, f"{epochs:,} epochs", " MB")

    empty = of(bench.batch("empty", 0, 0, 256))
    epoch = bench.batch("epoch", 1, clients, 256)
    most = of(epoch)
    detail = f"{most / 1e6:.1f} MB, empty {empty / 1e6:.1f} MB"
    yield measure.Row(f"an epoch of {clients:,} clients", (most - empty) / clients, detail, " bytes a client")

    grants = bench.write("grants", "epoch,client,name", (f"{epoch},7,0" for epoch in range(epochs)))
    checked = of(grants, [bench.proved, "check", "--width", "256"]) / 1e6
    yield measure.Row("a check of epochs of one client, width 256", checked, f"{epochs:,} epochs", " MB")

    turns = bench.write("turns", "op,client,wire", ("turn,," for _ in range(epochs)))
    replayed = of(turns, [bench.proved, "replay", "--network", "tree", "--width", "256"]) / 1e6
    yield measure.Row("a replay of turns, tree 256", replayed, f"{epochs:,} turns", " MB")


if __name__ == "__main__":
    measure.main(__doc__, rows)
