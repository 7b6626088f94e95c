"""What each of four processes does; the first prints that all of it is right."""

import numpy as np
from mpi4py import MPI

import renamer
import renamer.mpi

comm = MPI.COMM_WORLD
for size in (0, 1, 5, 50_000):
    own = np.random.default_rng([size, comm.rank]).integers(0, 2**64, size * (comm.rank + 1), dtype=np.uint64)
    parts = comm.gather((own, renamer.mpi.number(own)))
    again = comm.gather(renamer.mpi.number(own[::-1])[::-1])
    if comm.rank == 0:
        clients, names = (np.concatenate(part) for part in zip(*parts))
        assert (np.sort(names) == np.arange(10 * size)).all()
        assert (names == np.concatenate(again)).all()
own = np.array([comm.rank, 100 + comm.rank % 3], np.uint64)
try:
    renamer.mpi.number(own)
    raise SystemExit("a duplicate was not found")
except renamer.Duplicate as found:
    assert found.client == 100
parts = comm.gather(renamer.mpi.number(own, share=True))
if comm.rank == 0:
    assert set(np.concatenate(parts)) == set(range(7)) and parts[0][1] == parts[3][1]
    print("tight")
