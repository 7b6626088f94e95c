"""Names for the clients of the processes of an MPI program: 0 to k-1 over all of them, each once.

    names = renamer.mpi.number(clients)  # each process has its own clients, and gets their names in their order

Run it by `mpirun python -m mpi4py PROGRAM`: without `-m mpi4py` the others wait for ever if one process fails.
"""

from __future__ import annotations

from typing import Any

import numpy as np
import numpy.typing as npt
from mpi4py import MPI

from ._arrays import Names, as_clients
from ._parts import Duplicate, name_part

# By which identities that lie side by side go to different processes.
_MIX = np.uint64(0x9E3779B97F4A7C15)


def number(clients: npt.ArrayLike, comm: Any = MPI.COMM_WORLD, *, share: bool = False) -> Names:
    """The names of this process's clients, in their order. All processes of the communicator call it. Clients are
    numbers from 0 to 2**64 - 1. Duplicate is raised in all processes if a client stands twice in any; with `share` all
    its records get one name.

    Each client goes to the process that its hash says, gets its name there as `name_part` gives it, and the name comes
    back, as int64.

    Raises, in the process that has them, TypeError if the clients are no row of whole numbers, and OverflowError if one
    is out of range.
    """
    own = as_clients(clients)
    mixed = own * _MIX
    place = (mixed ^ (mixed >> np.uint64(32))) % np.uint64(comm.size)
    order = np.argsort(place, kind="stable")
    sent = np.bincount(place.astype(np.int64), minlength=comm.size)
    got = np.empty_like(sent)
    comm.Alltoall(sent, got)
    here = np.empty(got.sum(), np.uint64)
    comm.Alltoallv([own[order], sent], [here, got])
    part, twice = _named(here, share)
    if found := [client for client in comm.allgather(twice) if client is not None]:
        raise Duplicate(found[0])
    first = comm.exscan(int(part.counts.sum())) or 0
    back, names = np.empty(len(own), np.int64), np.empty(len(own), np.int64)
    comm.Alltoallv([part.names + first, got], [back, sent])
    names[order] = back
    return names


def _named(clients: npt.NDArray[np.uint64], share: bool) -> tuple[Any, Any]:
    """The part of these clients; or if one stands twice, that client."""
    try:
        return name_part(clients, share=share), None
    except Duplicate as found:
        return None, found.client
