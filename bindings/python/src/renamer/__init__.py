"""Tight one-shot renaming on counting networks: k clients get the names 0 to k-1, each once.

    >>> import renamer
    >>> renamer.number([17, 5, 99])
    array([0, 1, 2])
    >>> with renamer.Floor("tree", 2, quota=3) as floor:
    ...     with floor.lane() as lane:
    ...         names = lane.name(17), lane.name(5), lane.name(99)
    ...     closed = floor.close()
    >>> names, closed.holders.tolist(), closed.counts.tolist()
    ((0, 1, 2), [17, 5, 99], [2, 1])

`number` names the clients of one row, of any length. A `Floor` is for threads that name clients as they come: it is one
epoch of at most 262,144 clients, and each thread has a lane of its own. `renamer.dask` and `renamer.mpi` name the
clients of a data set that lies on many processes. A `Taker` takes names without end, of which no list is kept. `Slots`
are numbers that come back. By the proved program `check` looks at names from anywhere, and `run` names a batch.
"""

from ._arrays import Quiet
from ._floor import CLIENT, GRANT, Floor, Lane, Network
from ._library import (
    MOST_CLIENTS,
    LanesMissing,
    LanesThere,
    NoMemory,
    NoSuchEntry,
    NoSuchNetwork,
    NoSuchQuota,
    NothingBack,
    QuotaSpent,
    Refused,
    WasFreed,
    version,
)
from ._parts import Duplicate, Part, first_names, name_part, number
from ._program import NotTight, Refusal, check, program, run
from ._slots import Slot, Slots
from ._taker import Taker

__all__ = [
    "CLIENT",
    "GRANT",
    "MOST_CLIENTS",
    "Duplicate",
    "Floor",
    "Lane",
    "LanesMissing",
    "LanesThere",
    "Network",
    "NoMemory",
    "NoSuchEntry",
    "NoSuchNetwork",
    "NoSuchQuota",
    "NotTight",
    "NothingBack",
    "Part",
    "Quiet",
    "QuotaSpent",
    "Refusal",
    "Refused",
    "Slot",
    "Slots",
    "Taker",
    "WasFreed",
    "check",
    "first_names",
    "name_part",
    "number",
    "program",
    "run",
    "version",
]
__version__ = ".".join(map(str, version()))
# Tracebacks, pickles and help have them as users call them: renamer.Duplicate, without the file that it is made in.
for _name in __all__:
    if hasattr(_public := globals()[_name], "__qualname__"):
        _public.__module__ = __name__
