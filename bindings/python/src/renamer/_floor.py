"""A floor, its lanes, and what a closed floor says."""

from __future__ import annotations

import os
import threading
import weakref
from collections.abc import Callable
from functools import partial
from operator import attrgetter
from typing import Any, Literal, NoReturn, TypeVar

import numpy as np
import numpy.typing as npt

from . import _library as lib
from ._arrays import Clients, Quiet, as_clients, room

Network = Literal["bitonic", "periodic", "tree"]
_KINDS = {"bitonic": 0, "periodic": 1, "tree": 2}
# The records that a call takes and gives, as the header has them.
CLIENT = np.dtype([("client", "<u8"), ("entry", "<u8")])
GRANT = np.dtype([("client", "<u8"), ("exit", "<u8"), ("visit", "<u8"), ("name", "<u8")])
# How many clients a lane is for that `Floor.name` takes. What is left in lanes of others is out of a thread's reach.
_SMALL = 1024

_Some = TypeVar("_Some", bound="Owned")
_owned: weakref.WeakSet[Owned] = weakref.WeakSet()


def _forget() -> None:
    """In the child of a fork: two processes with one floor would give the same names. And a lock may be held by a
    thread that the child does not have."""
    for owned in list(_owned):
        owned._handle.at = None
        owned._lock = threading.Lock()


os.register_at_fork(after_in_child=_forget)


class Owned:
    """What one thread has of a floor: a handle, behind a lock. `with` frees it at its end, as does its last reference.

    A call on what another thread is using waits until that is done, so give each thread its own. Calls leave the GIL
    free. It can be neither copied nor pickled, and the child of a fork does not have it.
    """

    _free = lib.free_lane

    def __init__(self, network: Network, width: int) -> None:
        """With a handle that has nothing yet: a call puts something into that of an owner, so that it has one at once,
        whenever Ctrl-C comes."""
        self.network, self.width = network, width
        self._handle, self._lock, self._number = lib.Handle(), threading.Lock(), lib.Number()
        self._release = partial(type(self)._free, self._handle)
        _owned.add(self)

    # A function of C, which Ctrl-C cannot end: one of Python may end by it before it has done anything.
    __del__ = property(attrgetter("_release"), doc="Frees what it has.")

    def __enter__(self: _Some) -> _Some:
        return self

    def __exit__(self, *_: object) -> None:
        self._let_go()

    def __repr__(self) -> str:
        return f"<renamer.{type(self).__name__} {self.network} {self.width}, {self._state()}>"

    def _state(self) -> str:
        """What it has. If another call is using it that is said, and not waited for."""
        if not self._lock.acquire(blocking=False):
            return "in use"
        try:
            return self._left()
        except lib.WasFreed:
            return "freed"
        finally:
            self._lock.release()

    def _left(self) -> str:
        raise NotImplementedError

    def __reduce__(self) -> NoReturn:
        raise TypeError(f"a {type(self).__name__.lower()} has one owner: it can be neither copied nor pickled")

    def _let_go(self) -> None:
        with self._lock:
            self._release()


def as_network(network: Network, width: int) -> tuple[int, int]:
    """A network as a call takes it: its kind and its width, of which each that is too large is refused.

    Raises ValueError if there is no such kind, and OverflowError.
    """
    if network not in _KINDS:
        raise ValueError(f"no network is called {network!r}: take one of {', '.join(_KINDS)}")
    return _KINDS[network], min(lib.in_range(width), 2**32 - 1)


class Lane(Owned):
    """A thread's own part of a floor, which `Floor.lane` makes, and by which it names clients.

    Its calls raise WasFreed once it was handed back, and NoMemory.
    """

    def hand_back(self) -> None:
        """Hands the lane back to its floor, with its names and what is left of its quota. A second time it does
        nothing."""
        self._let_go()

    def name(self, client: int, entry: int = 0) -> int:
        """The name of a client, a number from 0 to 2**64 - 1, which comes in by an entry. A tree has only entry 0. A
        client that is named twice has two names.

        Raises NoSuchEntry, QuotaSpent, and OverflowError if a number is out of range.
        """
        client, entry = lib.in_range(client), lib.in_range(entry)
        with self._lock:
            lib.name_one(self._handle, client, entry, self._number)
            return self._number.value

    def name_many(self, clients: npt.ArrayLike, entry: int = 0) -> Clients:
        """The names of a row of clients, as an array of uint64 in its order. If the call is refused nobody has a name.

        Raises what `name` raises, and TypeError if the clients are no row of whole numbers.
        """
        wanted, entry = as_clients(clients), lib.in_range(entry)
        names = room(len(wanted))
        with self._lock:
            lib.name_list(self._handle, wanted.ctypes.data, len(wanted), entry, names.ctypes.data, len(names))
        return names

    def grant_many(self, clients: npt.NDArray[Any]) -> npt.NDArray[Any]:
        """Names the clients of an array of the dtype CLIENT, which is not copied: each record has a client and an
        entry. Returns as many records of the dtype GRANT, in the order in which the clients left. If the call is
        refused nobody has a name. Some 2,048 clients a call are the fastest.

        Raises NoSuchEntry, QuotaSpent, and TypeError if the array is another, or not in one piece.
        """
        if not isinstance(clients, np.ndarray) or isinstance(clients, np.ma.MaskedArray):
            raise TypeError(f"an array of the dtype renamer.CLIENT is wanted, and not one {type(clients).__name__}")
        if clients.dtype != CLIENT or clients.ndim != 1 or not clients.flags.c_contiguous:
            raise TypeError("the clients are no array of the dtype renamer.CLIENT in one piece")
        with self._lock:
            return self._grant(clients)

    def _grant(self, clients: npt.NDArray[Any]) -> npt.NDArray[Any]:
        grants = room(len(clients), GRANT)
        lib.name_many(self._handle, clients.ctypes.data, len(clients), grants.ctypes.data, len(grants))
        return grants

    @property
    def quota(self) -> int:
        """How many clients more the lane may let in."""
        with self._lock:
            return lib.ask(lib.quota_left, self._handle)

    def _left(self) -> str:
        return f"quota {lib.ask(lib.quota_left, self._handle)} left"


class _Here(threading.local):
    """What a thread has of a floor by which it named."""

    lane: Lane


class Floor:
    """A counting network on atomic words, by which at most `quota` clients get names: one epoch.

    `lane` gives each thread a lane of its own, and after the threads have ended `close` says who has which name. The
    width is 2, 4, 8, 16, 32, 64, 128 or 256. With `apart` no two words of the network share a cache line: that is for
    machines of many processors.

    Raises ValueError for a network that there is not, NoSuchNetwork for its width, NoSuchQuota, OverflowError and
    NoMemory.
    """

    def __init__(
        self, network: Network = "tree", width: int = 2, quota: int = lib.MOST_CLIENTS, *, apart: bool = False
    ) -> None:
        self.network, self.width = network, width
        self._rest, call = Lane(network, width), lib.open_apart if apart else lib.open_floor
        call(self._rest._handle, *as_network(network, width), lib.in_range(quota))
        self._here = _Here()

    def __enter__(self) -> Floor:
        return self

    def __exit__(self, *_: object) -> None:
        self._here = _Here()
        self._rest.hand_back()

    def __repr__(self) -> str:
        return f"<renamer.Floor {self.network} {self.width}, {self._rest._state()}>"

    def lane(self, quota: int | None = None) -> Lane:
        """A lane with so much of the quota, or with all that is left of it. Lanes that were handed back give theirs
        again.

        Raises QuotaSpent if less is left, OverflowError, NoMemory, and WasFreed if the floor was closed.
        """
        return self._split(lambda left: left if quota is None else lib.in_range(quota))

    def _split(self, wanted: Callable[[int], int]) -> Lane:
        lane, rest = Lane(self.network, self.width), self._rest
        with rest._lock:
            lib.join_all(rest._handle)
            lib.split_lane(rest._handle, wanted(lib.ask(lib.quota_left, rest._handle)), lane._handle)
        return lane

    def name(self, client: int, entry: int = 0) -> int:
        """The name of a client, for whichever thread asks. Each thread has a lane for 1,024 clients, or as many as are
        left, and another one when that is spent; it is handed back when the thread has ended, or the floor is closed.

        Raises QuotaSpent if nothing is left but in lanes of others, what `Lane.name` raises, and NoMemory.
        """
        try:
            return self._here.lane.name(client, entry)
        except (AttributeError, lib.QuotaSpent):
            self._here.lane = self._split(lambda left: min(left, _SMALL))
        return self._here.lane.name(client, entry)

    def close(self) -> Quiet:
        """Takes in all lanes that were handed back, and closes the floor.

        Raises LanesMissing or LanesThere while a lane is open, NoMemory, and WasFreed if the floor was closed.
        """
        quiet, rest = lib.Handle(), self._rest
        # With the old one go the lanes of all threads.
        self._here = _Here()
        try:
            with rest._lock:
                lib.join_all(rest._handle)
                lib.close_floor(rest._handle, quiet)
            holders = room(lib.ask(lib.quiet_clients, quiet))
            counts = room(lib.ask(lib.quiet_exits, quiet))
            lib.list_holders(quiet, holders.ctypes.data, len(holders))
            lib.list_counts(quiet, counts.ctypes.data, len(counts))
            return Quiet(holders, counts)
        finally:
            lib.free_quiet(quiet)
