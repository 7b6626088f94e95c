"""Names without end, of a floor that keeps no list of them."""

from __future__ import annotations

from . import _library as lib
from ._arrays import Clients, room
from ._floor import Network, Owned, as_network


class Taker(Owned):
    """A thread's own part of a floor whose names are only taken. Such a floor knows no clients: nobody can ask who has
    which name. It has no end, since it has 2^62 names. No take needs memory.

    `Taker(..)` opens a floor, as `Floor(..)` does, and is its first taker. Each other thread gets a taker by `split`.
    The names of k takes are 0 to k-1 once all have returned, whichever takers of the floor they are of. No name comes
    back, a later take may get a lower name, and a thread that is stopped within a take keeps one name from the others.

    Its calls raise WasFreed once it was freed.
    """

    _free = lib.free_taker

    def __init__(self, network: Network = "tree", width: int = 2, *, apart: bool = False) -> None:
        super().__init__(network, width)
        lib.open_takes(self._handle, *as_network(network, width), apart)

    def split(self) -> Taker:
        """Another taker of the same floor: with 2^40 names if more than three quarters of the floor's 2^62 are left to
        this one, as to a first taker at its first million splits, and else with 2^20, or half of what is left.

        Raises QuotaSpent if no two names are left, and NoMemory.
        """
        other = Taker.__new__(Taker)
        Owned.__init__(other, self.network, self.width)
        with self._lock:
            lib.split_taker(self._handle, other._handle)
        return other

    def take(self, entry: int = 0) -> int:
        """A name, by an entry. A tree has only entry 0.

        Raises NoSuchEntry, QuotaSpent, and OverflowError if the entry is out of range.
        """
        entry = lib.in_range(entry)
        with self._lock:
            lib.take_one(self._handle, entry, self._number)
            return self._number.value

    def take_many(self, count: int, entry: int = 0) -> Clients:
        """So many names by one entry, as an array of uint64 in no order that is said: all clients who are on a wire go
        on by one step, so a name costs the fewer steps the more are taken.

        Raises what `take` raises, also if the count is out of range, and NoMemory if there is none for the array. Then
        no name is taken.
        """
        names = room(lib.in_range(count))
        with self._lock:
            lib.take_many(self._handle, lib.in_range(entry), names.ctypes.data, len(names))
        return names

    @property
    def begun(self) -> int:
        """How many takes were begun by all takers of the floor, as far as this one can know: more than each name that
        it took, and never more than were begun."""
        with self._lock:
            return lib.ask(lib.takes_begun, self._handle)

    def _left(self) -> str:
        return f"{lib.ask(lib.takes_begun, self._handle)} takes begun"

    def free(self) -> None:
        """Frees the taker. What it has not taken is nobody's then. A second time it does nothing."""
        self._let_go()
