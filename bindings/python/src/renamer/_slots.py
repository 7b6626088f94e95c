"""Slots that come back."""

from __future__ import annotations

from . import _library as lib
from ._floor import Lane, Owned, as_network


class Slot(Owned):
    """A slot that is taken, which `Slots.take` makes. `with` gives it back at its end, as does its last reference."""

    @property
    def number(self) -> int:
        """Its number, which is below that of the slots. Raises WasFreed once it was given back."""
        with self._lock:
            return self._read()

    def _read(self) -> int:
        grant = (lib.Number * 4)()
        lib.list_grants(self._handle, 0, grant, 1)
        return grant[3]

    def _left(self) -> str:
        return f"number {self._read()}"

    def free(self) -> None:
        """Gives the slot back. A second time it does nothing."""
        self._let_go()


class Slots:
    """Slots with the numbers 0 to `count` - 1, at most 262,144, of which each has one owner at most. Any thread takes
    one, and nobody waits. Who forgets a slot loses it, and nobody else is harmed. A slot may outlive its pool.

    Raises NoSuchQuota, OverflowError and NoMemory.
    """

    def __init__(self, count: int) -> None:
        self.count = lib.in_range(count)
        self._first, network = Lane("tree", 2), as_network("tree", 2)
        lib.open_floor(self._first._handle, *network, self.count)
        for slot in range(self.count):
            with Lane("tree", 2) as lane:
                lib.split_lane(self._first._handle, 1, lane._handle)
                lib.name_one(lane._handle, slot, 0, lane._number)

    def __repr__(self) -> str:
        return f"<renamer.Slots {self.count}>"

    def take(self) -> Slot:
        """A slot, whichever is free. Raises NothingBack if at one moment of the call none was."""
        slot = Slot("tree", 2)
        # No lock: the pool's lane is only asked, and is there as long as the pool.
        lib.take_back(self._first._handle, slot._handle)
        return slot
