"""The calls of renamer.h that the package makes, with their types, and an exception for each status."""

from __future__ import annotations

import ctypes
import pathlib
from operator import index
from typing import Any, Callable, SupportsIndex

MOST_CLIENTS = 262_144


class Refused(Exception):
    """The library refused a call, which changed nothing. `status` is that of renamer.h."""

    # What is said in place of the library's sentence, if that speaks of calls that Python has not.
    _said = ""

    def __init__(self, status: int) -> None:
        super().__init__(status)
        self.status = status

    def __str__(self) -> str:
        sentence: bytes = _library.renamer_explain(self.status)
        return self._said or sentence.decode()


class WasFreed(Refused, ValueError):
    """The lane was handed back or the floor closed, or a fork took it: the child of a process has no lanes of its
    parent."""

    _said = "it was handed back, closed or freed, or this is the child of a fork, which has none of its parent's lanes"


class NoMemory(Refused, MemoryError):
    """The system gave no memory."""


class NoSuchNetwork(Refused, ValueError):
    """There is no network of this width."""


class NoSuchQuota(Refused, ValueError):
    """A floor takes no quota above 262,144."""


class NoSuchEntry(Refused, ValueError):
    """The network has no entry with this number."""


class QuotaSpent(Refused):
    """The lane may let in no more clients, or not so many; or it has less quota than is to be split off."""

    _said = "there is not so much quota left: the attribute quota of a lane says how much it has"


class LanesMissing(Refused):
    """Other lanes of the floor have quota or names of it: hand them back before the close."""

    _said = "other lanes of the floor have quota or names of it: hand them back before"


class NothingBack(Refused):
    """All slots are taken."""

    _said = "all slots are taken"


class LanesThere(Refused):
    """Other lanes of the floor are still there, though with nothing of it: hand them back before the close."""


# The other statuses come of calls that the package does not make.
_REFUSALS = {
    1: WasFreed,
    2: NoMemory,
    3: NoSuchNetwork,
    4: NoSuchNetwork,
    5: NoSuchQuota,
    6: NoSuchEntry,
    7: QuotaSpent,
    8: QuotaSpent,
    11: LanesMissing,
    12: NothingBack,
    15: LanesThere,
}


def refuse(status: int, *_: object) -> None:
    """Raises what stands for a status, but for that of a call that is done."""
    if status:
        raise _REFUSALS.get(status, Refused)(status)


class Handle(ctypes.Structure):
    """A lane or a closed floor, as the header has it: all zero is none."""

    _fields_ = [("at", ctypes.c_void_p)]


def _load() -> ctypes.CDLL:
    """The library of this package, or if that has none the one that the system finds."""
    packed = pathlib.Path(__file__).with_name("librenamer.so.1")
    # CDLL, and not PyDLL: calls leave the GIL free.
    return ctypes.CDLL(str(packed) if packed.exists() else packed.name)


def _call(name: str, *kinds: Any) -> Callable[..., None]:
    function: Any = getattr(_library, name)
    function.argtypes, function.restype, function.errcheck = kinds, ctypes.c_uint32, refuse
    return function  # type: ignore[no-any-return]


def _free(name: str) -> Callable[[Handle], None]:
    function: Any = getattr(_library, name)
    function.argtypes, function.restype = [_handle], None
    return function  # type: ignore[no-any-return]


_library = _load()
_library.renamer_explain.argtypes, _library.renamer_explain.restype = [ctypes.c_uint32], ctypes.c_char_p
_library.renamer_version.argtypes, _library.renamer_version.restype = [], ctypes.c_uint32
Number = ctypes.c_uint64
_word, _size, _handle = ctypes.c_uint32, ctypes.c_size_t, ctypes.POINTER(Handle)
_number, _array = ctypes.POINTER(Number), ctypes.c_void_p
open_floor = _call("renamer_open", _handle, _word, _word, Number)
open_apart = _call("renamer_open_apart", _handle, _word, _word, Number)
split_lane = _call("renamer_split", _handle, Number, _handle)
name_one = _call("renamer_name", _handle, Number, Number, _number)
name_list = _call("renamer_name_list", _handle, _array, _size, Number, _array, _size)
name_many = _call("renamer_name_many", _handle, _array, _size, _array, _size)
quota_left = _call("renamer_quota", _handle, _number)
list_grants = _call("renamer_grants", _handle, Number, _array, _size)
join_all = _call("renamer_join_all", _handle)
take_back = _call("renamer_take_back", _handle, _handle)
close_floor = _call("renamer_close", _handle, _handle)
quiet_exits = _call("renamer_quiet_exits", _handle, _number)
quiet_clients = _call("renamer_quiet_clients", _handle, _number)
list_counts = _call("renamer_counts", _handle, _array, _size)
list_holders = _call("renamer_holders", _handle, _array, _size)
open_takes = _call("renamer_open_takes", _handle, _word, _word, _word)
split_taker = _call("renamer_split_taker", _handle, _handle)
take_one = _call("renamer_take", _handle, Number, _number)
take_many = _call("renamer_take_many", _handle, Number, _array, _size)
takes_begun = _call("renamer_takes_entered", _handle, _number)
free_lane = _free("renamer_free")
free_quiet = _free("renamer_free_quiet")
free_taker = _free("renamer_free_taker")


def ask(call: Callable[..., None], handle: Handle) -> int:
    """What a call says that writes one number."""
    answer = Number()
    call(handle, answer)
    return answer.value


def in_range(number: SupportsIndex) -> int:
    """The number, if 64 bits hold it: `ctypes` takes any, and cuts it off."""
    found = index(number)
    # What is left of a number below 0 is -1.
    if found >> 64:
        raise OverflowError(f"{found} is not a number from 0 to 2**64 - 1")
    return found


def version() -> tuple[int, int, int]:
    """The version of the library."""
    packed: int = _library.renamer_version()
    return packed // 1_000_000, packed // 1_000 % 1_000, packed % 1_000
