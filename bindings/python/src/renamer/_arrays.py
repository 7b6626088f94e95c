"""The rows of clients and names that calls take and return."""

import datetime
from operator import index
from typing import Any, NamedTuple

import numpy as np
import numpy.typing as npt

from ._library import NoMemory, in_range

Clients = npt.NDArray[np.uint64]
Names = npt.NDArray[np.int64]
# Arrays of whole numbers, texts, bytes and dates, and the objects that are these.
_COMPARED = "iuUSM"
_OBJECTS = str, bytes, datetime.date, np.datetime64
# Python and numpy call these whole numbers too.
_NO_NUMBERS = bool, np.timedelta64


class Quiet(NamedTuple):
    """What a closed floor says: `holders[n]` is the client with the name n, and `counts[i]` how many left by exit i."""

    holders: Clients
    counts: Clients


def room(count: int, kind: Any = np.uint64) -> npt.NDArray[Any]:
    """An array for so many records, with anything in it. Raises NoMemory."""
    try:
        return np.empty(count, kind)
    except (MemoryError, ValueError):  # numpy says ValueError of sizes that no memory has
        raise NoMemory(2) from None


def as_clients(clients: npt.ArrayLike) -> Clients:
    """Clients as a library and a program know them: one row of numbers from 0 to 2**64 - 1, in one piece. An array of
    uint64 in one piece is not copied, nor that of a Series.

    Raises TypeError if they are no row of whole numbers, and OverflowError if one is out of range.
    """
    row = as_identities(clients)
    if not len(row):
        return np.empty(0, np.uint64)
    if row.dtype.kind == "O" and type(row[0]) is int:
        return np.fromiter(map(in_range, row), np.uint64, len(row))
    if row.dtype.kind not in "iu":
        raise TypeError(f"whole numbers from 0 to 2**64 - 1 are wanted, and not {type(row[0]).__name__}")
    if row.dtype.kind == "i":
        in_range(row.min())
    return np.require(row, np.uint64, ["C", "A"])


def as_identities(values: npt.ArrayLike) -> npt.NDArray[Any]:
    """What records are told apart by, and sorted: one row of whole numbers, texts, bytes or dates, all of one kind and
    none missing. Datetimes with a zone are the moments that they mean, and come back in UTC.

    Raises TypeError for anything else. Floats are refused too: they make one number of 2**53 and 2**53 + 1.
    """
    row = _row(values)
    if not len(row):
        return row
    if row.dtype.kind == "O":
        row = _of_one_kind(row)
    elif row.dtype.kind not in _COMPARED:
        raise _not_identities(str(row.dtype))
    if row.dtype.kind == "M" and np.isnat(row).any():
        raise _not_identities("a date that is missing")
    return row


def _row(values: npt.ArrayLike) -> npt.NDArray[Any]:
    """An array of one dimension. Of a list the objects are taken as they are: numpy makes floats of [0, 2**63], and
    texts of [1, "1"]."""
    try:
        row = np.asanyarray(values) if hasattr(values, "__array__") else np.array(values, object)
    except ValueError:  # arrays of several shapes
        raise _not_identities("arrays") from None
    if isinstance(row, np.ma.MaskedArray) and np.any(row.mask):
        raise _not_identities("values that a mask hides")
    row = np.asarray(row)
    if row.ndim != 1:
        given = f"{row.ndim} dimensions" if row.ndim else f"one {type(values).__name__}"
        raise TypeError(f"one row is wanted, as an array or a list, and not {given}")
    return row


def _of_one_kind(row: npt.NDArray[Any]) -> npt.NDArray[Any]:
    """Objects that can be sorted so that equal ones meet: of others, as sets, `<` is no order of all."""
    kinds = set(map(type, row))
    if all(issubclass(kind, (int, np.integer)) and not issubclass(kind, _NO_NUMBERS) for kind in kinds):
        listed = list(map(index, row))
        numbers = np.array(listed)
        # Objects, if they are too large for one kind of numbers.
        return numbers if numbers.dtype.kind in "iu" else np.array(listed, object)
    kind = kinds.pop()
    if kinds or not issubclass(kind, _OBJECTS) or _has_its_own_order(kind):
        raise _not_identities(" and ".join(sorted(kind.__name__ for kind in {kind, *kinds})))
    if issubclass(kind, np.datetime64):
        if len({date.dtype for date in row}) > 1:
            raise _not_identities("dates in several units")
        return np.array(row.tolist())
    return _moments(row) if issubclass(kind, datetime.datetime) else row


def _has_its_own_order(kind: type) -> bool:
    """Whether a class compares by functions of Python, of which nobody knows whether they order."""
    return any(type(getattr(kind, name)) is not type(str.__lt__) for name in ("__lt__", "__eq__", "__ne__"))


def _moments(row: npt.NDArray[Any]) -> npt.NDArray[Any]:
    """Datetimes; those with a zone in UTC, since Python compares those of one zone by their clock, which may show one
    hour twice."""
    if not (row == row).all():
        raise _not_identities("a date that is missing")
    with_zone = {when.utcoffset() is not None for when in row}
    if len(with_zone) > 1:
        raise _not_identities("datetimes with a zone and without")
    return np.array([when.astimezone(datetime.timezone.utc) for when in row], object) if with_zone == {True} else row


def _not_identities(found: str) -> TypeError:
    return TypeError(f"whole numbers, texts, bytes or dates are wanted, of one kind and none missing, and not {found}")
