"""Names for arrays of any length, and for the parts of a data set that lies on many processes.

That the names of each floor are 0 to k-1, each once, is proved of the library. That floors, and parts, stand behind one
another is an addition, made here.
"""

from collections.abc import Sequence
from typing import Any, Literal, NamedTuple, overload

import numpy as np
import numpy.typing as npt

from ._arrays import Names, as_identities
from ._floor import Floor
from ._library import MOST_CLIENTS

# How many clients one call of the library names: a lane gets room for all of a call first.
AT_ONCE = 2048


class Duplicate(ValueError):
    """A client stands twice in an epoch. `client` is that client, and `epoch` its epoch, or None if there are none."""

    def __init__(self, client: Any, epoch: Any = None) -> None:
        super().__init__(client, epoch)
        self.client, self.epoch = client, epoch

    def __str__(self) -> str:
        return f"client {self.client} stands twice" + ("" if self.epoch is None else f" in epoch {self.epoch}")


class Part(NamedTuple):
    """The names of one part, as three arrays: `names[i]` is that of record i, from 0 on in its epoch and this part.
    `epochs` has each epoch that is here, in order, and `counts[e]` is how many clients `epochs[e]` has here."""

    names: Names
    epochs: npt.NDArray[Any]
    counts: Names


@overload
def number(clients: npt.ArrayLike, *, share: bool = ..., return_values: Literal[False] = ...) -> Names: ...
@overload
def number(
    clients: npt.ArrayLike, *, share: bool = ..., return_values: Literal[True]
) -> tuple[Names, npt.NDArray[Any]]: ...
def number(
    clients: "npt.ArrayLike", *, share: bool = False, return_values: bool = False
) -> "Names | tuple[Names, npt.NDArray[Any]]":
    """Names 0 to k-1 for the k clients of a row, each once: an array of int64, as long as the row.

    The row is an array, a list or a Series of any length, of whole numbers, texts, bytes or dates. The client at place
    i gets the name i. With `share` a client may stand often: all its records get one name, which is its rank among the
    distinct clients. With `return_values` a second array says who has which name: `values[n]` is the client with the
    name n, so `values[names]` is the row. Of datetimes with a zone these are the moments, in UTC.

    Raises Duplicate if a client stands twice, and TypeError if the clients are anything else, as booleans, floats or
    tuples, or not of one kind, or one is missing.

    The names of at most 262,144 clients are those of one floor; those of more are of floors behind one another.
    """
    wanted = as_identities(clients)
    names = name_part(wanted, share=True).names if share else _number_distinct(wanted)
    if not return_values:
        return names
    values = np.empty(names.max(initial=-1) + 1, wanted.dtype)
    values[names] = wanted
    return names, values


def _number_distinct(wanted: npt.NDArray[Any]) -> Names:
    # A set of texts takes less than a tenth of the time of their sorting.
    if len(wanted) and type(wanted[0]) is str and len(set(wanted)) == len(wanted):
        return count_off(len(wanted))
    in_order = np.sort(wanted)
    fresh = _is_fresh(in_order)
    if not fresh.all():
        raise Duplicate(in_order[np.argmin(fresh)])
    return count_off(len(wanted))


def name_part(clients: "npt.ArrayLike", epochs: "npt.ArrayLike | None" = None, *, share: bool = False) -> Part:
    """Names the clients of one part of a data set, each epoch from 0 on. With `share` the records of one client in an
    epoch share its name. Both rows are as `number` takes one, and equally long.

    Clients get their names in the order of their identities. So which client gets which name depends on the set of
    clients that are here, and on no order of records.

    Raises Duplicate if a client stands twice in an epoch, TypeError if a row is not of one kind or a value is missing,
    and ValueError if one row is longer.
    """
    wanted = as_identities(clients)
    group = np.zeros(len(wanted), np.int8) if epochs is None else as_identities(epochs)
    if len(group) != len(wanted):
        raise ValueError(f"{len(wanted)} clients, but {len(group)} epochs")
    order = np.argsort(wanted, kind="stable") if epochs is None else np.lexsort((wanted, group))
    wanted, group = wanted[order], group[order]
    begins = _is_fresh(group)
    fresh = begins | _is_fresh(wanted)
    if not share and not fresh.all():
        at = np.argmin(fresh)
        raise Duplicate(wanted[at], None if epochs is None else group[at])
    rank = np.cumsum(fresh) - 1
    first = np.flatnonzero(begins)
    counts = np.diff(np.append(rank[first], fresh.sum()))
    names = np.empty(len(wanted), np.int64)
    names[order] = np.concatenate([np.empty(0, np.int64), *map(count_off, counts.tolist())])[rank]
    return Part(names, group[first], counts)


def first_names(parts: Sequence[tuple[npt.NDArray[Any], Names]]) -> list[Names]:
    """Puts parts behind one another. Given the epochs and the counts of each part, at least of one, it returns for each
    part the first name of each of its epochs, which is how many clients the epoch has in earlier parts."""
    present = [epochs for epochs, _ in parts if len(epochs)] or [np.empty(0, np.int64)]
    epochs = np.concatenate(present)
    if epochs.dtype.kind == "f":  # numpy makes floats of int64 and uint64
        epochs = np.concatenate(present, dtype=object)
    counts = np.concatenate([counts for _, counts in parts])
    order = np.argsort(epochs, kind="stable")
    before = np.cumsum(counts[order]) - counts[order]
    begins = _is_fresh(epochs[order])
    first = np.empty(len(order), np.int64)
    first[order] = before - before[begins][np.cumsum(begins) - 1]
    return np.split(first, np.cumsum([len(counts) for _, counts in parts])[:-1])


def count_off(clients: int) -> Names:
    """Names for so many clients, whatever they are called: those of floors that stand behind one another."""
    names = np.empty(clients, np.int64)
    for first in range(0, clients, MOST_CLIENTS):
        end = min(clients, first + MOST_CLIENTS)
        with Floor("tree", 2, end - first) as floor, floor.lane() as lane:
            for at in range(first, end, AT_ONCE):
                # Places are the identities: no two are the same.
                some = np.arange(at, min(end, at + AT_ONCE), dtype=np.uint64)
                names[at : at + len(some)] = lane.name_many(some)
        names[first:end] += first
    return names


def _is_fresh(row: npt.NDArray[Any]) -> npt.NDArray[np.bool_]:
    """Of each value, whether it is not that before it."""
    fresh = np.ones(len(row), bool)
    fresh[1:] = row[1:] != row[:-1]
    return fresh
