"""Names for a data frame of Dask: 0 to k-1 over all its partitions, each once.

    named = renamer.dask.number(frame, "client")                  # the frame, with one column more, "name"
    named = renamer.dask.number(frame, "client", epoch="day")     # each day has names of its own
    renamer.dask.check(named)                                     # how many, if they are tight
"""

from __future__ import annotations

import inspect
from operator import itemgetter
from typing import Any

import dask
import dask.dataframe as dd
import numpy as np

from . import _program
from ._arrays import as_identities
from ._parts import first_names, name_part


def number(
    frame: Any,
    column: str,
    *,
    epoch: str | None = None,
    whole: bool = False,
    name: str = "name",
    share: bool = False,
    proved: bool = False,
) -> Any:
    """The frame, shuffled, with a column of names more. The clients are those of a column, or of two if there is one of
    epochs: then each epoch has the names from 0 on. As it is computed Duplicate is raised if a client stands twice in
    an epoch; with `share` all its records there get one name.

    The records go to partitions by the hash of client and epoch, so equal clients meet. Each partition names its
    clients in the order of their identities, and counts them; the counts are added up for the first name of each
    partition. So a name depends on the set of clients and on the number of partitions, and not on an order or on who
    computes what: a partition that is computed again has the same names. If it has other counts then, the computation
    fails with RuntimeError.

    With `whole` each epoch stays in one partition, which is for many small ones. With `proved` each partition is named
    by one run of the proved program, which finds duplicates too, and raises Refusal, with places in the partition: then
    clients and epochs are numbers from 0 to 2**64 - 1. Each worker needs this package.

    Raises TypeError if this is no data frame of Dask, KeyError if it has no such columns, and ValueError if it has one
    of the name, or both `share` and `proved` are asked for. As it is computed TypeError is raised if the clients of a
    partition are not of one kind, or one is missing.
    """
    keys = [column] if epoch is None else [epoch] if whole else [epoch, column]
    _look_at(frame, column, *keys)
    if share and proved:
        raise ValueError("the program shares no names: take share, or proved")
    if name in frame.columns:
        raise ValueError(f"the frame has a column {name!r} already: call that of the names otherwise")
    # Names are added to their records in one task: in another, the records could come in another order.
    named = [
        dask.delayed(_named)(part, column, epoch, name, share, proved)
        for part in _shuffled(frame, keys, frame.npartitions).to_delayed()
    ]
    places = dask.delayed(_places)([dask.delayed(itemgetter(1, 2))(part) for part in named])
    placed = [dask.delayed(_placed)(part, places[at], epoch, name) for at, part in enumerate(named)]
    return dd.from_delayed(placed, meta=frame._meta.assign(**{name: np.int64(0)}), verify_meta=False)


def check(named: Any, name: str = "name") -> int:
    """Lets the proved program look whether the names of a frame without epochs are 0 to k-1, each once, and returns k.
    The names come to the process that asks, which needs the program, and memory for them.

    Raises NotTight if they are not, TypeError if this is no data frame of Dask, and KeyError if it has no such column.
    """
    _look_at(named, name)
    return _program.check(named[name].compute())


def _look_at(frame: Any, *columns: str) -> None:
    if not isinstance(frame, dd.DataFrame):
        given = f"{type(frame).__module__.partition('.')[0]}.{type(frame).__name__}"
        raise TypeError(f"a data frame of Dask is wanted, as dask.dataframe.from_pandas makes one, and not {given}")
    if absent := [column for column in columns if column not in frame.columns]:
        raise KeyError(f"there is no column {absent[0]!r}: the columns are {', '.join(map(repr, frame.columns))}")


def _shuffled(frame: Any, keys: list[str], partitions: int) -> Any:
    """Partitions in which records with the same keys meet. Later versions of Dask have another word for how."""
    is_later = "shuffle_method" in inspect.signature(frame.shuffle).parameters
    return frame.shuffle(on=keys, npartitions=partitions, **{"shuffle_method" if is_later else "shuffle": "tasks"})


def _named(part: Any, column: str, epoch: str | None, name: str, share: bool, proved: bool) -> tuple[Any, Any, Any]:
    """A partition with its names, its epochs and their counts."""
    clients, epochs = part[column], None if epoch is None else part[epoch]
    made = _program.run_part(clients, epochs) if proved else name_part(clients, epochs, share=share)
    return part.assign(**{name: made.names}), made.epochs, made.counts


def _places(parts: list[tuple[Any, Any]]) -> list[tuple[Any, Any, Any]]:
    """For each partition its epochs, their counts and their first names."""
    return [(epochs, counts, first) for (epochs, counts), first in zip(parts, first_names(parts))]


def _placed(named: tuple[Any, Any, Any], place: tuple[Any, Any, Any], epoch: str | None, name: str) -> Any:
    """A partition behind those before it."""
    part, epochs, counts = named
    if not (np.array_equal(epochs, place[0]) and np.array_equal(counts, place[1])):
        raise RuntimeError("a partition was computed again, with other clients: persist or save the frame before")
    of_record = np.zeros(len(part), int) if epoch is None else np.searchsorted(epochs, as_identities(part[epoch]))
    return part.assign(**{name: part[name] + place[2][of_record]})
