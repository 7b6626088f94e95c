"""The proved program, for arrays: `run` names a batch, and `check` looks at names, whoever gave them.

A batch goes to the program through a pipe, as text. That this text has the clients, and that the names are read back as
they were printed, is Python's work.
"""

from __future__ import annotations

import pathlib
import re
import shutil
import subprocess
from typing import Any

import numpy as np
import numpy.typing as npt

from ._arrays import Clients, Names, as_clients, as_identities
from ._parts import Duplicate, Part

# So many records are made text at once.
AT_ONCE = 65_536


class Refusal(ValueError):
    """The program refused its input. The message says who stands twice, and at which places of the row: they count
    from 0."""


class NotTight(ValueError):
    """The names are not 0 to k-1, each once, or a client stands twice."""


def program() -> str:
    """The path of the program: that of this package, or if it has none, of the one on the path.

    Raises FileNotFoundError if there is neither.
    """
    packed = pathlib.Path(__file__).with_name("bin") / "renamer"
    found = str(packed) if packed.exists() else shutil.which("renamer")
    if found is None:
        raise FileNotFoundError("the program renamer is neither in the package nor on the path")
    return found


def run(clients: npt.ArrayLike, epochs: npt.ArrayLike | None = None) -> Names:
    """Lets the program name clients, each epoch in their order from 0 on. Clients and epochs are numbers from 0 to
    2**64 - 1. There may be 2,147,483,648 of them, as far as memory goes.

    Returns an array of int64, in the order of the clients. Raises Refusal if a client stands twice in an epoch or there
    are more, TypeError if these are no rows of whole numbers, OverflowError if one is out of range, ValueError if one
    row is longer, FileNotFoundError if there is no program, and OSError if it fails.
    """
    when = None if epochs is None else as_clients(epochs)
    return _run(as_clients(clients), when, None)


def run_part(clients: npt.ArrayLike, epochs: npt.ArrayLike | None = None) -> Part:
    """Names the clients of one part as `name_part` does, by one run of the program."""
    who, when = as_clients(clients), None if epochs is None else as_identities(epochs)
    names = _run(who, None if when is None else as_clients(when), who)
    return Part(names, *np.unique(np.zeros(len(who), np.int8) if when is None else when, return_counts=True))


def _run(who: Clients, epochs: Clients | None, by: Clients | None) -> Names:
    """The names of clients, who come in as they stand in their epoch, or sorted by a row."""
    when = np.ones_like(who) if epochs is None else epochs
    if len(who) != len(when):
        raise ValueError(f"{len(who)} clients, but {len(when)} epochs")
    order = np.argsort(when, kind="stable") if by is None else np.lexsort((by, when))
    sent = when[order], who[order]
    printed, cause = _ask("run --network tree --width 2 --form grants --large", "epoch,client", *sent)
    if found := re.fullmatch(r"record (\d+): Duplicate", cause):
        at = order[int(found[1]) - 1]
        twice = Duplicate(who[at], None if epochs is None else when[at])
        raise Refusal(f"{twice}, {_places((who == who[at]) & (when == when[at]))}")
    if cause:
        raise Refusal(cause)
    grants = np.fromstring(printed.partition("\n")[2].replace("\n", ","), np.uint64, sep=",").reshape(-1, 3)
    if not np.array_equal(grants[:, :2], np.stack(sent, axis=1)):
        raise RuntimeError("the program listed other clients, or in another order")
    names = np.empty(len(who), np.int64)
    names[order] = grants[:, 2]
    return names


def check(names: npt.ArrayLike, clients: npt.ArrayLike | None = None) -> int:
    """Lets the program look whether names, in any order, are 0 to k-1, each once, and returns k. If there are clients,
    one who stands twice is found too. There may be 2,147,483,648 names, as far as memory goes.

    Raises NotTight if the names are not 0 to k-1, else what `run` raises but Refusal.
    """
    try:
        given = as_clients(names)
    except OverflowError as fault:
        raise NotTight(f"these are not 0 to k-1: {fault}") from None
    who = np.arange(len(given), dtype=np.uint64) if clients is None else as_clients(clients)
    if len(who) != len(given):
        raise ValueError(f"{len(given)} names, but {len(who)} clients")
    _, cause = _ask("check --width 2 --large", "epoch,client,name", np.ones_like(given), who, given)
    if found := re.fullmatch(r"flaw: Gap epoch 1 name (\d+)", cause):
        raise NotTight(f"of {len(given)} names, which should be those from 0 on, none is {found[1]}")
    if found := re.fullmatch(r"flaw: Duplicate(Name|Client) record (\d+)", cause):
        what, row = found[1].lower(), given if found[1] == "Name" else who
        at = int(found[2]) - 1
        raise NotTight(f"{what} {row[at]} stands twice, {_places(row == row[at])}")
    if cause:
        raise NotTight(cause)
    return len(given)


def _places(same: npt.NDArray[np.bool_]) -> str:
    """The first two places of a value that stands twice."""
    return "at the places {} and {}".format(*np.flatnonzero(same)[:2])


def _ask(words: str, header: str, *columns: npt.NDArray[Any]) -> tuple[str, str]:
    """What the program prints for these records, and the cause if it refuses them."""
    line = ",".join(["%d"] * len(columns)) + "\n"
    pipe = subprocess.PIPE
    with subprocess.Popen([program(), *words.split()], stdin=pipe, stdout=pipe, stderr=pipe, text=True) as running:
        assert running.stdin
        try:  # it reads all before it prints
            print(header, file=running.stdin)
            for first in range(0, len(columns[0]), AT_ONCE):
                records = zip(*(column[first : first + AT_ONCE].tolist() for column in columns))
                running.stdin.write("".join([line % record for record in records]))
        except BrokenPipeError:  # it has refused what it has read
            pass
        printed, said = running.communicate()
    if running.returncode not in (0, 1, 4):
        raise OSError(f"renamer ended with status {running.returncode}: {said.strip()}")
    return printed, said.strip().removeprefix("renamer: ") if running.returncode else ""
