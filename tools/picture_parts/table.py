"""The table of positions: at each moment, where each client is."""
import collections
from collections.abc import Iterator

from picture_parts.replay import Replay

ABSENT = "-"


def changes_of(replay: Replay) -> dict[int, list[tuple[str, str]]]:
    """Returns for each moment the clients that come to another position, and that position."""
    changes = collections.defaultdict(list)
    for walk in replay.walks:
        for stop in walk.stops:
            changes[stop.moment].append((walk.client, f"wire {stop.wire}"))
        if walk.departure:
            position = f"exit {walk.departure.exit} name {walk.departure.name}"
            changes[walk.departure.moment].append((walk.client, position))
        if walk.ended is not None:
            changes[walk.ended].append((walk.client, ABSENT))
    return changes


def table_rows(replay: Replay) -> Iterator[list[str]]:
    """Yields the head of the table and a row for each moment. The clients stand in the order in which they come in."""
    positions = dict.fromkeys((walk.client for walk in replay.walks), ABSENT)
    changes = changes_of(replay)
    yield ["moment", "event", *(f"client {client}" for client in positions)]
    for moment, event in enumerate([ABSENT, *replay.events]):
        positions.update(changes.get(moment, ()))
        yield [str(moment), event, *positions.values()]


def write_table(replay: Replay) -> str:
    """Returns the table as text, its columns one below another."""
    rows = list(table_rows(replay))
    widths = [max(map(len, column)) for column in zip(*rows)]
    lines = ("  ".join(cell.ljust(width) for cell, width in zip(row, widths)).rstrip() for row in rows)
    return "".join(f"{line}\n" for line in lines)
