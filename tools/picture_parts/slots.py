"""Which place each token has among those on its wire."""
import collections
import dataclasses
import heapq
from collections.abc import Iterator

from picture_parts.replay import Walk

# A walk and one of its stops, both by their number.
Stay = tuple[int, int]


@dataclasses.dataclass(frozen=True)
class Slots:
    """The place of each stay on a wire, and how many places each wire has."""

    places: dict[Stay, int]
    most: dict[int, int]


def moves_of(walks: list[Walk]) -> Iterator[tuple[int, Stay | None, Stay | None]]:
    """Yields each move: its moment, the stay that it ends, and the one that it begins."""
    for at, walk in enumerate(walks):
        stays = [(at, index) for index in range(len(walk.stops))]
        moments = [stop.moment for stop in walk.stops]
        if walk.departure:
            moments.append(walk.departure.moment)
        yield from zip(moments, [None, *stays], [*stays, None])


def slots_of(walks: list[Walk]) -> Slots:
    """Gives each token that comes to a wire the first place that is free there."""
    places: dict[Stay, int] = {}
    most: collections.Counter[int] = collections.Counter()
    free: dict[int, list[int]] = collections.defaultdict(list)
    for _, before, after in sorted(moves_of(walks), key=lambda move: move[0]):
        if before is not None:
            heapq.heappush(free[wire_of(walks, before)], places[before])
        if after is not None:
            wire = wire_of(walks, after)
            if not free[wire]:
                free[wire].append(most[wire])
                most[wire] += 1
            places[after] = heapq.heappop(free[wire])
    return Slots(places, most)


def wire_of(walks: list[Walk], stay: Stay) -> int:
    """Returns the wire of a stay."""
    walk, stop = stay
    return walks[walk].stops[stop].wire
