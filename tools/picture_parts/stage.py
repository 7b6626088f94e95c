"""Where tokens stand and walk in the picture of a replay."""
import dataclasses
import functools

from picture_parts.layout import BOLD, LETTER, Layout, token_width
from picture_parts.replay import Departure, Replay, Stop, Walk
from picture_parts.screen import EVENT, NEVER, Track, presence
from picture_parts.slots import Slots, Stay
from picture_parts.svg import NOTE, number

# At which parts of an event a token comes to the bar of a balancer, gets its number, and goes on from the bar.
AT_BAR, NUMBERED, FROM_BAR = 0.4, 0.5, 0.6


def during(moment: int, part: float) -> float:
    """Returns the time of a part of the event that ends at a moment."""
    return moment - EVENT + EVENT * part


@dataclasses.dataclass(frozen=True)
class Stage:
    """The places of tokens on a network."""

    layout: Layout
    replay: Replay
    slots: Slots

    @functools.cached_property
    def standing_width(self) -> float:
        """The room of a token on a wire, with its note below it."""
        return token_width(self.layout.scale, letters_of(self.replay))

    @functools.cached_property
    def visit_width(self) -> float:
        """From one token behind an exit to the next: each has its name below it."""
        names = (NOTE * len(name_note(walk.departure)) for walk in self.replay.walks if walk.departure)
        return max(self.standing_width, token_width(self.layout.scale, max(names, default=0)))

    @functools.cached_property
    def right(self) -> float:
        """Where the tokens behind the exits end."""
        visits = max((walk.departure.visit + 1 for walk in self.replay.walks if walk.departure), default=0)
        return self.layout.after_exits + visits * self.visit_width

    def begin_place(self, walk: Walk) -> str:
        """Returns where a token comes from."""
        return place(self.layout.left, self.layout.wire_y(walk.stops[0].wire))

    def stop_place(self, stay: Stay, stop: Stop) -> str:
        """Returns where a token stands on a wire: the first at the end of its gap, others behind it."""
        _, right = self.layout.gap(stop.wire)
        x = right - (self.slots.places[stay] + 0.5) * self.standing_width
        return place(x, self.layout.wire_y(stop.wire))

    def exit_place(self, departure: Departure) -> str:
        """Returns where a token stands behind its exit: each visit has a place of its own."""
        x = self.layout.after_exits + (departure.visit + 0.5) * self.visit_width
        return place(x, self.layout.exit_y(departure.exit))

    def motion(self, at: int, walk: Walk) -> Track:
        """Returns the way of the token of a walk."""
        here = self.begin_place(walk)
        keys = [(0.0, here)]
        for index, stop in enumerate(walk.stops):
            keys.append((during(stop.moment, 0), here))
            if index > 0:
                keys += self.along_bar(walk.stops[index - 1].wire, stop)
            here = self.stop_place((at, index), stop)
            keys.append((stop.moment, here))
        if walk.departure:
            keys.append((during(walk.departure.moment, 0), here))
            keys.append((walk.departure.moment, self.exit_place(walk.departure)))
        return Track("transform", keys)

    def along_bar(self, before: int, stop: Stop) -> list[tuple[float, str]]:
        """Returns when and where a token is on the bar of the balancer between two wires."""
        x = self.layout.wire_begin(stop.wire)
        return [
            (during(stop.moment, AT_BAR), place(x, self.layout.wire_y(before))),
            (during(stop.moment, FROM_BAR), place(x, self.layout.wire_y(stop.wire))),
        ]


def place(x: float, y: float) -> str:
    """Returns a place as it is written in a track."""
    return f"{number(x)} {number(y)}"


def letters_of(replay: Replay) -> float:
    """Returns how many letters the widest token on a wire takes, with its note."""
    clients = (len(walk.client) * BOLD / LETTER for walk in replay.walks)
    numbers = (NOTE * len(number_note(stop)) for walk in replay.walks for stop in walk.stops[1:])
    return max((*clients, *numbers), default=0)


def number_note(stop: Stop) -> str:
    """Returns what stands below a token that passed a balancer."""
    return f"number {stop.number}"


def name_note(departure: Departure) -> str:
    """Returns what stands below a token that left."""
    return f"name {departure.name}"


def stay_inside(walk: Walk) -> Track:
    """Returns when the token of a walk is in the picture."""
    return presence(during(walk.stops[0].moment, 0), NEVER if walk.ended is None else during(walk.ended, NUMBERED))


def notes_of(walk: Walk) -> list[tuple[Track, str]]:
    """Returns what stands below a token, and when: the number that it got last, and at last its name."""
    notes = [(stop.moment, number_note(stop)) for stop in walk.stops[1:]]
    if walk.departure:
        notes.append((walk.departure.moment, name_note(walk.departure)))
    begins = [during(moment, NUMBERED) for moment, _ in notes]
    return [
        (presence(begin, end), words)
        for begin, end, (_, words) in zip(begins, [*begins[1:], NEVER], notes)
    ]
