"""Replays: the events of a schedule, and the walk of each token."""
import dataclasses
import re

from picture_parts.lines import Lines
from picture_parts.wiring import End, Wiring

NUMBER = "([0-9]{1,20})"
ENTER = re.compile(f"enter {NUMBER} wire {NUMBER}", re.ASCII)
PASS = re.compile(f"pass {NUMBER} balancer {NUMBER} number {NUMBER} wire {NUMBER}", re.ASCII)
LEAVE = re.compile(f"leave {NUMBER} exit {NUMBER} visit {NUMBER} name {NUMBER}", re.ASCII)
REFUSED = re.compile(f"refused (?:enter {NUMBER}|step {NUMBER}|turn) [A-Za-z]+(?: {NUMBER})?", re.ASCII)
TURN = re.compile(f"turn epoch {NUMBER} clients {NUMBER}", re.ASCII)
EXIT_COUNT = re.compile(f"exit {NUMBER} count {NUMBER}", re.ASCII)
NAME_HOLDER = re.compile(f"name {NUMBER} client {NUMBER}", re.ASCII)
END = re.compile(f"end epoch {NUMBER} entered {NUMBER} inside {NUMBER}", re.ASCII)


@dataclasses.dataclass(frozen=True)
class Stop:
    """A wire that a token comes to at a moment, and the number of its passage of a balancer, if it passed one."""

    moment: int
    wire: int
    number: int | None


@dataclasses.dataclass(frozen=True)
class Departure:
    """How a token leaves the network."""

    moment: int
    exit: int
    visit: int
    name: int


@dataclasses.dataclass
class Walk:
    """A client's way in one epoch. A turn at the moment `ended` takes it away."""

    client: str
    stops: list[Stop]
    departure: Departure | None = None
    ended: int | None = None


@dataclasses.dataclass
class Replay:
    """The events of a replay. The moment n is after the n-th event, and the moment 0 before the first."""

    wiring: Wiring
    events: list[str] = dataclasses.field(default_factory=list)
    walks: list[Walk] = dataclasses.field(default_factory=list)
    # For each balancer the moments of its passages, and the number of each.
    passages: dict[int, list[tuple[int, int]]] = dataclasses.field(default_factory=dict)
    turns: list[int] = dataclasses.field(default_factory=list)

    @property
    def length(self) -> int:
        """How many events there are."""
        return len(self.events)


class Reader:
    """Follows the lines of a replay on its wiring, and refuses a line that does not go with those before it."""

    def __init__(self, lines: Lines, wiring: Wiring):
        self.lines, self.wiring, self.replay = lines, wiring, Replay(wiring)
        self.open_epoch()

    def open_epoch(self):
        """Begins with nobody."""
        self.walks: dict[str, Walk] = {}
        self.passed: dict[End, int] = {}

    def read(self) -> Replay:
        """Reads the whole text."""
        if self.lines.next() != self.wiring.heading:
            raise self.lines.fault(f"the replay is of another network than {self.wiring.heading!r}")
        while not END.fullmatch(line := self.lines.next()):
            self.replay.events.append(line)
            self.read_event(line)
        self.lines.end()
        return self.replay

    def read_event(self, line: str):
        """Reads one event by its form."""
        if found := ENTER.fullmatch(line):
            self.enter(found[1], int(found[2]))
        elif found := PASS.fullmatch(line):
            self.step(found[1], End(False, int(found[2])), int(found[3]), int(found[4]))
        elif found := LEAVE.fullmatch(line):
            self.step(found[1], End(True, int(found[2])), int(found[3]), int(found[4]))
        elif found := TURN.fullmatch(line):
            self.turn(int(found[2]))
        elif not REFUSED.fullmatch(line):
            raise self.lines.fault(f"this is no event of a replay: {line[:80]!r}")

    def enter(self, client: str, wire: int):
        """A client comes in on an entry."""
        if client in self.walks:
            raise self.lines.fault(f"client {client} has come in before")
        if wire >= self.wiring.entries:
            raise self.lines.fault(f"wire {wire} is no entry")
        walk = Walk(client, [Stop(self.replay.length, wire, None)])
        self.walks[client] = walk
        self.replay.walks.append(walk)

    def step(self, client: str, end: End, number: int, leads_to: int):
        """A client goes by the end of its wire: to a wire behind a balancer, or out with a name."""
        walk = self.walks.get(client)
        if walk is None or walk.departure is not None:
            raise self.lines.fault(f"client {client} is not inside")
        if self.wiring.ends[walk.stops[-1].wire] != end:
            raise self.lines.fault(f"the wire of client {client} does not end there")
        if number != self.passed.get(end, 0):
            raise self.lines.fault(f"{self.passed.get(end, 0)} went by there before")
        if leads_to != self.behind(end, number):
            raise self.lines.fault(f"this leads to {self.behind(end, number)}")
        self.passed[end] = number + 1
        moment = self.replay.length
        if end.is_exit:
            walk.departure = Departure(moment, end.number, number, leads_to)
        else:
            walk.stops.append(Stop(moment, leads_to, number))
            self.replay.passages.setdefault(end.number, []).append((moment, number))

    def behind(self, end: End, number: int) -> int:
        """Returns the wire or the name that the end of a wire leads to, after so many others."""
        if end.is_exit:
            return end.number + self.wiring.width * number
        return self.wiring.outputs(end.number)[number % 2]

    def turn(self, clients: int):
        """The epoch ends, and with it all its walks. Its record stands in the lines that follow."""
        moment = self.replay.length
        if clients != len(self.walks) or any(walk.departure is None for walk in self.walks.values()):
            raise self.lines.fault("another number of clients has left")
        for _ in range(self.wiring.width):
            self.lines.match(EXIT_COUNT, "count of an exit")
        for _ in range(clients):
            self.lines.match(NAME_HOLDER, "name of a client")
        for walk in self.walks.values():
            walk.ended = moment
        self.replay.turns.append(moment)
        self.open_epoch()


def read_replay(lines: Lines, wiring: Wiring) -> Replay:
    """Reads what `renamer replay` prints for this network."""
    return Reader(lines, wiring).read()
