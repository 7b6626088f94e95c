"""Wirings: at what each wire of a network ends."""
import dataclasses
import functools
import re
import subprocess

from picture_parts.lines import Fault, Lines

HEADING = re.compile(r"network ([a-z]+) width ([0-9]{1,6}) balancers ([0-9]{1,6}) depth [0-9]{1,6}", re.ASCII)
WIRE = re.compile(r"wire ([0-9]{1,7}) (balancer|exit) ([0-9]{1,6})", re.ASCII)
END = re.compile(r"end wires ([0-9]{1,7})", re.ASCII)


@dataclasses.dataclass(frozen=True)
class End:
    """What a wire ends at: a balancer or an exit, with its number."""

    is_exit: bool
    number: int


@dataclasses.dataclass(frozen=True)
class Wiring:
    """A network: the entries are its first wires, and balancer b has the outputs E + 2b and E + 2b + 1 for E entries."""

    heading: str
    width: int
    ends: list[End]
    inputs: list[list[int]]

    @property
    def balancers(self) -> int:
        """How many balancers there are."""
        return len(self.inputs)

    @property
    def entries(self) -> int:
        """How many entries there are."""
        return len(self.ends) - 2 * self.balancers

    @property
    def is_tree(self) -> bool:
        """Whether balancers have one input and not two."""
        return self.entries == 1

    def outputs(self, balancer: int) -> tuple[int, int]:
        """Returns the wires of output 0 and of output 1."""
        first = self.entries + 2 * balancer
        return first, first + 1

    def source(self, wire: int) -> int | None:
        """Returns the balancer that a wire comes from, or None for an entry."""
        return None if wire < self.entries else (wire - self.entries) // 2

    @functools.cached_property
    def level_of(self) -> list[int]:
        """For each balancer how many others come before it on the longest way."""
        levels: list[int] = []
        for inputs in self.inputs:
            sources = (self.source(wire) for wire in inputs)
            levels.append(max((levels[source] + 1 for source in sources if source is not None), default=0))
        return levels

    @functools.cached_property
    def levels(self) -> list[list[int]]:
        """The balancers of each level."""
        found: list[list[int]] = [[] for _ in range(max(self.level_of, default=-1) + 1)]
        for balancer, level in enumerate(self.level_of):
            found[level].append(balancer)
        return found


def shown(program: object, name: str) -> Wiring:
    """Returns a network by its name, as tree-64, as the program shows it."""
    kind, _, width = name.partition("-")
    words = [program, "show", "--network", kind, "--width", width]
    done = subprocess.run(words, stdin=subprocess.DEVNULL, capture_output=True, text=True)
    if done.returncode:
        raise Fault(" ".join(done.stderr.split()) or f"there is no network {name}")
    return read_wiring(Lines(name, done.stdout.splitlines()))


def read_wiring(lines: Lines) -> Wiring:
    """Reads what `renamer show` prints."""
    heading = lines.match(HEADING, "heading of a network")
    width, balancers = int(heading[2]), int(heading[3])
    ends: list[End] = []
    while lines.read < len(lines.texts) and lines.texts[lines.read].startswith("wire "):
        found = lines.match(WIRE, "wire")
        if int(found[1]) != len(ends):
            raise lines.fault(f"wire {len(ends)} is missing")
        ends.append(End(found[2] == "exit", int(found[3])))
    if int(lines.match(END, "wire, and no end of a wiring")[1]) != len(ends):
        raise lines.fault(f"there are {len(ends)} wires")
    lines.end()
    wiring = Wiring(heading[0], width, ends, inputs_of(ends, balancers, lines.name))
    refuse_unsound(wiring, lines.name)
    return wiring


def inputs_of(ends: list[End], balancers: int, name: str) -> list[list[int]]:
    """Returns the wires that end at each balancer."""
    inputs: list[list[int]] = [[] for _ in range(balancers)]
    for wire, end in enumerate(ends):
        if not end.is_exit:
            if end.number >= balancers:
                raise Fault(f"{name}: wire {wire} ends at balancer {end.number}, and there are {balancers}")
            inputs[end.number].append(wire)
    return inputs


def refuse_unsound(wiring: Wiring, name: str):
    """Refuses a wiring that is no network from left to right."""
    exits = sorted(end.number for end in wiring.ends if end.is_exit)
    if exits != list(range(wiring.width)):
        raise Fault(f"{name}: the exits are not 0 to {wiring.width - 1}, each once")
    if wiring.entries < 1:
        raise Fault(f"{name}: there are too few wires for {wiring.balancers} balancers")
    wanted = 1 if wiring.is_tree else 2
    for balancer, inputs in enumerate(wiring.inputs):
        if len(inputs) != wanted:
            raise Fault(f"{name}: balancer {balancer} has {len(inputs)} inputs, and not {wanted}")
        if max(inputs) >= wiring.outputs(balancer)[0]:
            raise Fault(f"{name}: balancer {balancer} has a wire that goes backward")
