"""Layouts: what stands at which place of a picture, in pixels."""
import dataclasses
import functools
from collections.abc import Iterator, Mapping

from picture_parts.wiring import Wiring

# From one level of balancers to the next there is half a column more than from one column to the next.
LEVEL_GAP = 0.5
# The room that a letter takes, and a bold one, in parts of the font's size.
LETTER, BOLD = 0.6, 0.67
# Up to which width, the size of letters, and the distance of rows.
SCALES = ((16, 11, 46), (64, 8, 28), (float("inf"), 5, 16))
# The least distance of columns, in parts of the font's size: of a tree, and of a network whose wires are lines.
TREE, LINES = 4.4, 3.1
# How far the number of a wire is from its begin, and its letters' size, in parts of the font's size.
WIRE_AWAY, WIRE_LETTER = 0.45, 0.9


@dataclasses.dataclass(frozen=True)
class Scale:
    """The size of letters, and the distance of rows and of columns."""

    font: float
    row: float
    column: float

    @property
    def line_font(self) -> float:
        """The size of letters in lines above and below a network, which is never small."""
        return max(self.font, 11)

    @property
    def line(self) -> float:
        """The height of such a line."""
        return 1.5 * self.line_font

    @property
    def box(self) -> float:
        """The height of a box with letters in it."""
        return 1.45 * self.font

    @property
    def dot(self) -> float:
        """The radius of a dot."""
        return 0.32 * self.font

    def room(self, words: object) -> float:
        """Returns how wide some words are."""
        return LETTER * self.font * len(str(words))

    def box_width(self, words: object) -> float:
        """Returns how wide a box with these words is, which are bold."""
        return (BOLD * len(str(words)) + 0.7) * self.font


@dataclasses.dataclass(frozen=True)
class Crowd:
    """How many letters a token takes on a wire, and how many tokens at most stand on each wire that has some."""

    letters: float = 0
    most: Mapping[int, int] = dataclasses.field(default_factory=dict)


def scale_for(wiring: Wiring) -> Scale:
    """Returns a scale: the wider the network, the smaller. Columns have room for the numbers of wires."""
    font, row = next((font, row) for most, font, row in SCALES if wiring.width <= most)
    least = LETTER * font * (1 + len(str(len(wiring.ends))))
    return Scale(font, row, max((TREE if wiring.is_tree else LINES) * font, least))


@dataclasses.dataclass(frozen=True)
class Layout:
    """A network on its places. Rows go from top to bottom. Between levels of balancers, before the first and behind the
    last, there is a gap, from one place to another, in which tokens cover nothing."""

    wiring: Wiring
    scale: Scale
    rows: list[float]
    bars: list[float]
    gaps: list[tuple[float, float]]

    @functools.cached_property
    def left(self) -> float:
        """Where entries begin."""
        return left_of(self.wiring, self.scale)

    @functools.cached_property
    def right(self) -> float:
        """Where exits end."""
        return self.gaps[-1][1]

    @functools.cached_property
    def after_exits(self) -> float:
        """Where the words at the exits end."""
        return self.right + self.scale.room(f"exit {self.wiring.width}") + self.scale.font

    @functools.cached_property
    def bottom(self) -> float:
        """Where the network ends below."""
        return self.y(max(self.rows)) + 2.2 * self.scale.font

    def y(self, row: float) -> float:
        """Returns the height of a row."""
        return self.scale.line + 2.6 * self.scale.font + self.scale.row * row

    def wire_y(self, wire: int) -> float:
        """Returns the height of a wire."""
        return self.y(self.rows[wire])

    def exit_y(self, number: int) -> float:
        """Returns the height of an exit."""
        return self.wire_y(self.exit_wires[number])

    @functools.cached_property
    def exit_wires(self) -> dict[int, int]:
        """For each exit the wire that ends there."""
        return {end.number: wire for wire, end in enumerate(self.wiring.ends) if end.is_exit}

    def balancer_x(self, balancer: int) -> float:
        """Returns how far to the right a balancer is."""
        return self.bars[balancer]

    def wire_begin(self, wire: int) -> float:
        """Returns how far to the right a wire begins."""
        source = self.wiring.source(wire)
        return self.left if source is None else self.balancer_x(source)

    def wire_end(self, wire: int) -> float:
        """Returns how far to the right a wire ends."""
        end = self.wiring.ends[wire]
        return self.right if end.is_exit else self.balancer_x(end.number)

    def gap(self, wire: int) -> tuple[float, float]:
        """Returns the gap before what a wire ends at."""
        return self.gaps[gap_of(self.wiring, wire)]

    def bar(self, balancer: int) -> tuple[float, float]:
        """Returns the top and the bottom of a balancer's bar."""
        upper, lower = self.wiring.outputs(balancer)
        return self.wire_y(upper), self.wire_y(lower)

    def box_y(self, balancer: int) -> float:
        """Returns the middle of a balancer's box: in a tree amid its bar, else below the upper wire."""
        top, bottom = self.bar(balancer)
        return (top + bottom) / 2 if self.wiring.is_tree else top + 0.42 * self.scale.row


def left_of(wiring: Wiring, scale: Scale) -> float:
    """Returns where entries begin."""
    return scale.room(f"entry {wiring.entries}") + 2 * scale.font


def gap_of(wiring: Wiring, wire: int) -> int:
    """Returns the number of the gap before what a wire ends at."""
    end = wiring.ends[wire]
    return len(wiring.levels) if end.is_exit else wiring.level_of[end.number]


def lay_out(wiring: Wiring, crowd: Crowd = Crowd()) -> Layout:
    """Lays a network out, with room for tokens."""
    scale, rows = scale_for(wiring), rows_of_leaves(wiring) if wiring.is_tree else rows_of_lines(wiring)
    most = [0] * (len(wiring.levels) + 1)
    for wire, count in crowd.most.items():
        gap = gap_of(wiring, wire)
        most[gap] = max(most[gap], count)
    rooms = [count * token_width(scale, crowd.letters) for count in most]
    return Layout(wiring, scale, rows, *places_of(wiring, scale, rows, rooms))


def token_width(scale: Scale, letters: float) -> float:
    """Returns how much of a wire a token takes."""
    return (LETTER * letters + 1) * scale.font


def places_of(wiring: Wiring, scale: Scale, rows: list[float], rooms: list[float]):
    """Returns how far to the right each balancer is, and the gaps, each with so much room for tokens."""
    box = scale.box_width(wiring.balancers - 1) / 2
    number = (WIRE_AWAY + LETTER * WIRE_LETTER * len(str(len(wiring.ends)))) * scale.font
    behind = box + number if wiring.is_tree else max(box, number)
    bars, gaps, x = [0.0] * wiring.balancers, [], left_of(wiring, scale)
    for at, level in enumerate([*wiring.levels, []]):
        before = box if level else 0
        least = scale.column * (1 if at == 0 else 1 + LEVEL_GAP)
        width = max(least, behind + rooms[at] + before if rooms[at] else 0)
        gaps.append((x + behind, x + width - before))
        x += width
        for column, balancer in columns_of(wiring, level, rows):
            bars[balancer] = x + scale.column * column
        x = max((bars[balancer] for balancer in level), default=x)
    return bars, gaps


def rows_of_lines(wiring: Wiring) -> list[float]:
    """Returns the row of each wire: a balancer's outputs go on in the rows of its inputs, output 0 in the upper one."""
    rows = [float(entry) for entry in range(wiring.entries)]
    for inputs in wiring.inputs:
        rows += sorted(rows[wire] for wire in inputs)
    return rows


def rows_of_leaves(wiring: Wiring) -> list[float]:
    """Returns the row of each wire of a tree: exits stand one below another, and a balancer amid its outputs."""
    rows, leaves, waiting = [0.0] * len(wiring.ends), 0, [0]
    order = []
    while waiting:
        wire = waiting.pop()
        order.append(wire)
        if wiring.ends[wire].is_exit:
            rows[wire], leaves = leaves, leaves + 1
        else:
            waiting += reversed(wiring.outputs(wiring.ends[wire].number))
    for wire in reversed(order):
        if not wiring.ends[wire].is_exit:
            upper, lower = wiring.outputs(wiring.ends[wire].number)
            rows[wire] = (rows[upper] + rows[lower]) / 2
    return rows


def columns_of(wiring: Wiring, level: list[int], rows: list[float]) -> Iterator[tuple[int, int]]:
    """Yields the column of each balancer of a level, so that no bar lies on another."""
    # For each column where its last bar ends.
    bottoms: list[float] = []
    for top, bottom, balancer in sorted((*(rows[wire] for wire in wiring.outputs(it)), it) for it in level):
        column = next((at for at, low in enumerate(bottoms) if low < top), len(bottoms))
        bottoms[column : column + 1] = [bottom]
        yield column, balancer
