#!/usr/bin/env python3
"""Draws as SVG what tables of pages say, so that no picture differs from its page.

    bench/plots.py large|library|scale   prints a picture: of tables in bench/README.md, or the last in docs/SCALE.md
    bench/plots.py --check               prints each picture that is not what its page says

The status of a check is 0 only if each picture is what its page says.
"""
import argparse
import dataclasses
import math
import pathlib
import sys
from xml.sax.saxutils import escape

# No folder of compiled modules among the scripts.
sys.dont_write_bytecode = True
ROOT = pathlib.Path(__file__).resolve().parent.parent

MEASURES, SCALE = ROOT / "bench" / "README.md", ROOT / "docs" / "SCALE.md"
# Of a picture of bars, which is read on a telephone too: its width, where bars begin, how long the longest is, a line.
WIDE, LEFT, LONGEST, LINE = 440, 196, 176, 24
OURS, PEERS = "#0b4f8a", "#8694a6"
# Of each part of the picture of SCALE, which has the networks of one stride: its size, and the edges of its plot. Labels
# at the right stand at least so far below one another.
HIGH, PLOT_LEFT, PLOT_RIGHT, PLOT_TOP, PLOT_BOTTOM, HEAD, APART = 380, 56, 356, 30, 320, 40, 16
COLOURS = {"one counter": "#1d2733", "tree 64": "#b4431f", "bitonic 8": "#0b4f8a", "bitonic 16": "#2c7a4b",
           "bitonic 32": "#7a3e9d", "bitonic 64": "#a67c00"}
STRIDES = {8: "Stride 8: words apart, each with a cache line of its own", 1: "Stride 1: 8 words to a cache line"}
# What is in the plot of the library, from its table: the ways of all threads, and those that are of one thread only.
LIBRARY = ("one `fetch_add`", "tree 2", "tree 2 by lists of 64", "tree 2 by takes of 64", "bitonic 64",
           "`Mutex<HashMap>`", "`slab` behind a mutex", "`sharded_slab`", "`fetch_add` for 64 names",
           "`fetch_add` and an array", "`Mutex<Vec>`", "`tbb::concurrent_vector`")


@dataclasses.dataclass
class Bar:
    """A bar: what it is of, how long it is, and what stands behind it."""

    name: str
    value: float
    said: str


@dataclasses.dataclass
class Curve:
    """Names per microsecond of a network with a stride, or of one counter, by the number of processors."""

    name: str
    stride: int
    rates: list


def table(page, heading):
    """The first table below a heading of a page: its rows, each by the titles of the columns."""
    _, is_there, text = page.read_text().partition(f"\n## {heading}\n")
    lines = [line for line in text.split("\n## ")[0].split("\n\n") if line.startswith("|")]
    if not is_there or not lines:
        sys.exit(f"{page.relative_to(ROOT)} has no table below {heading}")
    titles, _, *rows = ([cell.strip() for cell in line.strip("|").split("|")] for line in lines[0].splitlines())
    return [dict(zip(titles, row)) for row in rows]


def bars_of(column, rows, form):
    """A bar for each row that has a number in this column."""
    for row in rows:
        values = [value.strip() for value in row[column].replace(",", ";").split(";")]
        if values[0]:
            yield form(next(iter(row.values())).replace("`", ""), values)


def panel(title, bars, top):
    """A title, and bars below it, the shortest first."""
    most = max(bar.value for bar in bars)
    yield f'<text x="16" y="{top + 16}" class="title">{escape(title)}</text>'
    for at, bar in enumerate(sorted(bars, key=lambda bar: bar.value)):
        y, long = top + 26 + LINE * at, max(2, LONGEST * bar.value / most)
        colour = OURS if bar.name.startswith(("run ", "tree ", "bitonic ")) else PEERS
        yield (f'<text x="{LEFT - 8}" y="{y + 13}" class="name">{escape(bar.name)}</text><rect x="{LEFT}" y="{y}" '
               f'width="{long:.1f}" height="17" fill="{colour}"/><text x="{LEFT + long + 6:.1f}" y="{y + 13}">'
               f'{escape(bar.said)}</text>')


def bars(title, panels):
    """A picture of panels of bars, one below the other."""
    top, parts, said = 34, [], []
    for heading, found in panels:
        found = list(found)
        parts += panel(heading, found, top)
        said.append(f"{heading}: {'; '.join(f'{bar.name} {bar.said}' for bar in found)}.")
        top += 34 + LINE * len(found)
    return "\n".join([
        f'<svg xmlns="http://www.w3.org/2000/svg" role="img" width="{WIDE}" height="{top}" '
        f'viewBox="0 0 {WIDE} {top}">',
        f"<title>{escape(title)}</title>", f"<desc>{escape(' '.join(said))}</desc>",
        '<style>text { font: 13px "DejaVu Sans", Verdana, Arial, sans-serif; fill: #1d2733 }',
        ".title { font-weight: bold } .name { text-anchor: end }</style>",
        f'<rect width="{WIDE}" height="{top}" fill="white"/>',
        f'<text x="16" y="24" class="title" style="font-size: 14px">{escape(title)}</text>', *parts, "</svg>\n",
    ])


def large():
    """What ten million clients take, in seconds."""
    def bar(name, values):
        clock, processor, _ = values
        return Bar(name, float(processor), f"{processor} s" + f" ({clock} s)" * (clock != "–"))

    found = bars_of("10 million", table(MEASURES, "One large epoch"), bar)
    return bars("Ten million ids by renamer (blue) and by others", [("Seconds of processor (by the clock)", found)])


def library():
    """What a name takes in the library, in nanoseconds."""
    def bar(name, values):
        return Bar(name, float(values[0]), f"{values[0]} ns")

    rows = [row for row in table(MEASURES, "The library") if row["Way"] in LIBRARY]
    if len(rows) != len(LIBRARY):
        sys.exit(f"{MEASURES.relative_to(ROOT)} has {len(rows)} of the {len(LIBRARY)} ways that are drawn")
    panels = (("One thread, of its processor", "One thread"), ("Four threads, by the clock", "Four"))
    return bars("A name by renamer (blue) and by others",
                [(title, bars_of(column, rows, bar)) for title, column in panels])


class Plot:
    """A plot whose axes are logarithms, of so many processors and of 1 to 1,000 names per microsecond."""

    def __init__(self, processors):
        self.processors = processors

    def x(self, number):
        return PLOT_LEFT + (PLOT_RIGHT - PLOT_LEFT) * math.log2(number) / math.log2(self.processors[-1])

    def y(self, rate):
        return PLOT_BOTTOM - (PLOT_BOTTOM - PLOT_TOP) * math.log10(rate) / 3

    def grid(self):
        for number in self.processors:
            x = f"{self.x(number):.1f}"
            yield (f'<path d="M{x} {PLOT_TOP}V{PLOT_BOTTOM}"/><text x="{x}" y="{PLOT_BOTTOM + 20}" text-anchor="middle">'
                   f"{number}</text>")
        for rate in (1, 2, 5, 10, 20, 50, 100, 200, 500, 1000):
            y = self.y(rate)
            yield (f'<path d="M{PLOT_LEFT} {y:.1f}H{PLOT_RIGHT}"/><text x="{PLOT_LEFT - 8}" y="{y + 4:.1f}" '
                   f'text-anchor="end">{rate}</text>')
        yield f'<text x="206" y="{PLOT_BOTTOM + 44}" text-anchor="middle">processors</text>'
        yield '<text transform="translate(18 175) rotate(-90)" text-anchor="middle">names per microsecond</text>'

    def lines(self, curves):
        """A line for each curve, with its name at the right, and no two names at one height."""
        last = -math.inf
        for curve in sorted(curves, key=lambda curve: self.y(curve.rates[-1])):
            colour, points = COLOURS[curve.name], zip(self.processors, curve.rates)
            last = max(self.y(curve.rates[-1]), last + APART)
            places = " ".join(f"{self.x(number):.1f},{self.y(rate):.1f}" for number, rate in points)
            dashes = "" if curve.stride else ' stroke-dasharray="5 4"'
            yield f'<polyline points="{places}" fill="none" stroke="{colour}" stroke-width="2"{dashes}/>'
            yield f'<text x="{PLOT_RIGHT + 8}" y="{last + 4:.1f}" style="fill: {colour}">{curve.name}</text>'

    def dots(self, curves):
        """A dot for each rate that was measured, by one thread, by two, and so on."""
        yield from (f'<circle cx="{self.x(threads):.1f}" cy="{self.y(rate):.1f}" r="3" fill="{COLOURS[curve.name]}"/>'
                    for curve in curves for threads, rate in enumerate(curve.rates, 1))


def curves(heading):
    """The rows of a table in SCALE.md, and its numbers of processors. A row without a name is of the network above."""
    rows, name, found = table(SCALE, heading), "", []
    columns = [title for title in rows[0] if title[:1].isdigit()]
    for row in rows:
        name = row[""] or name
        found.append(Curve(name, int(row["stride"] or 0), [float(row[column]) for column in columns]))
    return found, [int(title.replace(",", "").split()[0]) for title in columns]


def scale():
    """Names per microsecond by the number of processors, by the model and as measured."""
    (modelled, processors), (measured, _) = curves("The model"), curves("The model beside what was measured")
    plot, parts, title = Plot(processors), [], "Names per microsecond: a model, and dots measured"
    for at, stride in enumerate(STRIDES):
        own, found = ([curve for curve in some if curve.stride in (0, stride)] for some in (modelled, measured))
        parts += [f'<g transform="translate(0 {HEAD + HIGH * at})">', f'<text x="{PLOT_LEFT}" y="16">{STRIDES[stride]}</text>',
                  '<g class="grid">', *plot.grid(), "</g>", *plot.lines(own), *plot.dots(found), "</g>"]
    ends = ", ".join(f"{curve.name}{f', stride {curve.stride}' * (curve.stride > 0)} {curve.rates[-1]:.0f}"
                     for curve in modelled)
    high = HEAD + HIGH * len(STRIDES)
    return "\n".join([
        f'<svg xmlns="http://www.w3.org/2000/svg" role="img" width="{WIDE}" height="{high}" '
        f'viewBox="0 0 {WIDE} {high}">',
        f"<title>{title}</title>",
        f"<desc>Lines, by the number of processors on a logarithmic scale. At {processors[-1]}: {ends}.</desc>",
        '<style>text { font: 12px "DejaVu Sans", Verdana, Arial, sans-serif; fill: #1d2733 }',
        ".grid path { stroke: #d5dbe3; fill: none }</style>",
        f'<rect width="{WIDE}" height="{high}" fill="white"/>',
        f'<text x="16" y="26" style="font-size: 13px; font-weight: bold">{title}</text>', *parts, "</svg>\n",
    ])


PICTURES = {"large": (large, ROOT / "docs" / "pictures" / "large.svg"),
            "library": (library, ROOT / "docs" / "pictures" / "library.svg"),
            "scale": (scale, ROOT / "docs" / "scale.svg")}


def main():
    parser = argparse.ArgumentParser(description=__doc__, formatter_class=argparse.RawDescriptionHelpFormatter)
    asked = parser.add_mutually_exclusive_group(required=True)
    asked.add_argument("name", nargs="?", choices=PICTURES)
    asked.add_argument("--check", action="store_true")
    words = parser.parse_args()
    if words.name:
        print(PICTURES[words.name][0](), end="")
        return 0
    wrong = [path for draw, path in PICTURES.values() if not path.exists() or path.read_text() != draw()]
    print("".join(f"{path.relative_to(ROOT)} is not what its page says\n" for path in wrong), end="")
    return len(wrong) > 0


if __name__ == "__main__":
    sys.exit(main())
