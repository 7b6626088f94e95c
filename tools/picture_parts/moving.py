"""The picture of a replay: tokens on a network, at one moment or as they move."""
from picture_parts import network, svg
from picture_parts.layout import Crowd, Layout, lay_out
from picture_parts.replay import Replay
from picture_parts.screen import NEVER, Moving, Still, Track, presence
from picture_parts.slots import slots_of
from picture_parts.stage import NUMBERED, Stage, during, letters_of, notes_of, stay_inside
from picture_parts.svg import BLUE, number

# As far apart as colours can be on which white letters are read well.
COLOURS = (
    "#c2410c", "#15803d", "#7e22ce", "#a16207", "#be185d", "#0e7490", "#57534e", "#4338ca",
    "#3c0054", "#003000", "#6c0000", "#cc18cc", "#000090", "#90609c", "#78186c", "#003c60",
    "#006cfc", "#185400", "#903030", "#481890", "#0000fc", "#604890", "#3c2424", "#8454fc",
)
LEGEND = "The next token leaves a balancer by the output with the filled dot."

Screen = Still | Moving


def draw_replay(replay: Replay, screen: Screen) -> str:
    """Draws a replay, as the screen shows what changes in it."""
    slots = slots_of(replay.walks)
    layout = lay_out(replay.wiring, Crowd(letters_of(replay), slots.most))
    stage = Stage(layout, replay, slots)
    elements = [
        *network.network_elements(layout),
        *svg.group("dots", turning_dots(layout, replay, screen)),
        *network.box_elements(layout),
        *tokens(stage, screen),
        *svg.group("caption", captions(layout, replay, screen)),
        *svg.group("legend", [svg.text(layout.scale.font, line_y(layout, 1), LEGEND)]),
    ]
    longest = max((replay.wiring.heading, LEGEND, *captions_of(replay)), key=len)
    width = max(stage.right + layout.scale.font, network.line_end(layout, longest))
    return svg.document(f"Replay on {replay.wiring.heading}", width, line_y(layout, 2), layout.scale, elements)


def line_y(layout: Layout, line: int) -> float:
    """Returns the height of a line below the network."""
    return layout.bottom + layout.scale.line * (line + 0.5)


def captions_of(replay: Replay) -> list[str]:
    """Returns the line below the network at each moment."""
    return [f"{moment} of {replay.length}: {event}" for moment, event in enumerate(["no event yet", *replay.events])]


def captions(layout: Layout, replay: Replay, screen: Screen) -> list[str]:
    """Writes each event below the network, from when it begins until the next one does."""
    begins = [0.0, *(during(moment, 0) for moment in range(1, replay.length + 1))]
    fixed = svg.place(layout.scale.font, line_y(layout, 0))
    written = [
        screen.element("text", fixed, [presence(begin, end)], words)
        for begin, end, words in zip(begins, [*begins[1:], NEVER], captions_of(replay))
    ]
    return [caption for caption in written if caption]


def turning_dots(layout: Layout, replay: Replay, screen: Screen) -> list[str]:
    """Draws two dots on the bar of every balancer, of which one is filled."""
    dots = []
    for balancer in range(layout.wiring.balancers):
        turns = next_outputs(replay, balancer)
        for output in (0, 1):
            keys = [(time, BLUE if next_output == output else "white") for time, next_output in turns]
            dots.append(screen.element("circle", network.dot(layout, balancer, output), [Track("fill", keys)]))
    return dots


def next_outputs(replay: Replay, balancer: int) -> list[tuple[float, int]]:
    """Returns by which output the next token leaves a balancer, and since when. An epoch begins with output 0."""
    passages = replay.passages.get(balancer, [])
    changes = [(moment, (passage + 1) % 2) for moment, passage in passages]
    changes += [(moment, 0) for moment in replay.turns if passages]
    return [(0.0, 0), *((during(moment, NUMBERED), output) for moment, output in sorted(changes))]


def tokens(stage: Stage, screen: Screen) -> list[str]:
    """Draws a token for each walk. A client has one colour in all of its walks."""
    scale, colours = stage.layout.scale, colours_of(stage.replay)
    note_place = f'class="note" y="{number(1.2 * scale.font)}" dy=".35em"'
    drawn = []
    for at, walk in enumerate(stage.replay.walks):
        notes = (screen.element("text", note_place, [track], words) for track, words in notes_of(walk))
        box = svg.box(0, 0, scale.box_width(walk.client), scale.box, 0.5)
        inner = (
            f'<title>client {walk.client}</title><rect {box} fill="{colours[walk.client]}"/>'
            f'<text dy=".35em">{walk.client}</text>{"".join(notes)}'
        )
        drawn.append(screen.element("g", 'class="token"', [stage.motion(at, walk), stay_inside(walk)], inner))
    return [token for token in drawn if token]


def colours_of(replay: Replay) -> dict[str, str]:
    """Returns a colour for each client, in the order in which they come in first."""
    clients = dict.fromkeys(walk.client for walk in replay.walks)
    return {client: COLOURS[at % len(COLOURS)] for at, client in enumerate(clients)}
