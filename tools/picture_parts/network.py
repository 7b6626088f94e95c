"""The picture of a network."""
from picture_parts import svg
from picture_parts.layout import LETTER, WIRE_AWAY, Layout, lay_out
from picture_parts.svg import number
from picture_parts.wiring import Wiring


def draw_network(wiring: Wiring) -> str:
    """Draws a network with nobody inside."""
    layout = lay_out(wiring)
    elements = [*network_elements(layout), *svg.group("dots", open_dots(layout)), *box_elements(layout)]
    width = max(layout.after_exits, line_end(layout, wiring.heading))
    return svg.document(wiring.heading, width, layout.bottom, layout.scale, elements)


def line_end(layout: Layout, words: str) -> float:
    """Returns where a line above or below the network ends."""
    return 2 * layout.scale.font + LETTER * layout.scale.line_font * len(words)


def network_elements(layout: Layout) -> list[str]:
    """Draws the heading, the wires and the bars of balancers."""
    return [
        *svg.group("heading", [svg.text(layout.scale.font, layout.scale.line, layout.wiring.heading)]),
        *svg.group("lines", [line_path(layout)]),
        *svg.group("bars", [bar_path(layout)]),
        *svg.group("wire", wire_numbers(layout)),
        *svg.group("entry", entry_names(layout)),
        *svg.group("exit", exit_names(layout)),
    ]


def line_path(layout: Layout) -> str:
    """Draws every wire from its begin to its end, as one path."""
    steps = [
        f"M{number(layout.wire_begin(wire))} {number(layout.wire_y(wire))}H{number(layout.wire_end(wire))}"
        for wire in range(len(layout.wiring.ends))
    ]
    return f'<path d="{"".join(steps)}"/>'


def bar_path(layout: Layout) -> str:
    """Draws the bar of every balancer, as one path."""
    steps = []
    for balancer in range(layout.wiring.balancers):
        top, bottom = layout.bar(balancer)
        steps.append(f"M{number(layout.balancer_x(balancer))} {number(top)}V{number(bottom)}")
    return f'<path d="{"".join(steps)}"/>'


def wire_numbers(layout: Layout) -> list[str]:
    """Writes the number of every wire above its begin, in a tree also beside the box of the balancer that it comes from."""
    scale, wiring = layout.scale, layout.wiring
    box = scale.box_width(wiring.balancers - 1) / 2 if wiring.is_tree else 0
    return [
        svg.text(layout.wire_begin(wire) + box + WIRE_AWAY * scale.font, layout.wire_y(wire) - 0.72 * scale.font, wire)
        for wire in range(len(wiring.ends))
    ]


def entry_names(layout: Layout) -> list[str]:
    """Writes the name of every entry before its wire."""
    x = layout.left - 0.6 * layout.scale.font
    return [svg.text(x, layout.wire_y(entry), f"entry {entry}") for entry in range(layout.wiring.entries)]


def exit_names(layout: Layout) -> list[str]:
    """Writes the name of every exit behind its wire."""
    x = layout.right + 0.6 * layout.scale.font
    return [svg.text(x, layout.exit_y(exit), f"exit {exit}") for exit in range(layout.wiring.width)]


def dot(layout: Layout, balancer: int, output: int) -> str:
    """Returns the attributes of the dot at one output of a balancer."""
    y = layout.bar(balancer)[output]
    return f'cx="{number(layout.balancer_x(balancer))}" cy="{number(y)}" r="{number(layout.scale.dot)}"'


def open_dots(layout: Layout) -> list[str]:
    """Draws two dots on the bar of every balancer."""
    return [
        f"<circle {dot(layout, balancer, output)}/>"
        for balancer in range(layout.wiring.balancers) for output in (0, 1)
    ]


def box_elements(layout: Layout) -> list[str]:
    """Draws the number of every balancer in a box on its bar."""
    scale, boxes, numbers = layout.scale, [], []
    for balancer in range(layout.wiring.balancers):
        x, y = layout.balancer_x(balancer), layout.box_y(balancer)
        boxes.append(f"<rect {svg.box(x, y, scale.box_width(balancer), scale.box, 0.2)}/>")
        numbers.append(svg.text(x, y, balancer))
    return [*svg.group("boxes", boxes), *svg.group("numbers", numbers)]
