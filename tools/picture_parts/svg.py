"""SVG as text."""
from picture_parts.layout import WIRE_LETTER, Scale

BLUE = "#0b4f8a"
# The size of the note below a token, in parts of other letters.
NOTE = 0.85


def number(value: float) -> str:
    """Returns a number with at most one decimal."""
    return f"{round(value, 1):.9g}"


def place(x: float, y: float) -> str:
    """Returns the attributes of a text whose middle is at this height."""
    return f'x="{number(x)}" y="{number(y)}" dy=".35em"'


def text(x: float, y: float, words: object) -> str:
    """Returns words at a place. Their group says on which side of it they are."""
    return f'<text {place(x, y)}>{words}</text>'


def box(x: float, y: float, width: float, height: float, corner: float) -> str:
    """Returns the attributes of a box around a place, with round corners."""
    place = f'x="{number(x - width / 2)}" y="{number(y - height / 2)}"'
    return f'{place} width="{number(width)}" height="{number(height)}" rx="{number(corner * height)}"'


def group(kind: str, elements: list[str]) -> list[str]:
    """Returns elements of one kind. The style of the picture says how they look."""
    return [f'<g class="{kind}">', *elements, "</g>"]


def style(scale: Scale) -> str:
    """Returns how each kind of element looks."""
    font = scale.font
    return f"""<style>
text {{ font-family: "DejaVu Sans", Verdana, Arial, sans-serif; font-size: {number(font)}px; fill: #5f6b7a }}
.heading text, .caption text {{ fill: #1d2733 }}
.heading text, .caption text, .legend text {{ font-size: {number(scale.line_font)}px }}
.entry text {{ text-anchor: end; fill: #1d2733 }}
.exit text {{ fill: #1d2733 }}
.wire text {{ font-size: {number(WIRE_LETTER * font)}px }}
.lines path {{ stroke: #3a4554; stroke-width: {number(0.11 * font)}; fill: none }}
.bars path {{ stroke: {BLUE}; stroke-width: {number(0.23 * font)}; fill: none }}
.dots, .boxes {{ stroke: {BLUE}; stroke-width: {number(0.2 * font)}; fill: white }}
.numbers text {{ text-anchor: middle; fill: {BLUE}; font-weight: bold; font-size: {number(0.95 * font)}px }}
.token text {{ text-anchor: middle; fill: white; font-weight: bold; font-size: {number(0.95 * font)}px }}
.token .note {{ fill: #1d2733; font-weight: normal; font-size: {number(NOTE * font)}px }}
</style>"""


def document(title: str, width: float, height: float, scale: Scale, elements: list[str]) -> str:
    """Returns a whole picture on white ground."""
    size = f'width="{number(width)}" height="{number(height)}"'
    return "\n".join([
        f'<svg xmlns="http://www.w3.org/2000/svg" {size} viewBox="0 0 {number(width)} {number(height)}">',
        f"<title>{title}</title>",
        style(scale),
        f'<rect {size} fill="white"/>',
        *elements,
        "</svg>\n",
    ])
