"""Drawing plans as a page in SVG: a band for each query, with a box for each node."""

from collections.abc import Iterator
from typing import NamedTuple
from xml.sax.saxutils import escape

from tools.plans import Node, Told

MARGIN, WIDTH, HEIGHT, GAP = 20, 216, 92, 26
IN_A_ROW = 5
LINE = 18
# Letters of this size that a line of the page has room for.
LETTERS = 150
PAGE_WIDTH = 2 * MARGIN + IN_A_ROW * WIDTH + (IN_A_ROW - 1) * GAP
STYLE = """\
text { font: 13px sans-serif; fill: #1c2733 }
.head { font-weight: bold; font-size: 15px }
.kind { font-weight: bold }
.quiet { fill: #5a6b7b }
.refused { fill: #a32020 }
.box { fill: #f4f8fb; stroke: #7d97ad }
.reads { fill: #e3f0e4; stroke: #5f9a66 }
.way { stroke: #7d97ad; stroke-width: 1.5; marker-end: url(#tip) }"""
TIP = '<defs><marker id="tip" markerWidth="8" markerHeight="8" refX="7" refY="4" orient="auto">'
TIP += '<path d="M0,0 L8,4 L0,8 z" fill="#7d97ad"/></marker></defs>'


class Band(NamedTuple):
    """A query: its head, its statement, its nodes, and what stands below them. A refused one has no nodes."""

    head: str
    statement: str
    nodes: list[Node]
    below: str
    is_refused: bool


def text_at(x: int, y: int, text: str, kind: str = "") -> str:
    """A line of text."""
    of = f' class="{kind}"' if kind else ""
    return f'<text x="{x}" y="{y}"{of}>{escape(text)}</text>'


def shortened(text: str, letters: int = LETTERS) -> str:
    return text if len(text) <= letters else f"{text[: letters - 1]}\N{HORIZONTAL ELLIPSIS}"


def counted(count: int, one: str, more: str) -> str:
    return f"{count} {one if count == 1 else more}"


def work_text(operations: int, entries: int) -> str:
    return f"{counted(operations, 'operation', 'operations')}, {counted(entries, 'entry', 'entries')}"


def plan_text(told: Told) -> str:
    """What a plan needs: the sum of its nodes, and its rounds."""
    return f"{work_text(*told.cost)}, {counted(told.rounds, 'round', 'rounds')}"


def place_of(number: int, top: int) -> tuple[int, int]:
    """The upper left corner of a box, by its number from 0."""
    row, column = divmod(number, IN_A_ROW)
    return MARGIN + column * (WIDTH + GAP), top + row * (HEIGHT + GAP)


def box(node: Node, x: int, y: int) -> Iterator[str]:
    """A node."""
    kind = "reads" if node.sequence else "box"
    yield f'<rect x="{x}" y="{y}" width="{WIDTH}" height="{HEIGHT}" rx="6" class="{kind}"/>'
    yield text_at(x + 10, y + 20, " ".join(part for part in (node.kind, node.most) if part), "kind")
    lines = [node.relation, node.sequence, work_text(*node.cost), f"gives at most {node.size}"]
    for number, line in enumerate(lines):
        if line:
            yield text_at(x + 10, y + 36 + number * 16, shortened(line, 34), "quiet" if number == 3 else "")


def way(number: int, top: int) -> str:
    """The arrow to a box from the one before it."""
    (x, y), (to_x, to_y) = place_of(number - 1, top), place_of(number, top)
    if y == to_y:
        middle = y + HEIGHT // 2
        return f'<path class="way" d="M{x + WIDTH},{middle} L{to_x},{middle}" fill="none"/>'
    between = y + HEIGHT + GAP // 2
    begin, end = x + WIDTH // 2, to_x + WIDTH // 2
    return f'<path class="way" d="M{begin},{y + HEIGHT} V{between} H{end} V{to_y}" fill="none"/>'


def drawn(band: Band, top: int) -> tuple[list[str], int]:
    """A band that begins at this height, and the height at which it ends."""
    found = [text_at(MARGIN, top + LINE, band.head, "head refused" if band.is_refused else "head")]
    found.append(text_at(MARGIN, top + 2 * LINE, shortened(band.statement), "quiet"))
    at = top + 2 * LINE + 12
    for number, node in enumerate(band.nodes):
        found += [way(number, at)] if number else []
        found += box(node, *place_of(number, at))
    rows = -(-len(band.nodes) // IN_A_ROW)
    at += rows * (HEIGHT + GAP)
    found.append(text_at(MARGIN, at + 8, shortened(band.below), "refused" if band.is_refused else "kind"))
    return found, at + 8 + 2 * LINE


def page(title: str, bands: list[Band]) -> str:
    """The page."""
    found, at = [text_at(MARGIN, MARGIN + 12, title, "head")], MARGIN + 12 + LINE
    for band in bands:
        lines, at = drawn(band, at)
        found += lines
    size = f'width="{PAGE_WIDTH}" height="{at}"'
    head = f'<svg xmlns="http://www.w3.org/2000/svg" {size} viewBox="0 0 {PAGE_WIDTH} {at}">'
    back = f'<rect {size} fill="white"/>'
    named = f"<title>{escape(title)}</title>"
    return "\n".join([head, named, f"<style>{STYLE}</style>", TIP, back, *found, "</svg>\n"])
