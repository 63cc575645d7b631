"""What the colours and marks of a drawing mean."""
from . import svg
from .marks import MEANINGS, shape
from .style import BAR, EDGE, EMPTY, INK, LANE, MARGIN, PAPER, STATES, TEXT
from .text import width_of

SWATCH = 26
GAP = 20

BOXES = (
    ("a chunk's life", PAPER),
    ("loaned", STATES["loaned"][0]),
    ("queued", STATES["queued"][0]),
    ("borrowed", STATES["borrowed"][0]),
    ("completed", STATES["completed"][0]),
    ("no chunk", EMPTY),
)


def legend(top, width):
    """The elements of the legend from this top on, and where it ends."""
    items = [(text, lambda x, y, fill=fill: _swatch(x, y, fill)) for text, fill in BOXES]
    items += [
        (meaning, lambda x, y, kind=kind: shape(kind, x + SWATCH - 8, y))
        for kind, meaning in MEANINGS.items()
    ]
    parts = []
    x, y = MARGIN, top + LANE
    for text, draw in items:
        length = SWATCH + 6 + width_of(text, TEXT)
        if x > MARGIN and x + length > width - MARGIN:
            x, y = MARGIN, y + LANE + 3
        parts.append(draw(x, y))
        parts.append(svg.words(text, x + SWATCH + 6, y + 3.5, TEXT, fill=INK))
        x += length + GAP
    return [svg.element("g", {"class": "legend"}, "\n".join(parts))], y + LANE


def _swatch(x, y, fill):
    return svg.rectangle(x, y - BAR / 2, SWATCH, BAR, fill=fill, stroke=EDGE)
