"""The shapes that stand for what a command did."""
from .style import INK, MARK, OVERFLOW, PAPER, REFUSED
from .svg import element, number

# The corners of shapes around a point, in units of half a mark.
CORNERS = {
    "send": ((-1, -1), (1.2, 0), (-1, 1)),
    "receive": ((-1, -1), (1, -1), (0, 1.2)),
    "release": ((-1, 1), (1, 1), (0, -1.2)),
    "reclaim": ((1, -1), (-1.2, 0), (1, 1)),
    "overflow": ((0, -1.5), (1.5, 0), (0, 1.5), (-1.5, 0)),
    "write": ((-0.8, -0.8), (0.8, -0.8), (0.8, 0.8), (-0.8, 0.8)),
    "discard": ((-0.4, -1.4), (0.4, -1.4), (0.4, 1.4), (-0.4, 1.4)),
}

# What each mark means, in the order of the legend.
MEANINGS = {
    "send": "send",
    "receive": "receive",
    "release": "release",
    "reclaim": "reclaim",
    "overflow": "sent back by overflow",
    "write": "write",
    "read": "read",
    "discard": "discard",
    "refusal": "refused",
    "none": "nothing there",
}


def shape(kind, x, y):
    """The shape of this kind around a point."""
    if kind == "read":
        return element("circle", {"cx": x, "cy": y, "r": MARK - 1, "fill": INK, "stroke": PAPER})
    if kind == "none":
        ring = {"cx": x, "cy": y, "r": MARK - 1, "fill": PAPER, "stroke": INK, "stroke_width": 1.5}
        return element("circle", ring)
    if kind == "refusal":
        return _cross(x, y)
    corners = " ".join(
        f"{number(x + across * MARK)},{number(y + down * MARK)}" for across, down in CORNERS[kind]
    )
    fill = OVERFLOW if kind == "overflow" else INK
    return element("polygon", {"points": corners, "fill": fill, "stroke": PAPER})


def _cross(x, y):
    left, right, top, bottom = (
        number(value) for value in (x - MARK, x + MARK, y - MARK, y + MARK)
    )
    path = f"M{left},{top}L{right},{bottom}M{left},{bottom}L{right},{top}"
    return element("path", {"d": path, "stroke": REFUSED, "stroke_width": 2.5, "fill": "none"})
