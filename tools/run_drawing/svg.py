"""The text of SVG elements."""
import re
from xml.sax.saxutils import escape, quoteattr

from .style import FONT
from .text import shortened

# A text that is shown where something is pointed at has no more letters.
MOST_LETTERS = 200

# What no XML text may have.
NO_LETTERS = re.compile("[^\t\n\r\x20-\ud7ff\ue000-\ufffd\U00010000-\U0010ffff]")


def number(value):
    """A measure with at most two decimals, always written the same."""
    text = f"{value:.2f}".rstrip("0").rstrip(".")
    return "0" if text == "-0" else text


def element(name, attributes, content=""):
    """An element. Measures among its attributes are written as numbers; class_ is class, and font_size is font-size."""
    pairs = [
        (key.replace("_", "-").strip("-"), value if isinstance(value, str) else number(value))
        for key, value in attributes.items()
    ]
    start = " ".join([name, *(f"{key}={quoteattr(value)}" for key, value in pairs)])
    return f"<{start}>{content}</{name}>" if content else f"<{start}/>"


def titled(text, content):
    """The content of an element that a viewer shows with this text where it is pointed at."""
    return element("title", {}, letters(shortened(text, MOST_LETTERS))) + content


def letters(text):
    """A text as the content of an element."""
    return escape(NO_LETTERS.sub("?", text))


def rectangle(left, top, width, height, **attributes):
    """A rectangle."""
    return element("rect", {"x": left, "y": top, "width": width, "height": height, **attributes})


def line(left, top, right, bottom, **attributes):
    """A line from one point to another."""
    return element("line", {"x1": left, "y1": top, "x2": right, "y2": bottom, **attributes})


def words(text, x, y, size, **attributes):
    """A line of text; x is its start, its middle or its end, as text-anchor says."""
    return element("text", {"x": x, "y": y, "font_size": size, **attributes}, letters(text))


def document(width, height, title, content):
    """A whole drawing."""
    attributes = {
        "xmlns": "http://www.w3.org/2000/svg",
        "width": width,
        "height": height,
        "viewBox": f"0 0 {number(width)} {number(height)}",
        "font_family": FONT,
        "role": "img",
    }
    return element("svg", attributes, "\n" + titled(title, "\n") + "\n".join(content) + "\n") + "\n"
