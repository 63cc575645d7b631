#!/usr/bin/env python3
"""Checks a drawing of tools/draw_run.py against the replies of its run.

    python3 tools/check_drawing.py DRAWING REPLIES [--from N] [--to N]

The drawing has to be well-formed XML, with as many marks as the replies of the commands from N to N tell of; no two of its
texts may overlap, and none may pass its edges. The marks are counted here by themselves: nothing of the drawing tool is used.
"""
import argparse
import collections
import sys
import xml.etree.ElementTree

SVG = "{http://www.w3.org/2000/svg}"

# The width of a letter in font sizes, and how far letters reach above and below the line that they stand on.
LETTER = 0.602
ASCENT = 0.76
DESCENT = 0.24

# What the replies begin with that tell of a mark; those that end with none have a mark of their own.
BEGINNINGS = {
    "send": "sent",
    "overflow": "sent back",
    "receive": "received",
    "release": "released",
    "reclaim": "reclaimed",
    "discard": "discarded",
    "write": "written",
    "read": "bytes",
    "refusal": "refused",
}

Box = collections.namedtuple("Box", "left top right bottom text")


def expected_marks(lines, first, last):
    """The marks that the replies to these commands ask for; without a last command the run is whole from there on."""
    answers = [line for line in lines if not line.startswith("transit ")]
    drawn = answers[first - 1 : last]
    found = [line for line in drawn if not line.endswith(" none")]
    marks = {
        mark: sum(line.startswith(beginning) for line in found)
        for mark, beginning in BEGINNINGS.items()
    }
    marks["command"] = len(drawn)
    marks["none"] = len(drawn) - len(found)
    if first == 1:
        marks["chunk"] = sum(line.startswith("loaned ") for line in drawn)
    if last is None or last == len(answers):
        marks["transit"] = len(lines) - len(answers)
    return marks


def drawn_marks(drawing):
    """How many elements of each class a drawing has."""
    return collections.Counter(element.get("class") for element in drawing.iter())


def boxes(drawing):
    """Where the texts of a drawing stand, as wide as letters of the same width make them."""
    parents = {child: parent for parent in drawing.iter() for child in parent}
    for text in drawing.iter(f"{SVG}text"):
        size = float(text.get("font-size"))
        width = len(text.text) * size * LETTER
        anchor = text.get("text-anchor") or parents[text].get("text-anchor") or "start"
        left = float(text.get("x")) - {"start": 0, "middle": width / 2, "end": width}[anchor]
        line = float(text.get("y"))
        yield Box(left, line - size * ASCENT, left + width, line + size * DESCENT, text.text)


def overlapping(placed):
    """The pairs of texts that overlap: a text is compared with those whose boxes begin before its own ends."""
    placed = sorted(placed)
    for index, box in enumerate(placed):
        for other in placed[index + 1 :]:
            if other.left >= box.right:
                break
            if other.top < box.bottom and box.top < other.bottom:
                yield box.text, other.text


def faults(drawing, lines, first, last):
    """All that is wrong with a drawing, in words."""
    marks = drawn_marks(drawing)
    for mark, count in expected_marks(lines, first, last).items():
        if marks[mark] != count:
            yield f"{marks[mark]} marks of {mark} in place of {count}"
    placed = list(boxes(drawing))
    for one, other in overlapping(placed):
        yield f"the texts overlap: {one} and {other}"
    width, height = float(drawing.get("width")), float(drawing.get("height"))
    for box in placed:
        if box.left < 0 or box.top < 0 or box.right > width or box.bottom > height:
            yield f"a text passes the edge: {box.text}"


def main():
    parser = argparse.ArgumentParser(description=__doc__.splitlines()[0])
    parser.add_argument("drawing")
    parser.add_argument("replies")
    parser.add_argument("--from", dest="first", type=int, default=1)
    parser.add_argument("--to", dest="last", type=int)
    arguments = parser.parse_args()
    try:
        drawing = xml.etree.ElementTree.parse(arguments.drawing).getroot()
    except xml.etree.ElementTree.ParseError as fault:
        sys.exit(f"{arguments.drawing} isn't well-formed: {fault}")
    with open(arguments.replies, encoding="ascii") as file:
        lines = file.read().splitlines()
    found = list(faults(drawing, lines, arguments.first, arguments.last))
    if found:
        sys.exit("\n".join(f"{arguments.drawing}: {fault}" for fault in found))


if __name__ == "__main__":
    main()
