"""The whole drawing of a part of a run."""
from . import svg
from .buckets import DESCENT, Buckets
from .events import Events
from .heading import Heading
from .layout import layout_of
from .legend import legend
from .rows import rows_of
from .story import story_of
from .style import INK, LINE, MARGIN, PALE_INK, PAPER, ROW_GAP, SMALL, TEXT
from .text import shortened

# A script's name may be longer than a drawing is wide.
NAME_LENGTH = 40


def picture_of(name, script, replies, part):
    """The text of the SVG of this part of a run, under the name of its script."""
    story = story_of(script, replies)
    rows = rows_of(story, part)
    title = f"{shortened(name, NAME_LENGTH)}: commands {part.first} to {part.last} of {part.count}"
    heading = Heading(title, script, replies, part)
    transit = story.transit if part.is_end else []
    layout = layout_of(part, rows, transit, heading.bottom)
    seen = [event for event in story.events if part.has(event.command)]
    buckets = Buckets(layout, part, seen)
    events = Events(layout, heading, script, seen)
    notes, top = _notes(rows, layout.bottom)
    below, bottom = legend(top, layout.width)
    content = [
        svg.rectangle(0, 0, layout.width, bottom + MARGIN, fill=PAPER),
        *buckets.backgrounds(),
        *events.bands(),
        *events.grid(part),
        *events.overflow_lines(),
        *buckets.bars(),
        *events.marks(),
        *heading.drawn(layout.columns),
        *_transit(transit, layout, heading.replies_top + LINE),
        *notes,
        *below,
    ]
    return svg.document(layout.width, bottom + MARGIN, title, content)


def _transit(transit, layout, top):
    """The transit list under its name, each line beside the lane that it tells of."""
    x = layout.columns.right + ROW_GAP
    parts = [svg.words("transit list", x, top, SMALL, fill=PALE_INK)] if transit else []
    for line in transit:
        y = layout.lane_of(line.slot, line.channel)
        if y is not None:
            parts.append(svg.words(line.text, x, y + DESCENT, TEXT, class_="transit", fill=INK))
    return parts


def _notes(rows, top):
    """Says how many lanes were left out, if any; and where the legend begins."""
    if not rows.lanes_left_out:
        return [], top
    text = f"{rows.lanes_left_out} lanes that no command here is about are left out"
    return [svg.words(text, MARGIN, top + TEXT, TEXT, fill=PALE_INK)], top + 2 * TEXT
