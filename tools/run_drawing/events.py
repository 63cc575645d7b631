"""What is drawn for single commands: marks, the way of a chunk that overflow sent back, and refusals."""
from . import svg
from .marks import shape
from .style import COLUMN, GRID, OVERFLOW, REFUSED, REFUSED_BAND

# Marks that belong to no bucket stand below the replies.
WITHOUT_BUCKET = ("refusal", "none")


class Events:
    """Draws the events of a part, in the rows of a layout."""

    def __init__(self, layout, heading, script, events):
        self.layout = layout
        self.heading = heading
        self.script = script
        self.events = events

    def bands(self):
        """The column of each refused command, over what lies below the bars."""
        top = self.heading.commands_top
        height = self.layout.bottom - top
        return [
            svg.rectangle(
                self.layout.columns.edge(event.command),
                top,
                COLUMN,
                height,
                fill=REFUSED,
                fill_opacity=REFUSED_BAND,
            )
            for event in self.events
            if event.kind == "refusal"
        ]

    def grid(self, part):
        """A line down each row, at each command for which its bucket is there."""
        middles = [self.layout.columns.middle(number) for number in part.numbers()]
        lines = []
        for row in self.layout.rows.values():
            left, right = self.layout.span_of(row)
            lines += [
                svg.line(x, row.top, x, row.bottom, stroke=GRID) for x in middles if left < x < right
            ]
        return lines

    def overflow_lines(self):
        """From each chunk that was sent to the one that came back for it."""
        sent = {event.command: event for event in self.events if event.kind == "send"}
        lines = []
        for event in self.events:
            if event.kind == "overflow":
                begin = self._height(sent[event.command])
                end = self._height(event)
                if begin is not None and end is not None:
                    x = self.layout.columns.middle(event.command)
                    lines.append(svg.line(x, begin, x, end, stroke=OVERFLOW, stroke_width=2))
        return lines

    def marks(self):
        """The mark of each event."""
        placed = ((event, self._height(event)) for event in self.events)
        return [self._mark(event, y) for event, y in placed if y is not None]

    def _height(self, event):
        """Where the mark of an event stands, or none where its lane isn't drawn."""
        if event.kind in WITHOUT_BUCKET:
            return self.heading.marks
        return self.layout.lane_of(event.chunk.slot, event.channel)

    def _mark(self, event, y):
        command = self.script.commands[event.command - 1]
        content = svg.titled(
            f"{command.number}: {command.text}",
            shape(event.kind, self.layout.columns.middle(event.command), y),
        )
        return svg.element("g", {"class": event.kind}, content)
