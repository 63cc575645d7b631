"""The rows of buckets: the chunks that each has, whether they are loaned, and their states on channels."""
from . import svg
from .layout import lane_name, place_name
from .style import (
    BAR,
    EDGE,
    EMPTY,
    GRID,
    HEADING,
    INK,
    LANE,
    MARGIN,
    MARK,
    PALE_INK,
    PAPER,
    SMALL,
    STATES,
    TEXT,
)
from .text import width_of

# From the middle of a line of text down to where its letters stand.
DESCENT = 3.5

# From where a bar starts to its word: past the mark that began it.
PAST_MARK = MARK + 5


class Buckets:
    """Draws the rows of a layout; it knows the marks, which words leave free."""

    def __init__(self, layout, part, events):
        self.layout = layout
        self.part = part
        self.marks = {}
        for event in events:
            if event.chunk is not None:
                key = (event.chunk.slot.chunk, event.channel)
                self.marks.setdefault(key, []).append(event.command)

    def backgrounds(self):
        """The names of segments, buckets and lanes, and below everything else the boxes of chunks."""
        parts = []
        for heading, top in self.layout.headings:
            y = top + HEADING - 8
            parts.append(svg.line(MARGIN, top, self.layout.columns.right, top, stroke=GRID))
            parts.append(svg.words(heading, MARGIN, y, TEXT, font_weight="bold", fill=INK))
        for note, top in self.layout.notes:
            parts.append(svg.words(note, MARGIN, top + LANE / 2, TEXT, fill=PALE_INK))
        for row in self.layout.rows.values():
            parts += self._names(row)
            parts.append(self._empty(row))
            parts += [self._box(row, chunk) for chunk in row.bucket.chunks]
        return parts

    def bars(self):
        """The names of chunks, and the bars of their states, over everything that runs from row to row."""
        parts = []
        for row in self.layout.rows.values():
            for chunk in row.bucket.chunks:
                parts += self._name(row, chunk)
                if self.part.meets(chunk.loaned, chunk.discarded):
                    span = ("loaned", chunk.loaned, chunk.discarded)
                    parts.append(self._bar(span, row.loans, chunk, None))
                for transit in chunk.transits:
                    parts += self._way(row, chunk, transit)
        return parts

    def _way(self, row, chunk, transit):
        """The bars of a chunk's way over one channel."""
        if transit.channel not in row.bucket.channels:
            return []
        y = row.channel(transit.channel)
        return [
            self._bar(stage, y, chunk, transit.channel)
            for stage in transit.stages()
            if self.part.meets(stage[1], stage[2])
        ]

    def _names(self, row):
        """The name of a bucket, and of each of its lanes."""
        bucket = row.bucket
        parts = [
            svg.words(
                place_name(bucket), MARGIN, row.names + DESCENT, TEXT, font_weight="bold", fill=INK
            )
        ]
        if bucket.chunks:
            lanes = [("loan", row.loans)]
            lanes += [(lane_name(channel), row.channel(channel)) for channel in bucket.channels]
            x = self.layout.columns.left - 6
            parts += [
                svg.words(name, x, y + DESCENT, SMALL, text_anchor="end", fill=PALE_INK)
                for name, y in lanes
            ]
        return parts

    def _empty(self, row):
        """The time in which the bucket is there, and has no chunk where nothing is drawn over it."""
        left, right = self.layout.span_of(row)
        return svg.rectangle(left, row.top, right - left, row.bottom - row.top, fill=EMPTY)

    def _box(self, row, chunk):
        """The box of a chunk's whole life, open where that goes on outside this part."""
        left = self.layout.columns.start(chunk.loaned)
        right = self.layout.columns.end(chunk.ended)
        box = svg.rectangle(left, row.top, right - left, row.bottom - row.top, fill=PAPER)
        edges = [(left, row.top, right, row.top), (left, row.bottom, right, row.bottom)]
        if self.part.has(chunk.loaned):
            edges.append((left, row.top, left, row.bottom))
        if self.part.has(chunk.ended):
            edges.append((right, row.top, right, row.bottom))
        lines = [svg.line(*edge, stroke=EDGE, stroke_width=1.5) for edge in edges]
        text = f"chunk {chunk.slot.chunk} in {place_name(row.bucket)}"
        return svg.element("g", {"class": "chunk"}, svg.titled(text, box + "".join(lines)))

    def _name(self, row, chunk):
        """The name of a chunk, or its number alone, at the start of its box where that is wide enough."""
        left = self.layout.columns.start(chunk.loaned)
        width = self.layout.columns.end(chunk.ended) - left - 8
        number = str(chunk.slot.chunk)
        fitting = [name for name in (f"chunk {number}", number) if width_of(name, TEXT) < width]
        y = row.names + DESCENT
        return [
            svg.words(name, left + 6, y, TEXT, font_weight="bold", fill=INK) for name in fitting[:1]
        ]

    def _bar(self, span, y, chunk, channel):
        """The bar of a state, with its word where that fits before the next mark."""
        state, start, end = span
        left = self.layout.columns.start(start)
        right = self.layout.columns.end(end)
        fill, ink = STATES[state]
        bar = svg.rectangle(left, y - BAR / 2, right - left, BAR, fill=fill, stroke=EDGE)
        begin = left + (PAST_MARK if self.part.has(start) else 4)
        later = (mark for mark in self.marks.get((chunk.slot.chunk, channel), ()) if mark > start)
        free = min((self.layout.columns.middle(mark) - MARK for mark in later), default=right)
        if width_of(state, SMALL) <= min(free, right) - begin - 2:
            bar += svg.words(state, begin, y + DESCENT, SMALL, fill=ink)
        where = "" if channel is None else f" on {lane_name(channel)}"
        return svg.element(
            "g", {"class": state}, svg.titled(f"chunk {chunk.slot.chunk} {state}{where}", bar)
        )
