"""Where everything stands: the columns of commands, and the lanes of each bucket."""
from dataclasses import dataclass

from .style import COLUMN, HEADING, LANE, MARGIN, ROW_GAP, SMALL, TEXT
from .text import width_of

# A drawing is at least as wide as its settings need.
LEAST_WIDTH = 740

# The room beside the columns.
AROUND = COLUMN / 2

# What a row has below its last lane.
BELOW = 3


@dataclass(frozen=True)
class Columns:
    """The columns of the commands that are drawn, with some room before and after them for what was and what stays."""

    left: float
    first: int
    last: int

    @property
    def right(self):
        """Where the room after the last column ends."""
        return self.edge(self.last + 1) + AROUND

    def edge(self, number):
        """Where the column of a command begins."""
        before = 0 if self.first == 1 else AROUND
        return self.left + before + COLUMN * (number - self.first)

    def middle(self, number):
        """Where the mark of a command stands."""
        return self.edge(number) + COLUMN / 2

    def start(self, number):
        """Where something begins that this command began."""
        return self.left if number < self.first else self.middle(number)

    def end(self, number):
        """Where something ends that this command ended, or no command."""
        return self.right if number is None or number > self.last else self.middle(number)


@dataclass(frozen=True)
class Row:
    """A bucket in its place: the middles of its lanes, downwards."""

    bucket: object
    segment: object
    top: float

    @property
    def names(self):
        """The middle of the lane with the names of chunks."""
        return self.top + LANE / 2

    @property
    def loans(self):
        """The middle of the lane that shows the loans."""
        return self.top + LANE * 1.5

    def channel(self, number):
        """The middle of the lane of a channel."""
        return self.top + LANE * (2.5 + self.bucket.channels.index(number))

    @property
    def bottom(self):
        """Where the row ends; a bucket with no chunk has no lanes."""
        lanes = 2 + len(self.bucket.channels) if self.bucket.chunks else 1
        return self.top + LANE * lanes + BELOW


@dataclass(frozen=True)
class Layout:
    """The whole: columns, headings of segments and notes with their tops, rows by bucket, and the edges."""

    columns: Columns
    headings: list
    notes: list
    rows: dict
    bottom: float
    width: float

    def span_of(self, row):
        """From where to where the bucket of a row is there."""
        segment = row.segment
        return self.columns.start(segment.since), self.columns.end(segment.until)

    def lane_of(self, slot, channel):
        """The middle of a chunk's lane on a channel, or of its loan for no channel; none where it isn't drawn."""
        row = self.rows.get((slot.segment, slot.place))
        if row is None:
            return None
        if channel is None:
            return row.loans
        return row.channel(channel) if channel in row.bucket.channels else None


def layout_of(part, rows, transit, top):
    """Puts the rows below this top, and the columns beside the names of rows."""
    columns = Columns(MARGIN + _names_width(rows), part.first, part.last)
    headings, notes, placed = [], [], {}
    for group in rows.groups:
        headings.append((group.heading, top))
        top += HEADING
        for bucket in group.buckets:
            row = Row(bucket, group.segment, top)
            placed[(bucket.segment, bucket.place)] = row
            top = row.bottom + ROW_GAP
        if group.empty:
            count = f"and {group.empty} more" if group.buckets else str(group.empty)
            notes.append((f"{count} without a chunk", top))
            top += LANE
    longest = max((width_of(line.text, TEXT) + ROW_GAP for line in transit), default=0)
    width = max(columns.right + longest + MARGIN, LEAST_WIDTH)
    return Layout(columns, headings, notes, placed, top, width)


def lane_name(channel):
    """The name of the lane of a channel."""
    return f"channel {channel}"


def place_name(bucket):
    """The name of a bucket, as replies tell it."""
    return f"{bucket.segment}:{bucket.place}"


def _names_width(rows):
    """The width of the names of buckets and lanes, with gaps."""
    buckets = [bucket for group in rows.groups for bucket in group.buckets]
    places = [width_of(place_name(bucket), TEXT) for bucket in buckets]
    lanes = [lane_name(channel) for bucket in buckets for channel in bucket.channels]
    widest = max(width_of(name, SMALL) for name in [*lanes, "command"])
    return max(places, default=0) + widest + 3 * ROW_GAP
