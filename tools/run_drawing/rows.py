"""Says which segments, buckets and lanes a drawing has a row for."""
from dataclasses import dataclass, field

# As many lanes as one drawing shows beside those that a command of the part is about.
MOST_LANES = 150

# As many buckets without a chunk as are drawn in a segment, each in a row of its own.
MOST_EMPTY = 6


@dataclass
class Bucket:
    """A bucket: the chunks that it has in this part, and the channels on which they are in transit."""

    segment: int
    place: int
    chunks: list = field(default_factory=list)
    channels: list = field(default_factory=list)


@dataclass
class Group:
    """The rows of a segment: what the story has of it, its buckets, and how many are drawn in no row."""

    segment: object
    heading: str
    buckets: list
    empty: int = 0


@dataclass
class Rows:
    """All rows of a drawing, and how many lanes were left out."""

    groups: list
    lanes_left_out: int = 0


def rows_of(story, part):
    """The rows for what the chunks of this part do in it."""
    buckets = _buckets(story, part)
    lanes = sum(1 + len(bucket.channels) for bucket in buckets.values())
    left_out = 0
    if lanes > MOST_LANES:
        buckets = _touched(story, part, buckets)
        left_out = lanes - sum(1 + len(bucket.channels) for bucket in buckets.values())
    numbers = {segment for segment, _ in buckets}
    if not left_out:
        numbers |= {
            number
            for number, segment in story.segments.items()
            if part.meets(segment.since, segment.until)
        }
    groups = [_group(story, number, buckets, left_out == 0) for number in sorted(numbers)]
    return Rows(groups, left_out)


def _buckets(story, part):
    """The buckets that have a chunk in this part, by segment and place."""
    buckets = {}
    for chunk in story.chunks:
        if part.meets(chunk.loaned, chunk.ended):
            key = (chunk.slot.segment, chunk.slot.place)
            bucket = buckets.setdefault(key, Bucket(*key))
            bucket.chunks.append(chunk)
            bucket.channels += [
                transit.channel
                for transit in chunk.transits
                if part.meets(transit.queued, transit.ended)
            ]
    for bucket in buckets.values():
        bucket.channels = sorted(set(bucket.channels))
    return buckets


def _touched(story, part, buckets):
    """Of these buckets, those that a command of the part is about, with the channels that it names."""
    touched = {}
    for event in story.events:
        if event.chunk is not None and part.has(event.command):
            key = (event.chunk.slot.segment, event.chunk.slot.place)
            touched.setdefault(key, set())
            if event.channel is not None:
                touched[key].add(event.channel)
    for key, bucket in buckets.items():
        if any(part.has(chunk.loaned) for chunk in bucket.chunks):
            touched.setdefault(key, set())
    return {
        key: Bucket(*key, buckets[key].chunks, sorted(channels))
        for key, channels in touched.items()
    }


def _group(story, number, buckets, has_empty):
    """The rows of a segment: its buckets with chunks, and a few empty ones where their places are known."""
    segment = story.segments[number]
    used = {place: bucket for (where, place), bucket in buckets.items() if where == number}
    heading = f"segment {number}"
    empty = 0
    if segment.bucket_count is not None:
        size, count = segment.bucket_size, segment.bucket_count
        heading += f": {_counted(count, 'bucket')} of {_counted(size, 'byte')}"
        empty = max(count - len(used), 0) if has_empty else 0
        if has_empty and empty <= MOST_EMPTY:
            for place in range(0, size * count, size):
                used.setdefault(place, Bucket(number, place))
            empty = 0
    return Group(segment, heading, [used[place] for place in sorted(used)], empty)


def _counted(count, word):
    return f"{count} {word}" if count == 1 else f"{count} {word}s"
