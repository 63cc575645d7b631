"""Tells what became of each chunk, from the commands and their replies alone.

Which chunk was loaned, sent, taken or given back is read off these. Two things are worked out: a chunk's life ends where it
is neither loaned nor in transit, and a segment goes with its last chunk, unless loans are served from it.
"""
from dataclasses import dataclass, field

from .no_drawing import NoDrawing
from .replies import Slot

# Which replies answer which command.
ANSWERS = {
    "loan": ("loaned",),
    "write": ("written",),
    "send": ("sent", "sent back"),
    "receive": ("received", "received none"),
    "read": ("bytes",),
    "release": ("released",),
    "reclaim": ("reclaimed", "reclaimed none"),
    "discard": ("discarded",),
    "count": ("counted",),
}


@dataclass
class Transit:
    """A chunk's way over one channel, by the numbers of the commands that moved it on."""

    channel: int
    queued: int
    borrowed: int | None = None
    completed: int | None = None
    ended: int | None = None

    def stages(self):
        """Its states in their order: name, first command, and the command that ended it or none."""
        moves = [("queued", self.queued), ("borrowed", self.borrowed), ("completed", self.completed)]
        begun = [move for move in moves if move[1] is not None]
        ends = [start for _, start in begun[1:]] + [self.ended]
        return [(state, start, end) for (state, start), end in zip(begun, ends)]


@dataclass
class Chunk:
    """A chunk: where it lies, when it was loaned, discarded and gone, and its ways over channels."""

    slot: Slot
    loaned: int
    discarded: int | None = None
    ended: int | None = None
    transits: list = field(default_factory=list)
    open_transits: dict = field(default_factory=dict)

    @property
    def is_live(self):
        """Whether it is loaned, or in transit on some channel."""
        return self.discarded is None or bool(self.open_transits)


@dataclass(frozen=True, slots=True)
class Event:
    """What a command did: a kind of mark, and the chunk and channel where it belongs, if to any."""

    kind: str
    command: int
    chunk: Chunk | None = None
    channel: int | None = None


@dataclass
class Segment:
    """A segment: the command whose loan made it, 0 for the first one, and the command with which it went, if any.

    The size and the number of its buckets are known where the settings or a count told them.
    """

    since: int
    until: int | None = None
    bucket_size: int | None = None
    bucket_count: int | None = None


@dataclass
class Story:
    """All that happened: chunks in the order of their loans, events in that of the commands, and segments by number."""

    chunks: list = field(default_factory=list)
    events: list = field(default_factory=list)
    segments: dict = field(default_factory=dict)
    transit: list = field(default_factory=list)


class _Teller:
    """Makes a story, one command after another; at any time it knows the live chunks, by name and by segment."""

    def __init__(self):
        self.story = Story()
        self.live = {}
        self.live_in = {0: 0}
        self.current = 0

    def tell(self, command, reply):
        """Adds what one command did."""
        if reply.form == "refused":
            self._mark("refusal", command)
        elif reply.form not in ANSWERS[command.word]:
            raise NoDrawing(f"command {command.number}, {command.text}, isn't answered by: {reply.text}")
        elif reply.form.endswith(" none"):
            self._mark("none", command)
        else:
            getattr(self, f"_{command.word}")(command, reply)

    def _mark(self, kind, command, chunk=None, channel=None):
        self.story.events.append(Event(kind, command.number, chunk, channel))

    def _chunk(self, name, command):
        if name not in self.live:
            raise NoDrawing(f"command {command.number} tells of chunk {name}, which no loan made")
        return self.live[name]

    def _transit(self, chunk, command):
        if command.channel not in chunk.open_transits:
            name = chunk.slot.chunk
            raise NoDrawing(f"command {command.number} tells of chunk {name}, which wasn't sent there")
        return chunk.open_transits[command.channel]

    def _end_transit(self, chunk, command):
        self._transit(chunk, command).ended = command.number
        del chunk.open_transits[command.channel]
        self._end(chunk, command)

    def _end(self, chunk, command):
        """Ends the life of a chunk that is neither loaned nor in transit any more."""
        if not chunk.is_live:
            chunk.ended = command.number
            del self.live[chunk.slot.chunk]
            self.live_in[chunk.slot.segment] -= 1
            self._retire(chunk.slot.segment, command)

    def _retire(self, number, command):
        """A segment goes with its last chunk, unless it is the one that loans are served from."""
        if number != self.current and self.live_in[number] == 0:
            self.story.segments[number].until = command.number

    def _loan(self, command, reply):
        chunk = Chunk(reply.slot, command.number)
        if chunk.slot.chunk != command.number:
            raise NoDrawing(f"command {command.number} is a loan of chunk {chunk.slot.chunk}")
        self.story.chunks.append(chunk)
        self.live[chunk.slot.chunk] = chunk
        number = chunk.slot.segment
        self.live_in[number] = self.live_in.get(number, 0) + 1
        if number not in self.story.segments:
            self.story.segments[number] = Segment(command.number)
            before, self.current = self.current, number
            self._retire(before, command)

    def _write(self, command, reply):
        self._mark("write", command, self._chunk(command.chunk, command))

    def _send(self, command, reply):
        chunk = self._chunk(command.chunk, command)
        transit = Transit(command.channel, command.number)
        chunk.transits.append(transit)
        chunk.open_transits[command.channel] = transit
        self._mark("send", command, chunk, command.channel)
        if reply.form == "sent back":
            oldest = self._chunk(reply.slot.chunk, command)
            self._mark("overflow", command, oldest, command.channel)
            self._end_transit(oldest, command)

    def _receive(self, command, reply):
        chunk = self._chunk(reply.slot.chunk, command)
        self._transit(chunk, command).borrowed = command.number
        self._mark("receive", command, chunk, command.channel)

    def _read(self, command, reply):
        self._mark("read", command, self._chunk(command.chunk, command), command.channel)

    def _release(self, command, reply):
        chunk = self._chunk(command.chunk, command)
        self._transit(chunk, command).completed = command.number
        self._mark("release", command, chunk, command.channel)

    def _reclaim(self, command, reply):
        chunk = self._chunk(reply.slot.chunk, command)
        self._mark("reclaim", command, chunk, command.channel)
        self._end_transit(chunk, command)

    def _discard(self, command, reply):
        chunk = self._chunk(command.chunk, command)
        chunk.discarded = command.number
        self._mark("discard", command, chunk)
        self._end(chunk, command)

    def _count(self, command, reply):
        _, _, current, size, buckets = reply.counted
        if current in self.story.segments:
            segment = self.story.segments[current]
            segment.bucket_size, segment.bucket_count = size, buckets


def story_of(script, replies):
    """The story of a whole run."""
    if len(script.commands) != len(replies.answers):
        counts = len(script.commands), len(replies.answers)
        raise NoDrawing("commands in the script: {}, and replies to commands: {}".format(*counts))
    teller = _Teller()
    first = Segment(0, bucket_size=script.bucket_size, bucket_count=script.bucket_count)
    teller.story.segments[0] = first
    for command, reply in zip(script.commands, replies.answers):
        teller.tell(command, reply)
    teller.story.transit = replies.transit
    return teller.story
