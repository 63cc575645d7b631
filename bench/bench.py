#!/usr/bin/env python3
"""Measures how fast the built program runs long scripts over a small memory.

    python3 bench/bench.py [PROGRAM] [--bytes N] [--runs N]

PROGRAM is crates/cal_program/out/cal_program where it isn't given. Scripts of about 16 MB are run: in the first, one chunk
after another goes the whole way; in the second, several chunks are under way at once, in an order that a fixed seed
chooses; in the third each chunk goes over two channels; in the fourth each send on a full channel takes the oldest chunk
back; in the fifth the sizes vary, and memory grows to the largest. Two shorter scripts follow: one fills each of 256
segments with 256 chunks and lets them go again, and one takes 100,000 commands over 2^20 channels. No command is refused.
For each script the fastest run counts; its time has the start of the program, the reading of the script and the writing
of the replies in it.
"""
import argparse
import collections
import os
import random
import subprocess
import sys
import tempfile
import time

TOP = os.path.dirname(os.path.dirname(os.path.abspath(__file__)))
PROGRAM = os.path.join(TOP, "crates", "cal_program", "out", "cal_program")

# The longest script that the program reads.
MOST_BYTES = 16_777_216

SIZE, BUCKETS, BUFFER, BORROW = 64, 8, 4, 4
SETTINGS = f"transport {SIZE} 8 {BUCKETS} static {BUFFER} {BORROW} off {BUCKETS} 1 1"
TWO_CHANNELS = f"transport {SIZE} 8 {BUCKETS} static {BUFFER} {BORROW} off {BUCKETS} 1 2"
OVERFLOWING = f"transport {SIZE} 8 {BUCKETS} static {BUFFER} {BORROW} on {BUCKETS} 1 1"
GROWING = f"transport 16 8 {BUCKETS} best {BUFFER} {BORROW} off {2 * BUCKETS} 255 1"
SEGMENTS, CHUNKS = 256, 256
# No chunk of this script is sent, so the connection needn't know of more segments.
FILLING = f"transport 8 8 {CHUNKS} best 1 1 off {CHUNKS} 1 1"
CHANNELS, OVER_CHANNELS = 2**20, 100_000
MANY_CHANNELS = f"transport {SIZE} 8 1 static 1 1 off 1 1 {CHANNELS}"


def in_turn():
    """The commands of one chunk after another, without end."""
    place = 1
    while True:
        yield f"loan {SIZE} 8"
        yield f"write {place} 0 7b00ff01"
        yield f"send 0 {place}"
        yield "receive 0"
        yield f"read 0 {place} 0 4"
        yield f"release 0 {place}"
        yield "reclaim 0"
        yield f"discard {place}"
        place += 8


def on_two_channels():
    """The commands of one chunk after another, each of which goes over both channels."""
    place = 1
    while True:
        yield f"loan {SIZE} 8"
        yield f"write {place} 0 7b00ff01"
        yield f"send 0 {place}"
        yield f"send 1 {place}"
        yield f"discard {place}"
        for channel in (0, 1):
            yield f"receive {channel}"
            yield f"read {channel} {place} 0 4"
            yield f"release {channel} {place}"
            yield f"reclaim {channel}"
        place += 13


def overflowing():
    """Chunks that are sent and discarded: each send but the first ones takes the oldest back."""
    place = 1
    while True:
        yield f"loan {SIZE} 8"
        yield f"send 0 {place}"
        yield f"discard {place}"
        place += 3


def growing(seed):
    """The commands of one chunk after another, of sizes that a seed chooses."""
    sizes = random.Random(seed)
    place = 1
    while True:
        yield f"loan {sizes.randrange(1, 4097)} 1"
        yield f"write {place} 0 7b"
        yield f"send 0 {place}"
        yield "receive 0"
        yield f"read 0 {place} 0 1"
        yield f"release 0 {place}"
        yield "reclaim 0"
        yield f"discard {place}"
        place += 8


def filling():
    """Chunks that fill each segment, larger ones from segment to segment, and then let all of them go."""
    for segment in range(SEGMENTS):
        for _ in range(CHUNKS):
            yield f"loan {8 * (segment + 1)} 8"
    for name in range(1, SEGMENTS * CHUNKS + 1):
        yield f"discard {name}"


def over_channels():
    """The commands of one chunk after another, each of which goes over a channel far from the last one's."""
    channel = 0
    for place in range(1, OVER_CHANNELS, 8):
        yield f"loan {SIZE} 8"
        yield f"write {place} 0 7b00ff01"
        yield f"send {channel} {place}"
        yield f"receive {channel}"
        yield f"read {channel} {place} 0 4"
        yield f"release {channel} {place}"
        yield f"reclaim {channel}"
        yield f"discard {place}"
        channel = (channel + 393_241) % CHANNELS


class Mixed:
    """Commands in an order that a seed chooses; each is one that isn't refused."""

    def __init__(self, seed):
        self.random = random.Random(seed)
        self.place = 0
        self.loaned = []
        self.unwritten = []
        self.unsent = []
        self.queued = collections.deque()
        self.borrowed = []
        self.completed = collections.deque()

    def live(self):
        return len({*self.loaned, *self.queued, *self.borrowed, *self.completed})

    def possible(self):
        """The kinds of command that would be accepted now."""
        kinds = []
        if self.live() < BUCKETS:
            kinds.append("loan")
        if self.unwritten:
            kinds.append("write")
        if self.unsent and len(self.queued) < BUFFER:
            kinds.append("send")
        if self.queued and len(self.borrowed) < BORROW:
            kinds.append("receive")
        if self.borrowed:
            kinds.append("read")
        if self.borrowed and len(self.completed) < BUFFER + BORROW + 1:
            kinds.append("release")
        if self.completed:
            kinds.append("reclaim")
        if any(name not in self.unsent for name in self.loaned):
            kinds.append("discard")
        return kinds

    def taken(self, names):
        return names.pop(self.random.randrange(len(names)))

    def command(self, kind):
        if kind == "loan":
            for names in (self.loaned, self.unwritten, self.unsent):
                names.append(self.place)
            return f"loan {SIZE} 8"
        if kind == "write":
            return f"write {self.taken(self.unwritten)} 0 7b00ff01"
        if kind == "send":
            name = self.taken(self.unsent)
            if name in self.unwritten:
                self.unwritten.remove(name)
            self.queued.append(name)
            return f"send 0 {name}"
        if kind == "receive":
            self.borrowed.append(self.queued.popleft())
            return "receive 0"
        if kind == "read":
            return f"read 0 {self.random.choice(self.borrowed)} 0 4"
        if kind == "release":
            name = self.taken(self.borrowed)
            self.completed.append(name)
            return f"release 0 {name}"
        if kind == "reclaim":
            self.completed.popleft()
            return "reclaim 0"
        name = self.random.choice([name for name in self.loaned if name not in self.unsent])
        self.loaned.remove(name)
        return f"discard {name}"

    def commands(self):
        while True:
            self.place += 1
            yield self.command(self.random.choice(self.possible()))


def script_of(settings, commands, size):
    """A script of at most so many bytes, and the number of its commands."""
    lines = [settings]
    length = len(settings) + 1
    for line in commands:
        length += len(line) + 1
        if length > size:
            break
        lines.append(line)
    return ("\n".join(lines) + "\n").encode("ascii"), len(lines) - 1


def seconds_of_run(program, script, replies):
    with open(script, "rb") as source, open(replies, "wb") as sink:
        start = time.perf_counter()
        status = subprocess.run([program, "run"], stdin=source, stdout=sink).returncode
        seconds = time.perf_counter() - start
    if status != 0:
        sys.exit(f"bench: {program} ended with status {status}")
    return seconds


def check_replies(path, commands):
    """Each command has a reply that isn't a refusal, and then come chunks in transit alone."""
    with open(path, "rb") as sink:
        replies = sink.read().splitlines()
    refused = sum(reply.startswith(b"refused ") for reply in replies)
    if refused:
        sys.exit(f"bench: {refused} commands were refused")
    answers = [reply for reply in replies if not reply.startswith(b"transit ")]
    if len(answers) != commands:
        sys.exit(f"bench: {commands} commands have {len(answers)} replies")


def measure(name, settings, commands, arguments, folder):
    script, count = script_of(settings, commands, arguments.bytes)
    script_path = os.path.join(folder, "script")
    replies_path = os.path.join(folder, "replies")
    with open(script_path, "wb") as source:
        source.write(script)
    seconds = min(
        seconds_of_run(arguments.program, script_path, replies_path)
        for _ in range(arguments.runs)
    )
    check_replies(replies_path, count)
    print(
        f"{name}: {count} commands, {len(script)} bytes in {seconds:.3f} s: "
        f"{count / seconds:,.0f} commands/s, {len(script) / seconds:,.0f} bytes/s"
    )


def main():
    parser = argparse.ArgumentParser(description=__doc__.splitlines()[0])
    parser.add_argument("program", nargs="?", default=PROGRAM)
    parser.add_argument("--bytes", type=int, default=16_000_000, help="the length of each script")
    parser.add_argument("--runs", type=int, default=3, help="how often each script is run")
    arguments = parser.parse_args()
    if not 100 <= arguments.bytes <= MOST_BYTES:
        parser.error(f"a script has 100 to {MOST_BYTES} bytes here")
    if arguments.runs < 1:
        parser.error("each script is run once at least")
    if not os.access(arguments.program, os.X_OK):
        sys.exit(f"bench: {arguments.program} isn't there; the README says how it is built")
    with tempfile.TemporaryDirectory() as folder:
        measure("one chunk after another", SETTINGS, in_turn(), arguments, folder)
        measure("several chunks at once", SETTINGS, Mixed(1).commands(), arguments, folder)
        measure("over two channels", TWO_CHANNELS, on_two_channels(), arguments, folder)
        measure("with overflow", OVERFLOWING, overflowing(), arguments, folder)
        measure("of sizes that vary", GROWING, growing(1), arguments, folder)
        measure("through 256 segments", FILLING, filling(), arguments, folder)
        measure("over 2^20 channels", MANY_CHANNELS, over_channels(), arguments, folder)


if __name__ == "__main__":
    main()
