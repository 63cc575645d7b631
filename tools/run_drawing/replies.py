"""Reads the replies that the program wrote, as values."""
import re
from dataclasses import dataclass

from .no_drawing import NoDrawing

# Numbers have 64 bits.
NUMBER = "[0-9]{1,20}"
SLOT = f"{NUMBER} {NUMBER}:{NUMBER}"

# The forms of replies, by the words that they begin with.
REPLY_FORMS = {
    "loaned": f"loaned {SLOT}",
    "written": "written",
    "sent": "sent",
    "sent back": f"sent back {SLOT}",
    "received": f"received {SLOT}",
    "received none": "received none",
    "bytes": "bytes (-|[0-9a-f]+)",
    "released": "released",
    "reclaimed": f"reclaimed {SLOT}",
    "reclaimed none": "reclaimed none",
    "discarded": "discarded",
    "counted": "counted" + 5 * f" {NUMBER}",
    "refused": "refused [A-Za-z]+",
    "transit": f"transit {NUMBER} {SLOT}",
}


@dataclass(frozen=True, slots=True)
class Slot:
    """Where a chunk lies, as a reply tells it."""

    chunk: int
    segment: int
    place: int


@dataclass(frozen=True, slots=True)
class Reply:
    """One line that the program wrote, and which of the forms it has."""

    text: str
    form: str

    @property
    def slot(self):
        """The chunk that the reply tells of, and where it lies."""
        chunk, where = self.text.split(" ")[-2:]
        segment, place = where.split(":")
        return Slot(int(chunk), int(segment), int(place))

    @property
    def channel(self):
        """The channel that a line of the transit list names."""
        return int(self.text.split(" ")[1])

    @property
    def counted(self):
        """The numbers of a count: active, mapped, current, size and buckets."""
        return tuple(int(word) for word in self.text.split(" ")[1:])


@dataclass(frozen=True)
class Replies:
    """The answers to the commands, in their order, and the transit list after them."""

    answers: list
    transit: list


def read_replies(data):
    """The replies of a run; where the program made no run, what it said instead is the reason."""
    replies = []
    for line in data.decode("ascii", "replace").splitlines():
        _no_run(line)
        replies.append(_reply(line))
    answers = [reply for reply in replies if reply.form != "transit"]
    transit = replies[len(answers) :]
    if any(reply.form != "transit" for reply in transit):
        raise NoDrawing("the transit list comes before the last reply to a command")
    return Replies(answers, transit)


def _no_run(line):
    """Says why the program made no run, where this line tells that."""
    words = line.split(" ")
    if words[0] == "line":
        raise NoDrawing(f"line {words[-1]} of the script is bad")
    if words[0] == "create":
        raise NoDrawing(f"no transport can be made of these settings: {words[-1]}")
    if line == "too long":
        raise NoDrawing("the script has more bytes than the program reads")


def _reply(line):
    words = line.split(" ")
    for length in (2, 1):
        form = " ".join(words[:length])
        if form in REPLY_FORMS and re.fullmatch(REPLY_FORMS[form], line):
            return Reply(line, form)
    raise NoDrawing(f"the program writes no such reply: {line}")
