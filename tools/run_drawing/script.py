"""Reads a script: its settings, and its commands as values."""
from dataclasses import dataclass

from .no_drawing import NoDrawing

SETTING_NAMES = (
    "size",
    "alignment",
    "count",
    "strategy",
    "buffer",
    "borrow",
    "overflow",
    "samples",
    "segments",
    "channels",
)

# What the words after the first one of a command are.
COMMAND_FORMS = {
    "loan": ("size", "alignment"),
    "write": ("chunk", "at", "bytes"),
    "send": ("channel", "chunk"),
    "receive": ("channel",),
    "read": ("channel", "chunk", "at", "length"),
    "release": ("channel", "chunk"),
    "reclaim": ("channel",),
    "discard": ("chunk",),
    "count": (),
}


@dataclass(frozen=True, slots=True)
class Command:
    """One command: its number in the script, from 1, and its line."""

    number: int
    text: str

    @property
    def word(self):
        """Which command it is."""
        return self.text.split(" ")[0]

    @property
    def channel(self):
        """The number of the channel that it names."""
        return self._number_named("channel")

    @property
    def chunk(self):
        """The chunk that it names."""
        return self._number_named("chunk")

    def _number_named(self, name):
        words = self.text.split(" ")
        return int(words[1 + COMMAND_FORMS[words[0]].index(name)])


@dataclass(frozen=True)
class Script:
    """A whole script: the settings by their names, as words, and the commands."""

    settings: dict
    commands: list

    @property
    def bucket_size(self):
        """How many bytes a bucket of the first segment has."""
        size = max(int(self.settings["size"]), 1)
        alignment = max(int(self.settings["alignment"]), 1)
        return -(-size // alignment) * alignment

    @property
    def bucket_count(self):
        """How many buckets the first segment has."""
        return int(self.settings["count"])


def read_script(data):
    """The script that these bytes are; which lines are bad is for the program to say."""
    lines = data.decode("ascii", "replace").split("\n")
    if lines[-1] == "":
        lines.pop()
    if not lines:
        raise NoDrawing("line 1 of the script has no settings")
    commands = [_command(number, line) for number, line in enumerate(lines[1:], 1)]
    return Script(_settings(lines[0]), commands)


def _settings(line):
    words = line.split(" ")
    if words[0] != "transport" or len(words) != 1 + len(SETTING_NAMES):
        raise NoDrawing("line 1 of the script has no settings")
    settings = dict(zip(SETTING_NAMES, words[1:]))
    for name in ("size", "alignment", "count"):
        if not _is_number(settings[name]):
            raise NoDrawing("line 1 of the script has no settings")
    return settings


def _command(number, line):
    words = line.split(" ")
    form = COMMAND_FORMS.get(words[0])
    fits = form is not None and len(words) == 1 + len(form)
    if not fits or not all(
        name == "bytes" or _is_number(word) for name, word in zip(form, words[1:])
    ):
        raise NoDrawing(f"line {number + 1} of the script is no command")
    return Command(number, line)


def _is_number(word):
    """Whether a word can be a number of 64 bits."""
    return word.isdigit() and len(word) <= 20
