"""The top of a drawing: its title, the settings, and each command with its reply."""
from dataclasses import dataclass

from . import svg
from .style import COLUMN, GRID, INK, LANE, LINE, MARGIN, PALE_INK, REFUSED, SMALL, TEXT, TITLE
from .text import letters_within, wrapped

# As many lines as a command and a reply may have.
MOST_COMMAND_LINES = 5
MOST_REPLY_LINES = 7

# The letters of a line of settings, and as many lines as they may have.
SETTINGS_LENGTH = 116
MOST_SETTINGS_LINES = 4

# A space at which no line ends.
NO_BREAK = "\u00a0"


@dataclass(frozen=True)
class Cell:
    """A command and its reply, in lines."""

    number: int
    text: str
    command: list
    reply: list
    is_refused: bool


class Heading:
    """The texts above the rows, and how much room they take."""

    def __init__(self, title, script, replies, part):
        self.title = title
        pairs = [f"{name}{NO_BREAK}{value}" for name, value in script.settings.items()]
        self.settings = wrapped(", ".join(pairs), SETTINGS_LENGTH, MOST_SETTINGS_LINES)
        self.cells = [
            _cell(script.commands[number - 1], replies.answers[number - 1])
            for number in part.numbers()
        ]
        self.commands_top = 2 * MARGIN + TITLE + LINE * len(self.settings)
        most = max(len(cell.command) for cell in self.cells)
        self.replies_top = self.commands_top + LINE * (1 + most) + LINE / 2
        most = max(len(cell.reply) for cell in self.cells)
        self.marks = self.replies_top + LINE * most + LANE * 0.75
        self.bottom = self.marks + LANE

    def drawn(self, columns):
        """The elements of all of these texts."""
        parts = [svg.words(self.title, MARGIN, MARGIN + TITLE, TITLE, font_weight="bold", fill=INK)]
        for index, line in enumerate(self.settings, 1):
            y = MARGIN + TITLE + 4 + LINE * index
            parts.append(svg.words(line, MARGIN, y, TEXT, fill=PALE_INK))
        parts += self._names(columns)
        for cell in self.cells:
            parts.append(self._edge(columns.edge(cell.number)))
            parts.append(self._cell(cell, columns.middle(cell.number)))
        parts.append(self._edge(columns.edge(columns.last + 1)))
        return parts

    def _names(self, columns):
        """What the lines of commands and replies are."""
        names = (
            ("command", self.commands_top + LINE),
            ("reply", self.replies_top),
        )
        return [
            svg.words(name, columns.left - 6, y + LINE, SMALL, text_anchor="end", fill=PALE_INK)
            for name, y in names
        ]

    def _edge(self, x):
        return svg.line(x, self.commands_top, x, self.bottom - LANE / 2, stroke=GRID)

    def _cell(self, cell, x):
        lines = [
            svg.words(str(cell.number), x, self.commands_top + LINE, SMALL, fill=PALE_INK)
        ]
        for index, text in enumerate(cell.command, 2):
            y = self.commands_top + LINE * index
            lines.append(svg.words(text, x, y, TEXT, font_weight="bold", fill=INK))
        colour = REFUSED if cell.is_refused else INK
        for index, text in enumerate(cell.reply, 1):
            y = self.replies_top + LINE * index
            lines.append(svg.words(text, x, y, TEXT, fill=colour))
        return svg.element(
            "g", {"class": "command", "text_anchor": "middle"}, svg.titled(cell.text, "".join(lines))
        )


def _cell(command, reply):
    length = letters_within(COLUMN - 6, TEXT)
    return Cell(
        command.number,
        f"{command.number}: {command.text}: {reply.text}",
        wrapped(command.text, length, MOST_COMMAND_LINES),
        wrapped(reply.text, length, MOST_REPLY_LINES),
        reply.form == "refused",
    )
