"""Says which commands are drawn."""
from dataclasses import dataclass

from .no_drawing import NoDrawing

# As many commands as one drawing shows.
MOST_COMMANDS = 100


@dataclass(frozen=True)
class Part:
    """The commands from the first to the last that are drawn, of so many in the script."""

    first: int
    last: int
    count: int

    @property
    def is_start(self):
        """Whether the first command of the script is drawn."""
        return self.first == 1

    @property
    def is_end(self):
        """Whether the last command of the script is drawn."""
        return self.last == self.count

    def numbers(self):
        """The numbers of its commands."""
        return range(self.first, self.last + 1)

    def has(self, number):
        """Whether this command is drawn."""
        return number is not None and self.first <= number <= self.last

    def meets(self, start, end):
        """Whether something that two commands began and ended, the latter if at all, was there in this part."""
        return start <= self.last and (end is None or end >= self.first)


def part_of(count, first, last):
    """The part that is asked for; without a first or a last command it reaches to the script's end there."""
    if count == 0:
        raise NoDrawing("the script has no command")
    part = Part(1 if first is None else first, count if last is None else last, count)
    if not 1 <= part.first <= part.last <= count:
        raise NoDrawing(
            f"the script has the commands 1 to {count}, and so no part from {part.first} to {part.last}"
        )
    length = part.last - part.first + 1
    if length > MOST_COMMANDS:
        of_what = "the script" if length == count else "this part"
        raise NoDrawing(
            f"{of_what} has {length} commands, and a drawing shows {MOST_COMMANDS} at most: "
            "ask for a part with --from and --to"
        )
    return part
