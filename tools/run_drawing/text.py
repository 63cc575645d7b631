"""How wide words are, and how they are broken into lines."""
import re

# The width of a letter of the drawing's font, in font sizes. All letters of it have the same.
LETTER = 0.602


def width_of(text, size):
    """How wide a text of this font size is."""
    return len(text) * size * LETTER


def letters_within(width, size):
    """How many letters of this font size fit in this width."""
    return max(int(width / (size * LETTER)), 1)


def shortened(text, length):
    """The text, with dots in place of what is past so many letters."""
    return text if len(text) <= length else text[: length - 1] + "…"


def wrapped(text, length, most_lines):
    """The text in lines of at most so many letters; where it has too many lines, the last one ends with dots."""
    lines = []
    for piece, gap in _pieces(text, length):
        if lines and len(lines[-1]) + len(gap) + len(piece) <= length:
            lines[-1] += gap + piece
        else:
            lines.append(piece)
    if len(lines) > most_lines:
        lines = lines[:most_lines]
        lines[-1] = shortened(lines[-1] + "…", length)
    return lines


def _pieces(text, length):
    """What isn't broken, with the gap before each: words, and those of a long name that stand as one."""
    for word in text.split(" "):
        gap = " "
        for part in _parts(word, length):
            yield part, gap
            gap = ""


def _parts(word, length):
    """A word that is too long for a line, in parts: at its capital letters, and after an even number of letters."""
    if len(word) <= length:
        return [word]
    parts = []
    even = max(length - length % 2, 1)
    for part in re.findall(r"[A-Z]?[^A-Z]+|[A-Z]", word):
        if len(part) <= length:
            parts.append(part)
        else:
            parts += [part[start : start + even] for start in range(0, len(part), even)]
    return parts
