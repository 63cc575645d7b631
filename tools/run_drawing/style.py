"""Colours and measures. The colours of states also differ in brightness, so that they can be told apart without colour."""

FONT = "DejaVu Sans Mono, Menlo, Consolas, monospace"

# Each state's fill, and the colour of words on it.
STATES = {
    "queued": ("#fbe58a", "#1a1a1a"),
    "borrowed": ("#e89a3c", "#1a1a1a"),
    "loaned": ("#3b789d", "#ffffff"),
    "completed": ("#553169", "#ffffff"),
}
INK = "#1a1a1a"
PALE_INK = "#555555"
REFUSED = "#b00020"
REFUSED_BAND = 0.12
OVERFLOW = "#7a1f6b"
GRID = "#e2e2e2"
EDGE = "#444444"
EMPTY = "#c9c9c9"
PAPER = "#ffffff"

MARGIN = 16
COLUMN = 76
TEXT = 10
SMALL = 9.5
TITLE = 14
LINE = 13

# From the top of a row to that of its next lane, and how high the bar in a lane is.
LANE = 19
BAR = 14
ROW_GAP = 9
HEADING = 22
MARK = 5
