"""The one way in which drawing ends early."""


class NoDrawing(Exception):
    """There is nothing to draw, or too much; the text says why, for whoever asked for the drawing."""
