#!/usr/bin/env python3
"""Draws the run of a script as an SVG: what each bucket had in it, command by command.

    python3 tools/draw_run.py SCRIPT [--program PATH | --replies FILE] [--from N] [--to N] [--output FILE]

The program crates/cal_program/out/cal_program runs the script, or PATH does; with --replies its replies are read from a file
in place of that. Commands are drawn from left to right, from the one numbered --from to that of --to, and without these all
of them. There is a row for each bucket: which chunk it has, whether that is loaned, and on which channels it is queued,
borrowed or completed. The drawing is written to standard output, or to FILE. Where there is nothing to draw, or too much
for one drawing, nothing is written, standard error says why, and the exit status is 1.
"""
import argparse
import os
import sys

from run_drawing.no_drawing import NoDrawing
from run_drawing.part import part_of
from run_drawing.picture import picture_of
from run_drawing.program import PROGRAM, replies_of
from run_drawing.replies import read_replies
from run_drawing.script import read_script


def arguments_of_the_command_line():
    """What is asked for."""
    parser = argparse.ArgumentParser(description=__doc__.splitlines()[0])
    parser.add_argument("script", help="the script whose run is drawn")
    source = parser.add_mutually_exclusive_group()
    source.add_argument("--program", default=PROGRAM, help="the program that runs the script")
    source.add_argument("--replies", help="a file with the replies, in place of a run")
    parser.add_argument("--from", dest="first", type=int, help="the first command that is drawn")
    parser.add_argument("--to", dest="last", type=int, help="the last command that is drawn")
    parser.add_argument("--output", help="the file that the drawing is written to")
    return parser.parse_args()


def bytes_of(path):
    """What a file has."""
    with open(path, "rb") as file:
        return file.read()


def drawing(arguments):
    """The drawing that is asked for. The replies come first: where there was no run they say why."""
    data = bytes_of(arguments.script)
    if arguments.replies is None:
        written = replies_of(arguments.program, data)
    else:
        written = bytes_of(arguments.replies)
    replies = read_replies(written)
    script = read_script(data)
    part = part_of(len(script.commands), arguments.first, arguments.last)
    return picture_of(os.path.basename(arguments.script), script, replies, part)


def main():
    arguments = arguments_of_the_command_line()
    try:
        picture = drawing(arguments).encode("utf-8")
        if arguments.output is None:
            sys.stdout.buffer.write(picture)
        else:
            with open(arguments.output, "wb") as file:
                file.write(picture)
    except (NoDrawing, OSError) as reason:
        sys.exit(f"draw_run: {reason}")


if __name__ == "__main__":
    main()
