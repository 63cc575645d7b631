"""Runs the repository's program on a script."""
import os
import subprocess

from .no_drawing import NoDrawing

TOP = os.path.dirname(os.path.dirname(os.path.dirname(os.path.abspath(__file__))))
PROGRAM = os.path.join(TOP, "crates", "cal_program", "out", "cal_program")

# No script takes the program longer than this.
MOST_SECONDS = 60

STATUS_MEANINGS = {3: "reading failed", 4: "writing failed", 5: "memory ran out"}

# With these the program writes why it made no run, which is told like a reply.
STATUSES_WITH_A_TEXT = (0, 1, 2, 7)


def replies_of(program, script):
    """What the program writes where it reads the bytes of this script."""
    if not os.access(program, os.X_OK):
        raise NoDrawing(f"there is no program at {program}; the README says how it is built")
    try:
        ended = subprocess.run(
            [program, "run"], input=script, stdout=subprocess.PIPE, timeout=MOST_SECONDS
        )
    except (OSError, subprocess.TimeoutExpired) as fault:
        raise NoDrawing(f"the program couldn't be run: {fault}") from fault
    if ended.returncode not in STATUSES_WITH_A_TEXT:
        meaning = STATUS_MEANINGS.get(ended.returncode, "no status that is drawn")
        raise NoDrawing(f"the program ended with status {ended.returncode}: {meaning}")
    return ended.stdout
