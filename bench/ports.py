#!/usr/bin/env python3
"""Measures calls of both ports of a connection: how long a call takes.

    python3 bench/ports.py [PROGRAM] [--count N] [--runs N]

PROGRAM is crates/cal_bench/out/cal_bench where it isn't given. A fixed seed chooses the calls, half of them with wild
pointers. The rows are a connection with one channel and one with 1,024; the time of a row is that of all calls together, with
the room for the replies in it. For each row the fastest run counts, and the last column is its time over the first row's.
"""
import argparse
import os
import re
import subprocess
import sys

TOP = os.path.dirname(os.path.dirname(os.path.abspath(__file__)))
PROGRAM = os.path.join(TOP, "crates", "cal_bench", "out", "cal_bench")

ANSWER = re.compile(r"(\d+) calls in (\d+) ns: (\d+) done\n")

ROWS = [
    ("channel", "one channel"),
    ("channels", "1,024 channels"),
]


def measured(program, way, count):
    """The nanoseconds that a call took in one run, and the share of the calls whose condition held."""
    run = subprocess.run([program, way, str(count)], stdout=subprocess.PIPE, text=True, check=True)
    answer = ANSWER.fullmatch(run.stdout)
    if answer is None:
        sys.exit(f"unexpected answer: {run.stdout!r}")
    calls, nanoseconds, suited = map(int, answer.groups())
    if calls != count:
        sys.exit(f"not every call was made: {run.stdout!r}")
    return nanoseconds / calls, suited / calls


def main():
    parser = argparse.ArgumentParser(description="Measures calls of both ports of a connection.")
    parser.add_argument("program", nargs="?", default=PROGRAM)
    parser.add_argument("--count", type=int, default=1_000_000)
    parser.add_argument("--runs", type=int, default=9)
    words = parser.parse_args()
    print(f"{'':24}{'ns a call':>12}{'suited':>10}{'ratio':>8}")
    first = None
    for way, name in ROWS:
        time, share = min(measured(words.program, way, words.count) for _ in range(words.runs))
        first = first or time
        print(f"{name:24}{time:>12.1f}{share:>10.0%}{time / first:>8.2f}")


if __name__ == "__main__":
    main()
