#!/usr/bin/env python3
"""Measures the plain containers: how long a pair of calls takes.

    python3 bench/plain.py [PROGRAM] [--count N] [--runs N]

PROGRAM is crates/cal_bench/out/cal_bench where it isn't given. The rows are a chunk of a pool got and freed, a value pushed
into a queue and popped, and a number put into a used list and taken out. For each row the fastest run counts.
"""
import argparse
import os
import re
import subprocess
import sys

TOP = os.path.dirname(os.path.dirname(os.path.abspath(__file__)))
PROGRAM = os.path.join(TOP, "crates", "cal_bench", "out", "cal_bench")

ANSWER = re.compile(r"(\d+) calls in (\d+) ns: (\d+) done\n")

ROWS = [
    ("pool", "get and free, pool"),
    ("queue", "push and pop, queue"),
    ("used", "insert and remove, used list"),
]


def measured(program, container, count):
    """The nanoseconds that a pair of calls took in one run."""
    run = subprocess.run([program, container, str(count)], stdout=subprocess.PIPE, text=True, check=True)
    answer = ANSWER.fullmatch(run.stdout)
    if answer is None:
        sys.exit(f"unexpected answer: {run.stdout!r}")
    calls, nanoseconds, done = map(int, answer.groups())
    if calls != count or done != count:
        sys.exit(f"not every call did what it is for: {run.stdout!r}")
    return nanoseconds / calls


def main():
    parser = argparse.ArgumentParser(description="Measures the plain containers.")
    parser.add_argument("program", nargs="?", default=PROGRAM)
    parser.add_argument("--count", type=int, default=50_000_000)
    parser.add_argument("--runs", type=int, default=5)
    words = parser.parse_args()
    print(f"{'':32}{'ns a pair':>12}")
    for container, name in ROWS:
        time = min(measured(words.program, container, words.count) for _ in range(words.runs))
        print(f"{name:32}{time:>12.1f}")


if __name__ == "__main__":
    main()
