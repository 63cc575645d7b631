#!/usr/bin/env python3
"""Measures the rings: how long a value takes.

    python3 bench/rings.py [PROGRAM] [--count N] [--runs N]

PROGRAM is crates/cal_bench/out/cal_bench where it isn't given. In the first row one thread pushes each value into a
submission ring and pops it again; in the second one thread sends all values with overflow, and another takes what it can of
them, up to the last one; in the third one thread puts each value into a completion ring and gets it out again; in the fourth one
thread sends samples over a pair of ports and reclaims them, and another receives and releases each. Each thread
is kept on a processor of its own. A row says the median of its runs, and the median share of the values that were received;
the others came back to the sender. A run of which less than half was received tells what a sender alone costs, and isn't
counted.
"""
import argparse
import os
import re
import statistics
import subprocess
import sys
import time

TOP = os.path.dirname(os.path.dirname(os.path.abspath(__file__)))
PROGRAM = os.path.join(TOP, "crates", "cal_bench", "out", "cal_bench")

ANSWER = re.compile(r"(\d+) sent in (\d+) ns: (\d+) received, (\d+) returned, (\d+) left\n")

# the program's word, the row's name, and how many threads it has
ROWS = [
    ("one", "push and pop, one thread", 1),
    ("two", "send with overflow, two threads", 2),
    ("completion", "put and get, one thread", 1),
    ("ports", "send to reclaim over ports, two", 2),
]

# Where a thread doesn't start within this many seconds, the run is over already.
START = 1.0


def pin(process, threads, processors):
    """Keeps each thread of a process on a processor of its own."""
    end = time.monotonic() + START
    pinned = {}
    while len(pinned) < threads and time.monotonic() < end and process.poll() is None:
        try:
            for task in map(int, os.listdir(f"/proc/{process.pid}/task")):
                if task not in pinned:
                    pinned[task] = processors[len(pinned) % len(processors)]
                    os.sched_setaffinity(task, {pinned[task]})
        except (FileNotFoundError, ProcessLookupError):
            return


def measured(program, way, count, threads, processors):
    """The nanoseconds a value and the share that was received, by one run."""
    process = subprocess.Popen([program, way, str(count)], stdout=subprocess.PIPE, text=True)
    pin(process, threads, processors)
    text, _ = process.communicate()
    if process.returncode != 0:
        sys.exit(f"the program ended with status {process.returncode}")
    answer = ANSWER.fullmatch(text)
    if answer is None:
        sys.exit(f"unexpected answer: {text!r}")
    sent, nanoseconds, received, returned, left = map(int, answer.groups())
    if sent != count or received + returned + left != sent:
        sys.exit(f"the numbers don't add up: {text!r}")
    return nanoseconds / sent, received / sent


def main():
    parser = argparse.ArgumentParser(description="Measures the rings.")
    parser.add_argument("program", nargs="?", default=PROGRAM)
    parser.add_argument("--count", type=int, default=20_000_000)
    parser.add_argument("--runs", type=int, default=9)
    words = parser.parse_args()
    processors = sorted(os.sched_getaffinity(0))
    print(f"{'':34}{'ns a value':>12}{'received':>10}{'runs':>6}")
    for way, name, threads in ROWS:
        runs = [measured(words.program, way, words.count, threads, processors) for _ in range(words.runs)]
        counted = [run for run in runs if run[1] >= 0.5]
        if not counted:
            print(f"{name:34}{'-':>12}{'-':>10}{0:>6}")
            continue
        nanoseconds = statistics.median(run[0] for run in counted)
        share = statistics.median(run[1] for run in counted)
        print(f"{name:34}{nanoseconds:>12.1f}{share:>10.0%}{len(counted):>6}")


if __name__ == "__main__":
    main()
