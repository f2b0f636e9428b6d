#!/usr/bin/env python3
"""Times `contents_first` and `sort_by` by name beside the same walks without them, over trees in memory.

    python3 bench/adaptors.py [TURNS]

Build the program first: (cd crates/test_bench_walks && rt run). Two walks that are compared take turns. A time is the
processor time of a run, less that of a run that only makes the tree; it and the ratio are medians of TURNS (15 where none
is given).
"""
import os
import subprocess
import sys
from statistics import median

PROGRAM = os.path.join(os.path.dirname(os.path.abspath(__file__)), "..", "crates", "test_bench_walks", "out", "test_bench_walks")

# the walk, the one that it is compared with, and the ratio that is aimed at
PAIRS = [("contents_first", "walk", 1.1), ("sort_by", "sort", 1.15)]

COUNT = 200_000


def seconds(calls, shape):
    """The processor time of one run."""
    child = subprocess.Popen([PROGRAM, calls, shape, str(COUNT)], stdout=subprocess.DEVNULL)
    _, status, usage = os.wait4(child.pid, 0)
    child.returncode = status
    if status != 0:
        sys.exit(f"{calls} {shape} {COUNT} ended with {status}")
    return usage.ru_utime + usage.ru_stime


def compare(calls, other, shape, turns):
    """The medians of both times, and of the ratio of a turn."""
    ours, theirs, ratios = [], [], []
    for _ in range(turns):
        tree = seconds("tree", shape)
        ours.append(seconds(calls, shape) - tree)
        theirs.append(seconds(other, shape) - tree)
        ratios.append(ours[-1] / theirs[-1])
    return median(ours), median(theirs), median(ratios)


def main():
    turns = int(sys.argv[1]) if len(sys.argv) > 1 else 15
    print(f"{os.cpu_count()} cores, {COUNT} lines, medians of {turns} turns")
    print(f"{'calls':<16}{'shape':<7}{'ms':>6}{'beside':>10}{'ms':>6}{'ratio':>7}{'aim':>6}")
    for calls, other, aim in PAIRS:
        for shape in "wide", "bushy":
            ours, theirs, ratio = compare(calls, other, shape, turns)
            print(f"{calls:<16}{shape:<7}{1000 * ours:>6.0f}{other:>10}{1000 * theirs:>6.0f}{ratio:>7.2f}{aim:>6}")


if __name__ == "__main__":
    main()
