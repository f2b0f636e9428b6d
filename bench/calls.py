#!/usr/bin/env python3
"""Times `walk` on the real disk beside a C program that makes the same calls and prints the same lines (same_calls.c, next to
this script), and by name beside the disk's order.

    python3 bench/calls.py [FOLDER [PROGRAM]]

Build the program first: (cd crates/walk && rt run). It needs `cc`. FOLDER holds the trees that the script makes: one directory
of 200,000 files, 10,000 directories of 20 files, and 40 chains of 100 directories (a temporary folder where none is given);
/usr is the last tree. The programs take turns, each with its output in a file, and the first turn doesn't count. A time is
the median of nine turns. The ratio of processor times is the median of the turns' ratios. Peaks of memory are those of the
last turn, in MiB, and no less than this script's own. In brackets is the most that the ratio is to be.
"""
import os
import subprocess
import sys
import tempfile

import real

COUNT = 9
MOST = {"wide": 1.3, "flat": 1.05, "/usr": 1.05}
MOST_BY_NAME = {"wide": 1.1, "/usr": 1.03}


def compare(tree, root, walk, same_calls, output):
    commands = [("C", [same_calls, root]), ("walk", [walk, root]), ("by name", [walk, "--sort", root])]
    runs, lines = real.turns(commands, output, count=COUNT)
    if len({*lines.values()}) > 1:
        sys.exit(f"{tree}: the programs printed {lines} lines")
    for name, beside, bounds in ("walk", "C", MOST), ("by name", "walk", MOST_BY_NAME):
        ratio = real.processor_ratio(runs[name], runs[beside])
        most = f"  (at most {bounds[tree]})" if tree in bounds else ""
        print(
            f"{tree:<6}{name:<8} beside {beside:<5}{real.middle(runs[name]) * 1e3:>9.1f} ms{real.middle(runs[beside]) * 1e3:>9.1f} ms"
            f"{ratio:>7.2f} of its processor time{runs[name][-1][2] / 1024:>8.1f} MiB{runs[beside][-1][2] / 1024:>8.1f} MiB{most}"
        )


def all_trees(folder, walk):
    same_calls = os.path.join(folder, "same_calls")
    source = os.path.join(os.path.dirname(os.path.abspath(__file__)), "same_calls.c")
    subprocess.run(["cc", "-O2", "-o", same_calls, source], check=True)
    for tree, root, _ in real.trees(folder):
        compare(tree, root, walk, same_calls, os.path.join(folder, "output"))


def main():
    words = sys.argv[1:]
    walk = words[1] if len(words) > 1 else real.PROGRAM
    if words:
        all_trees(words[0], walk)
    else:
        with tempfile.TemporaryDirectory() as folder:
            all_trees(folder, walk)


if __name__ == "__main__":
    main()
