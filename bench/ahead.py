#!/usr/bin/env python3
"""Measures the memory of a walk over a crew whose output nobody reads.

    python3 bench/ahead.py [FOLDER [PROGRAM]]

Build the program first: (cd crates/walk && rt run). FOLDER holds the tree that the script makes, 50,000 directories of 20
files (a temporary folder where none is given). The script takes the first line of `walk --crew 4`, sleeps for ten seconds,
and then takes the rest. Meanwhile the walk can't write, and its crew reads ahead to its bound. It prints how many lines
came, the peak of the walk's memory, and the processor time that it took in the second half of the sleep. It fails where a
line is missing, the peak is above 40 MiB, or a tenth of a second was used while all sleep.
"""
import os
import shutil
import subprocess
import sys
import tempfile
import time

PROGRAM = os.path.join(os.path.dirname(os.path.abspath(__file__)), "..", "crates", "walk", "out", "walk")
DIRECTORIES = 50_000
FILES = 20
MOST_MIB = 40
MOST_SECONDS = 0.1


def make(root):
    """The directories with their files."""
    os.mkdir(root)
    for directory in range(DIRECTORIES):
        path = f"{root}/dir-{directory:05d}"
        os.mkdir(path)
        for i in range(FILES):
            open(f"{path}/file-{i:02d}", "w").close()


def seconds_of(process):
    """The processor time that a process has taken so far."""
    with open(f"/proc/{process.pid}/stat") as file:
        fields = file.read().rpartition(")")[2].split()
    return (int(fields[11]) + int(fields[12])) / os.sysconf("SC_CLK_TCK")


def measure(program, root):
    """How many lines a walk prints whose reader sleeps after the first, its peak in MiB, and its time while it waits."""
    with subprocess.Popen([program, "--crew", "4", root], stdout=subprocess.PIPE) as process:
        lines = 1 if process.stdout.readline() else 0
        time.sleep(5)
        before = seconds_of(process)
        time.sleep(5)
        used = seconds_of(process) - before
        lines += sum(1 for _ in process.stdout)
        _, status, usage = os.wait4(process.pid, 0)
        process.returncode = os.waitstatus_to_exitcode(status)
    return lines, usage.ru_maxrss / 1024, used, process.returncode


def main():
    folder = sys.argv[1] if len(sys.argv) > 1 else tempfile.mkdtemp()
    program = sys.argv[2] if len(sys.argv) > 2 else PROGRAM
    root = os.path.join(folder, "ahead")
    if not os.path.isdir(root):
        make(root)
    lines, peak, used, status = measure(program, root)
    print(f"{lines} lines, at most {peak:.0f} MiB (aim {MOST_MIB}), {used:.2f} s while nobody reads (aim {MOST_SECONDS})")
    if len(sys.argv) < 2:
        shutil.rmtree(folder)
    wanted = 1 + DIRECTORIES * (FILES + 1)
    if status != 0 or lines != wanted or peak > MOST_MIB or used > MOST_SECONDS:
        sys.exit(1)


if __name__ == "__main__":
    main()
