#!/usr/bin/env python3
"""Times `seek` over trees with many ignore rules beside `fd`, both with one thread.

    python3 bench/ignore.py speed [PROGRAM]

PROGRAM is crates/seek/out/seek where none is given, so run `rt run` in crates/seek first; another build of `seek` is timed
beside it with a second word. A time is the median of nine turns with warm caches, and `fd` (or `fdfind`) and each program
take turns. Both are to print the same paths.
"""
import os
import shutil
import statistics
import subprocess
import sys
import tempfile
import time

TOP = os.path.dirname(os.path.dirname(os.path.abspath(__file__)))
PROGRAM = f"{TOP}/crates/seek/out/seek"
TURNS = 9


def write(path, lines):
    with open(path, "w") as file:
        file.write("".join(f"{line}\n" for line in lines))


def mixed_rules(count):
    """Rules as projects have them: plain names, endings, folders, and paths from the top."""
    forms = ["name{}", "*.end{}", "folder{}/", "/docs/page{}"]
    return [forms[number % 4].format(number) for number in range(count)]


def files_at_depth(folder, depth):
    """1,000 rules at the top, and 3,000 files at this depth."""
    write(f"{folder}/.ignore", mixed_rules(1_000))
    deepest = os.path.join(folder, *["below"] * (depth - 1))
    os.makedirs(deepest, exist_ok=True)
    for number in range(3_000):
        open(f"{deepest}/file{number}.txt", "w").close()


def nested_folders(folder):
    """300 folders in one another, each with 100 lines and a file."""
    at = folder
    for depth in range(300):
        at += "/n"
        os.mkdir(at)
        write(f"{at}/.ignore", [f"name{depth}_{number}" for number in range(100)])
        open(f"{at}/file.txt", "w").close()


def plain_names(folder):
    """A megabyte of plain names, and 200 files."""
    write(f"{folder}/.ignore", [f"plain_name_{number:07}" for number in range(1_000_000 // 19)])
    for number in range(200):
        open(f"{folder}/file{number}.txt", "w").close()


def many_directories(folder):
    """20,000 directories with a file each, of which 500 have rules."""
    for number in range(20_000):
        at = f"{folder}/{number // 200}/{number % 200}"
        os.makedirs(at)
        open(f"{at}/file.txt", "w").close()
        if number % 40 == 0:
            write(f"{at}/.ignore", mixed_rules(10))


TREES = [
    ("1,000 rules, 3,000 files at depth 2", lambda folder: files_at_depth(folder, 2)),
    ("1,000 rules, 3,000 files at depth 11", lambda folder: files_at_depth(folder, 11)),
    ("1,000 rules, 3,000 files at depth 41", lambda folder: files_at_depth(folder, 41)),
    ("300 nested folders, 100 lines each", nested_folders),
    ("1 MB of plain names, 200 files", plain_names),
    ("20,000 directories, 500 ignore files", many_directories),
]


def run(words, folder):
    """The time of a run in seconds, and the paths that it printed."""
    start = time.monotonic()
    ran = subprocess.run(words, cwd=folder, stdout=subprocess.PIPE, check=True)
    took = time.monotonic() - start
    return took, sorted(line.removeprefix(b"./").rstrip(b"/") for line in ran.stdout.splitlines())


def medians(calls, folder):
    """The median time of each call, by turns."""
    found = {tuple(run(words, folder)[1]) for words in calls}
    if len(found) > 1:
        print("    they don't print the same paths")
    times = [[] for _ in calls]
    for _ in range(TURNS):
        for at, words in enumerate(calls):
            times[at].append(run(words, folder)[0])
    return [statistics.median(it) for it in times]


def main(words):
    fd = shutil.which("fd") or shutil.which("fdfind")
    if not fd:
        sys.exit("there is no fd")
    programs = words or [PROGRAM]
    calls = [[fd, "-j1"]] + [[program, "-j1"] for program in programs]
    for name, make in TREES:
        with tempfile.TemporaryDirectory() as folder:
            make(folder)
            beside, *own = medians(calls, folder)
            shown = "  ".join(f"seek {took * 1e3:8.1f} ms, {took / beside:6.2f} of fd" for took in own)
            print(f"{name:<40} fd {beside * 1e3:8.1f} ms  {shown}", flush=True)
