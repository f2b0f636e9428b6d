#!/usr/bin/env python3
"""Times `seek` and `tally` over 2,000 roots of one file each, and below one folder, with one thread and with four.

    python3 bench/roots.py [TURNS [FOLDER]]

Build the programs first: (cd crates/seek && rt run), and so `tally`. Nothing else may run meanwhile. TURNS is 15 and
FOLDER is /usr unless they are named. The roots are made in a temporary folder. A turn runs each call once, with warm
caches, with output that is thrown away. Times are medians: by the clock, and of the processors, in milliseconds. Each
call is also given as a multiple of the first of its table; of `-j4` over the roots at most 1.3 is aimed at. `du` and `fd`,
or `fdfind`, are beside them, where they are there.

Another version of a program is `seek=PATH` or `tally=PATH`, with which its calls are made in turn with those of here.
"""
import os
import shutil
import subprocess
import sys
import tempfile
import time
from statistics import median

TOP = os.path.dirname(os.path.dirname(os.path.abspath(__file__)))
OTHERS = dict(word.split("=", 1) for word in sys.argv[1:] if "=" in word)
WORDS = [word for word in sys.argv[1:] if "=" not in word]

# The programs, each with its words in front of roots.
CALLS = {"seek": ["-HI", "."], "tally": ["-s"]}
BESIDE = {"seek": [["fd", "-HI", "-j4", "."], ["fdfind", "-HI", "-j4", "."]], "tally": [["du", "-s"]]}


def make_roots(folder, count=2000):
    """Directories with one empty file each."""
    roots = [os.path.join(folder, f"d{number:04}") for number in range(count)]
    for root in roots:
        os.mkdir(root)
        with open(os.path.join(root, "one"), "wb"):
            pass
    return roots


def calls_of(name, roots):
    """The calls of a table: each has what is shown of it, and its words."""
    programs = [(name, f"{TOP}/crates/{name}/out/{name}")]
    if name in OTHERS:
        programs.append((OTHERS[name], os.path.abspath(OTHERS[name])))
    calls = []
    for threads in ["-j1", "-j4"]:
        for shown, program in programs:
            words = [threads, *CALLS[name]]
            calls.append((" ".join([shown, *words]), [program, *words, *roots]))
    calls += [(" ".join(words), [*words, *roots]) for words in BESIDE[name] if shutil.which(words[0])]
    return calls


def passed(words):
    """How long a call takes, by the clock and of the processors, in milliseconds."""
    start = time.monotonic()
    child = subprocess.Popen(words, stdin=subprocess.DEVNULL, stdout=subprocess.DEVNULL, stderr=subprocess.DEVNULL)
    _, status, usage = os.wait4(child.pid, 0)
    child.returncode = os.waitstatus_to_exitcode(status)
    if child.returncode not in (0, 1):
        sys.exit(f"{words[0]} ended with {child.returncode}")
    return 1000 * (time.monotonic() - start), 1000 * (usage.ru_utime + usage.ru_stime)


def table(heading, calls, turns):
    """Prints the medians of calls that take turns."""
    for _, words in calls:
        passed(words)
    times = [[passed(words) for _, words in calls] for _ in range(turns)]
    print(f"\n{heading:<40}{'clock':>8}{'ratio':>7}{'processors':>12}{'ratio':>7}")
    first = None
    for at, (shown, _) in enumerate(calls):
        found = [median(turn[at][kind] for turn in times) for kind in (0, 1)]
        first = first or found
        clock, processors = found
        print(f"{shown:<40}{clock:>8.1f}{clock / first[0]:>7.2f}{processors:>12.1f}{processors / max(first[1], 0.1):>7.2f}")


def main():
    turns = int(WORDS[0]) if WORDS else 15
    large = WORDS[1] if len(WORDS) > 1 else "/usr"
    print(f"{os.cpu_count()} cores, load {os.getloadavg()[0]:.1f}, medians of {turns} turns, milliseconds")
    with tempfile.TemporaryDirectory() as folder:
        roots = make_roots(folder)
        for name in CALLS:
            table(f"{len(roots):,} roots of one file", calls_of(name, roots), turns)
    for name in CALLS:
        table(large, calls_of(name, [large]), turns)


if __name__ == "__main__":
    main()
