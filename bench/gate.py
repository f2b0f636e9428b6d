#!/usr/bin/env python3
"""Times the gate crate by crate: what the proofs, the tests and the must-fail edits of each take.

    python3 bench/gate.py [COMMAND ..]

Run it at the top of the repository. COMMAND is `rt ci` where none is given; `rt must-fail NAME` times the edits of one
crate. The command's own output comes first, and then a table in seconds: what the proof took of the processors, what
the tests did, how many edits there are and what trying them took, each with its wall time. The provers that the command
started are looked at twice a second, so up to half a second of each is missed; it stands under `other`, with all else
that the command did. Wall time is from the first prover of a part to its last: crates run side by side. The status is
that of the command.
"""
import os
import subprocess
import sys
import threading
import time

TICKS = os.sysconf("SC_CLK_TCK")
PARTS = ["proof", "tests", "edits"]


class Part:
    """The times of one part of a crate: of each process its processor time so far, and when the part was seen."""

    def __init__(self, now):
        self.seconds = {}
        self.first = self.last = now

    def processor(self):
        return sum(self.seconds.values())

    def wall(self):
        return self.last - self.first


def read(path):
    """The bytes of a file, none where its process has ended."""
    try:
        with open(path, "rb") as file:
            return file.read()
    except OSError:
        return b""


def processes():
    """Of each process its parent, when it started and its processor time."""
    found = {}
    for name in filter(str.isdigit, os.listdir("/proc")):
        fields = read(f"/proc/{name}/stat").rpartition(b")")[2].split()
        if fields:
            seconds = (int(fields[11]) + int(fields[12])) / TICKS
            found[int(name)] = int(fields[1]), int(fields[19]), seconds
    return found


def part_of(pid):
    """The crate that a process proves and the part that this is; nothing where it is no prover."""
    words = read(f"/proc/{pid}/cmdline").decode(errors="replace").split("\0")
    if "--crate-name" not in words:
        return None
    try:
        folder = os.readlink(f"/proc/{pid}/cwd")
    except OSError:
        return None
    crate = words[words.index("--crate-name") + 1]
    # a must-fail edit is tried on a copy of the crate, in a folder of this name
    if os.path.basename(folder).startswith("rt-edit-"):
        return crate, "edits"
    return crate, "tests" if "--test" in words else "proof"


def up_to(top, pid, found):
    """A process and those above it, up to the child of `top`; none where it is not below `top`."""
    above = []
    while pid in found and pid != top:
        above.append(pid)
        pid = found[pid][0]
    return above if pid == top else []


def look(top, times):
    """Adds what can be seen of the processes below `top`: each belongs to the nearest prover at or above it."""
    now, found = time.monotonic(), processes()
    for pid, (_, started, seconds) in found.items():
        part = next(filter(None, map(part_of, up_to(top, pid, found))), None)
        if part:
            seen = times.setdefault(part, Part(now))
            seen.seconds[pid, started] = seconds
            seen.last = now


def watch(child, times, ended):
    while not ended.wait(0.5):
        look(child.pid, times)


def run(words):
    """Runs the command, and returns the times of the parts, the processor time and wall time of all, and the status."""
    times, ended, start = {}, threading.Event(), time.monotonic()
    child = subprocess.Popen(words)
    watcher = threading.Thread(target=watch, args=(child, times, ended))
    watcher.start()
    _, status, usage = os.wait4(child.pid, 0)
    ended.set()
    watcher.join()
    child.returncode = os.waitstatus_to_exitcode(status)
    return times, usage.ru_utime + usage.ru_stime, time.monotonic() - start, child.returncode


def crate_names():
    """The crates in the order of crates.txt."""
    with open("crates.txt") as file:
        lines = [line.partition("#")[0].partition(":")[0].split() for line in file]
    return [words[0] for words in lines if words]


def edit_count(crate):
    folder = os.path.join("crates", crate, "must-fail")
    return sum(name.endswith(".edit") for name in os.listdir(folder)) if os.path.isdir(folder) else 0


def row(name, cells):
    print(f"{name:<14}" + "".join(f"{cell:>8}" for cell in cells))


def table(times, processor, wall):
    """Prints a row for each crate that was seen, what is left over, and all."""
    row("crate", ["proof", "wall", "tests", "wall", "edits", "tried", "wall", "all"])
    sums = {part: sum(seen.processor() for (_, of), seen in times.items() if of == part) for part in PARTS}
    edits = 0
    for crate in crate_names():
        seen = [times.get((crate, part), Part(0)) for part in PARTS]
        if not any(it.seconds for it in seen):
            continue
        cells = [f"{it:.0f}" for part in seen for it in (part.processor(), part.wall())]
        count = edit_count(crate) if seen[2].seconds else 0
        edits += count
        row(crate, [*cells[:4], count, *cells[4:], f"{sum(it.processor() for it in seen):.0f}"])
    row("other", ["", "", "", "", "", "", "", f"{processor - sum(sums.values()):.0f}"])
    proof, tests, tried = (f"{sums[part]:.0f}" for part in PARTS)
    row("all", [proof, "", tests, "", edits, tried, "", f"{processor:.0f}"])
    print(f"wall time of all: {wall / 60:.1f} minutes, on {os.cpu_count()} cores")


def main():
    times, processor, wall, status = run(sys.argv[1:] or ["rt", "ci"])
    table(times, processor, wall)
    sys.exit(status)


if __name__ == "__main__":
    main()
