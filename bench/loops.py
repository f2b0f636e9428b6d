#!/usr/bin/env python3
"""Times `walk --follow` over links that may be loops, beside an earlier program: over trees in memory, or on the disk.

    python3 bench/loops.py [--disk] EARLIER [PROGRAM [FOLDER]]

EARLIER is a program `walk` of another time, such as one that tells a loop by a link's text alone. FOLDER holds the inputs
or, with `--disk`, the trees (a temporary folder where none is given). Both programs take turns; times are processor
times, the medians of 15 turns, and so is the ratio of the two of a turn. In memory all have the reading of the input and
the making of the tree in them. In brackets is what is to come out at most.

links: one directory of 200,000 links to a file, of which no text is compared. Not with `--disk`.
chain: directories in one another, each with a relative link to a directory outside the chain. On the disk they are 300.
deep:  1,000 relative links to one empty directory that isn't above them, in the directory at depth 300.
/usr:  `walk --follow --hidden /usr`, with `--disk` alone.
"""
import argparse
import os
import subprocess
import sys
import tempfile
import time
from statistics import median

PROGRAM = os.path.join(os.path.dirname(os.path.abspath(__file__)), "..", "crates", "walk", "out", "walk")
TURNS = 15


def links():
    """A file, and one directory of links to it."""
    yield "f 1 /f"
    yield "d /r"
    for i in range(200_000):
        yield f"l /f\t/r/link-{i:07d}"


def chain(depth):
    """Directories in one another, each with a link to one outside."""
    yield "d /o"
    path = ""
    for level in range(1, depth + 1):
        path += "/a"
        yield f"d {path}"
        yield f"l {'../' * level}o\t{path}/l"


def deep():
    """Links to an empty directory beside the 300th of directories in one another, all in that one."""
    path = ""
    for level in range(300):
        path += "/a"
        yield f"d {path}"
    yield f"d {path}/a"
    yield f"d {path}/o"
    for i in range(1_000):
        yield f"l ../o\t{path}/a/link-{i:04d}"


def write(folder, name, lines):
    path = os.path.join(folder, f"{name}.txt")
    with open(path, "w") as file:
        file.writelines(line + "\n" for line in lines)
    return path


def build(folder, name, lines):
    """Makes the tree on the disk, from the working directory down: the paths of the deep ones are long. Returns its root."""
    root = os.path.join(folder, name)
    os.makedirs(root)
    here = os.open(root, os.O_RDONLY)
    opened = {"": here}
    for line in lines:
        kind, _, rest = line.partition(" ")
        target, path = rest.split("\t") if kind == "l" else ("", rest)
        parent, _, last = path.rpartition("/")
        if kind == "d":
            os.mkdir(last, dir_fd=opened[parent])
            opened[path] = os.open(last, os.O_RDONLY, dir_fd=opened[parent])
        else:
            os.symlink(target, last, dir_fd=opened[parent])
    for number in opened.values():
        os.close(number)
    return root


def run(program, words, listed, output):
    """The processor seconds of one run, which may end with 1 where a link is a loop."""
    with open(listed, "rb") as source, open(output, "wb") as out:
        child = subprocess.Popen([program, "--follow", *words], stdin=source, stdout=out, stderr=subprocess.DEVNULL)
        _, status, usage = os.wait4(child.pid, 0)
    if os.waitstatus_to_exitcode(status) not in (0, 1):
        sys.exit(f"{program} ended with {status}")
    return usage.ru_utime + usage.ru_stime


def compare(programs, name, words, listed, output, most=None):
    """Both programs in turn. Returns the median of the second, which is looked at."""
    rows = [[run(program, words, listed, output) for program in programs] for _ in range(TURNS + 1)][1:]
    before, after = (median(of) for of in zip(*rows))
    ratio = median(b / a for a, b in rows)
    bound = f" (at most {most})" if most else ""
    print(f"{name:<12}{before * 1e3:>10.1f} ms{after * 1e3:>10.1f} ms{ratio:>8.2f} times{bound}")
    return after


def in_memory(programs, folder, output):
    """The trees that are read from the input."""
    most = 1.02
    compare(programs, "links", ["--tree", "/r"], write(folder, "links", links()), output, most)
    times = []
    for depth in (250, 1_000):
        listed = write(folder, f"chain-{depth}", chain(depth))
        times.append(compare(programs, f"chain {depth}", ["--tree", "/a"], listed, output, most))
    print(f"    4 times the chain takes {times[1] / times[0]:.1f} times the time (at most 20)")
    compare(programs, "deep", ["--tree", "/a"], write(folder, "deep", deep()), output, most)


def on_disk(programs, folder, output):
    """The same as folders, and `/usr`."""
    compare(programs, "chain 300", [build(folder, "chain", chain(300)) + "/a"], os.devnull, output, 3)
    compare(programs, "deep", [build(folder, "deep", deep()) + "/a"], os.devnull, output, 1.5)
    compare(programs, "/usr", ["--hidden", "/usr"], os.devnull, output, 1.05)


def main():
    asked = argparse.ArgumentParser(usage="loops.py [--disk] EARLIER [PROGRAM [FOLDER]]")
    asked.add_argument("--disk", action="store_true")
    asked.add_argument("earlier")
    asked.add_argument("program", nargs="?", default=PROGRAM)
    asked.add_argument("folder", nargs="?")
    asked = asked.parse_args()
    folder = asked.folder or tempfile.mkdtemp(prefix="walk-loops-")
    print(f"{os.cpu_count()} cores, at {time.strftime('%Y-%m-%d')}: the earlier program, this one, and their ratio")
    times = on_disk if asked.disk else in_memory
    times((asked.earlier, asked.program), folder, os.path.join(folder, "out.txt"))
    if not asked.folder:
        subprocess.run(["rm", "-rf", folder], check=True)


if __name__ == "__main__":
    main()
