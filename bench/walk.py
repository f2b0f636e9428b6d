#!/usr/bin/env python3
"""Times `walk --tree` on trees in memory, beside `cat` of the same input and `find` over the same tree on disk; and beside
itself: by name and in the order of creation, over links and over files, with links followed, and in batches.

    python3 bench/walk.py [FOLDER]

Build the program first: (cd crates/walk && rt run). FOLDER holds the inputs and the trees on disk (a temporary folder
where none is given). Each time of a tree is the best of three warm runs with the output in a file, and the peak memory is
that of the last one. Two walks that are compared take turns: their times are processor times, the medians of 25 turns, and
so is the ratio of the two of a turn, which a machine that is slow for a while leaves as it is. The walks by name go over
names that differ early, and over names of 24 bytes whose first 16 are the same. Walks in batches take turns with the one
that reads a directory at a time, and print what it prints; both ratios, of the time that passed and of processor times,
are the medians of nine turns. All times have the reading of the input and the making of the tree in them.
"""
import os
import random
import subprocess
import sys
import tempfile
import time
from statistics import median

PROGRAM = os.path.join(os.path.dirname(os.path.abspath(__file__)), "..", "crates", "walk", "out", "walk")


def wide(count, name="file-{:07d}"):
    """One directory with files alone."""
    yield "d", "/r"
    for i in range(count - 1):
        yield "f", "/r/" + name.format(i)


def bushy(count):
    """Many directories with 19 files each."""
    yield "d", "/r"
    made, directory = 1, 0
    while made < count:
        yield "d", f"/r/dir-{directory:06d}"
        made += 1
        for i in range(min(19, count - made)):
            yield "f", f"/r/dir-{directory:06d}/file-{i:02d}"
            made += 1
        directory += 1


def chain(count):
    """Directories below one another, with short names."""
    path = ""
    for _ in range(count):
        path += "/a"
        yield "d", path


def directories(count):
    """One directory with empty directories alone."""
    yield "d", "/r"
    for i in range(count - 1):
        yield "d", f"/r/dir-{i:07d}"


def tenfold(count):
    """Directories of ten directories each, one level after another."""
    yield "d", "/r"
    level, left = ["/r"], count - 1
    while left > 0:
        level = [f"{path}/{digit}" for path in level for digit in range(10)][:left]
        left -= len(level)
        for path in level:
            yield "d", path


def linked(count):
    """A file, and one directory with links to it."""
    yield "f", "/f"
    for letter, path in wide(count, "link-{:07d}"):
        yield letter if letter == "d" else "l", path


def unlinked(count):
    """The same with files in place of the links."""
    yield "f", "/f"
    yield from wide(count, "link-{:07d}")


TREES = [
    ("wide", 50_000, wide, "/r"),
    ("wide", 200_000, wide, "/r"),
    ("bushy", 50_000, bushy, "/r"),
    ("bushy", 200_000, bushy, "/r"),
    ("chain", 250, chain, "/a"),
    ("chain", 1_000, chain, "/a"),
    ("dirs", 200_000, directories, "/r"),
    ("tenfold", 111_111, tenfold, "/r"),
]

WIDTHS = (1, 4, 16, 64, 256)


def scrambled(entries):
    """A wide tree, its names in an order that is random and always the same."""
    files = entries[1:]
    random.Random(1).shuffle(files)
    return entries[:1] + files


LINES = {"d": "d ", "f": "f 1 ", "l": "l /f\t"}


def write_tree(path, entries):
    with open(path, "w") as file:
        for letter, name in entries:
            file.write(LINES[letter] + name + "\n")


def run(words, input_path, output_path):
    """The seconds, the processor seconds and the peak memory in KiB of one run."""
    with open(input_path, "rb") as source, open(output_path, "wb") as out:
        start = time.perf_counter()
        child = subprocess.Popen(words, stdin=source, stdout=out)
        _, status, usage = os.wait4(child.pid, 0)
        seconds = time.perf_counter() - start
    if status != 0:
        sys.exit(f"{words} ended with {status}")
    return seconds, usage.ru_utime + usage.ru_stime, usage.ru_maxrss


def best(words, input_path, output_path):
    runs = [run(words, input_path, output_path) for _ in range(4)][1:]
    return min(seconds for seconds, _, _ in runs), runs[-1][2]


def compare(label, output, first, second, turns=25):
    """Two walks in turn, each its options and input; the output is that of the second in the end. Answers the processor
    seconds of the second."""
    times = []
    for _ in range(turns + 1):
        times.append([run([PROGRAM, "--tree", *options, root], listed, output)[1] for options, root, listed in (first, second)])
    times = times[1:]
    before, after = (median(of) for of in zip(*times))
    ratio = median(b / a for a, b in times)
    print(f"{label}: {before * 1e3:.1f} ms, {after * 1e3:.1f} ms, {ratio:.2f} times")
    return after


def sorting(folder, output, label, name, count=200_000):
    """A walk by name of a wide tree with its names in random order, beside a walk of the same tree as it is."""
    entries = list(wide(count, name))
    listed = os.path.join(folder, f"{label}-{count}.txt")
    write_tree(listed, scrambled(entries))
    compare(f"{label} {count}, by name", output, ([], "/r", listed), (["--sort"], "/r", listed))
    with open(output) as file:
        lines = file.read().splitlines()
    if lines != ["0 d /r"] + [f"1 f {path}" for _, path in entries[1:]]:
        sys.exit("the sorted walk isn't sorted")


def links(folder, output, count=200_000):
    """A directory of links beside one of files, and with the links followed; chains with links followed."""
    paths = [os.path.join(folder, f"{make.__name__}-{count}.txt") for make in (unlinked, linked)]
    for path, make in zip(paths, (unlinked, linked)):
        write_tree(path, make(count))
    files, with_links = paths
    compare(f"links {count}, beside files", output, ([], "/r", files), ([], "/r", with_links))
    compare(f"links {count}, followed", output, ([], "/r", with_links), (["--follow"], "/r", with_links))
    times = []
    for depth in (250, 1_000):
        listed = os.path.join(folder, f"chain-{depth}.txt")
        write_tree(listed, chain(depth))
        times.append(compare(f"chain {depth}, followed", output, ([], "/a", listed), (["--follow"], "/a", listed)))
    print(f"    4 times the chain takes {times[1] / times[0]:.1f} times the time with links followed")


def in_turns(ways, root, listed, output, turns):
    """The runs of a walk in each way, turn by turn, but for the first turn, which looks whether all print the same."""
    words = [[PROGRAM, "--tree", *way, root] for way in ways]
    printed = set()
    for of in words:
        run(of, listed, output)
        with open(output, "rb") as file:
            printed.add(file.read())
    if len(printed) > 1:
        sys.exit(f"{listed}: batches print other lines")
    return [[run(of, listed, output) for of in words] for _ in range(turns)]


def batches(folder, output, turns=9):
    """Walks in batches beside the walk that reads a directory at a time, of each tree of 100,000 lines or more."""
    ways = [[]] + [["--batch", str(width)] for width in WIDTHS]
    print(f"{'tree':<8}{'lines':>9}{'batch':>7}{'x serial':>10}{'cpu x':>8}{'MiB x':>8}")
    for name, count, _, root in TREES:
        if count < 100_000:
            continue
        rows = in_turns(ways, root, os.path.join(folder, f"{name}-{count}.txt"), output, turns)
        for way, width in enumerate(WIDTHS, 1):
            passed, cpu, memory = (median(turn[way][part] / turn[0][part] for turn in rows) for part in range(3))
            print(f"{name:<8}{count:>9}{width:>7}{passed:>10.2f}{cpu:>8.2f}{memory:>8.2f}")


def on_disk(folder, entries):
    for letter, path in entries:
        if letter == "d":
            os.mkdir(folder + path)
        else:
            open(folder + path, "w").close()


def main():
    folder = sys.argv[1] if len(sys.argv) > 1 else tempfile.mkdtemp(prefix="walk-bench-")
    output = os.path.join(folder, "out.txt")
    print(f"{os.cpu_count()} cores")
    print(f"{'tree':<8}{'lines':>9}{'walk ms':>10}{'cat ms':>9}{'find ms':>9}{'x find':>8}{'bytes/line':>12}")
    before = {}
    for name, count, entries, root in TREES:
        listed = os.path.join(folder, f"{name}-{count}.txt")
        write_tree(listed, entries(count))
        disk = os.path.join(folder, f"{name}-{count}")
        if not os.path.isdir(disk):
            os.mkdir(disk)
            on_disk(disk, entries(count))
        seconds, memory = best([PROGRAM, "--tree", root], listed, output)
        with open(output, "rb") as file:
            lines = sum(1 for _ in file)
        if lines != count:
            sys.exit(f"{name} {count}: {lines} lines were printed")
        cat, _ = best(["cat"], listed, output)
        find, _ = best(["find", disk + root], listed, output)
        print(f"{name:<8}{count:>9}{seconds * 1e3:>10.1f}{cat * 1e3:>9.1f}{find * 1e3:>9.1f}{seconds / find:>8.2f}{memory * 1024 / count:>12.0f}")
        if name in before:
            smaller, faster = before[name]
            print(f"    {count // smaller} times the lines take {seconds / faster:.1f} times the time")
        before[name] = (count, seconds)
    sorting(folder, output, "scrambled", "file-{:07d}")
    sorting(folder, output, "scrambled and alike", "file-of-archive-{:08d}")
    links(folder, output)
    batches(folder, output)
    if len(sys.argv) < 2:
        subprocess.run(["rm", "-rf", folder], check=True)


if __name__ == "__main__":
    main()
