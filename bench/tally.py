#!/usr/bin/env python3
"""Compares `tally` with a count by `os.lstat`, over random trees on the disk with hard links, links and holes.

    python3 bench/tally.py [COUNT [SEED [PROGRAM]]]

Build the program first: (cd crates/tally && rt run). Each of COUNT trees (200 if no number is given) is counted by
`tally --plain -b --sort`, by lengths and by blocks, each name or the first alone, with 1, 2 and 8 threads. All must
print the same bytes, and those of the count: children before their parents, a file with several names at the first of
them in the order of names. A `du -s -b --apparent-size` of the tree must be the last line where lengths are counted.
Where root runs it and may mount, `tally -x` must print what `du -x` does of a tree with a mounted disk and a mounted file.
"""
import os
import pathlib
import random
import shutil
import subprocess
import sys
import tempfile

TOP = os.path.dirname(os.path.dirname(os.path.abspath(__file__)))
COUNT = int(sys.argv[1]) if len(sys.argv) > 1 else 200
SEED = int(sys.argv[2]) if len(sys.argv) > 2 else 1
PROGRAM = sys.argv[3] if len(sys.argv) > 3 else f"{TOP}/crates/tally/out/tally"
NAMES = ["a", "b", "c d", "é", ".h", "z", "B", "-x"]


def plant(rng, folder, files, depth=0):
    """Fills a folder, and adds the files that were made to a list."""
    for name in rng.sample(NAMES, rng.randint(0, 5)):
        path = os.path.join(folder, name)
        kind = rng.random()
        if kind < 0.35 and depth < 4:
            os.mkdir(path)
            plant(rng, path, files, depth + 1)
        elif kind < 0.55 and files:
            os.link(rng.choice(files), path)
        elif kind < 0.65:
            os.symlink(rng.choice(NAMES), path)
        else:
            with open(path, "wb") as file:
                file.write(b"x" * rng.choice([0, 1, 511, 5000, 70000]))
                if rng.random() < 0.2:
                    file.truncate(1_000_000)
            files.append(path)


def counted(path, lengths, each, known, lines):
    """What an entry and all below it come to; the lines of the directories are appended."""
    found = os.lstat(path)
    is_dir = os.path.isdir(path) and not os.path.islink(path)
    size = found.st_size if lengths else 512 * found.st_blocks
    if not is_dir and not each and found.st_nlink > 1:
        size = 0 if found.st_ino in known else size
        known.add(found.st_ino)
    if is_dir:
        for name in sorted(os.listdir(path), key=os.fsencode):
            size += counted(os.path.join(path, name), lengths, each, known, lines)
        lines.append(f"{size}\t{path}\n")
    return size


def printed(words):
    return subprocess.run([PROGRAM, "--plain", "-b", "--sort", *words], capture_output=True, check=True).stdout.decode()


def differs(top):
    """The first call whose lines aren't those of the count, if there is one."""
    for lengths in (False, True):
        for each in (False, True):
            lines = []
            counted(top, lengths, each, set(), lines)
            words = ["--apparent"] * lengths + ["-l"] * each
            for threads in ("1", "2", "8"):
                call = [*words, "-j", threads, top]
                if printed(call) != "".join(lines):
                    return call
    du = subprocess.run(["du", "-s", "-b", "--apparent-size", top], capture_output=True, text=True, check=True).stdout
    return None if printed(["--apparent", "-s", top]) == du else ["du"]


def mount(*words):
    return subprocess.run(["mount", *words], capture_output=True).returncode == 0


def unlike_du(top):
    """The first call with -x that doesn't print what `du` does of a folder with a mounted disk, a mounted file and links."""
    for short in ("", "L", "l", "lL"):
        for roots in (["t"], ["t/disk"], ["t", "t/disk"], ["t/disk/inner", "t"], ["t/to_disk", "t"], ["t/"]):
            words = ["-x", "-a", *(f"-{letter}" for letter in short)]
            du = subprocess.run(["du", "-D", "-b", *words, *roots], cwd=top, capture_output=True, text=True)
            tally = [PROGRAM, "--plain", "-b", "--apparent", "--sort", *words, *roots]
            tally = subprocess.run(tally, cwd=top, capture_output=True, text=True)
            if sorted(tally.stdout.splitlines()) != sorted(du.stdout.splitlines()) or du.returncode != tally.returncode:
                return [*words, *roots]
    return None


def with_mounts():
    """Tries -x beside `du`. None if nothing can be mounted."""
    top = tempfile.mkdtemp(prefix="tally_")
    disk, bound = os.path.join(top, "t", "disk"), os.path.join(top, "t", "bound")
    os.makedirs(disk)
    os.mkdir(os.path.join(top, "t", "own"))
    for name in ("t/own/f", "t/g", "t/bound"):
        pathlib.Path(top, name).write_bytes(b"x" * 3000)
    mounted = []
    try:
        if not mount("-t", "tmpfs", "none", disk):
            return None
        mounted.append(disk)
        os.mkdir(os.path.join(disk, "inner"))
        pathlib.Path(disk, "inner", "f").write_bytes(b"x" * 7000)
        os.symlink("disk/inner", os.path.join(top, "t", "to_disk"))
        os.symlink("disk/inner/f", os.path.join(top, "t", "to_file"))
        if not mount("--bind", os.path.join(disk, "inner", "f"), bound):
            return None
        mounted.append(bound)
        return unlike_du(top) or []
    finally:
        for place in reversed(mounted):
            subprocess.run(["umount", place], check=True)
        shutil.rmtree(top)


def main():
    rng = random.Random(SEED)
    for number in range(COUNT):
        top = tempfile.mkdtemp(prefix="tally_")
        plant(rng, top, [])
        call = differs(top)
        if call:
            print(f"tree {number} of seed {SEED}, {top}: {' '.join(call)}")
            return 1
        shutil.rmtree(top)
    print(f"{COUNT} trees: tally counts what os.lstat says, and du")
    call = with_mounts() if os.geteuid() == 0 else None
    if call:
        print(f"a mounted disk and a mounted file: {' '.join(call)}")
        return 1
    print("a mounted disk and a mounted file: " + ("not tried" if call is None else "tally -x prints what du -x does"))
    return 0


if __name__ == "__main__":
    sys.exit(main())
