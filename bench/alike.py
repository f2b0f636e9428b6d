#!/usr/bin/env python3
"""Compares walks over a crew and walks in batches with the serial walk, line by line, over random trees in memory; and what
the serial walk tells of links that it follows with what their texts say.

    python3 bench/alike.py [TREES [SEED [PROGRAM]]]

Build the program first: (cd crates/walk && rt run). Each of TREES trees (2,000 where none is given) is made from a seed of
its own, the first of which is SEED (1 where none is given): directories, some of which can't be read, files and links, hidden
names among them, and options and a root at random. One tree in ten is large. Each way of reading must print the lines of the
serial walk, in their order, and end with its status. Where one doesn't, its seed, its words and the first line that differs
are printed, and the script ends with 1.

Then as many random trees of directories and links, whose texts go up and down, are walked over with links followed. A link
must be told as a loop on the directory above it to which its text leads by its parts alone, and be followed where that is
none. What is told otherwise is printed, and the script ends with 1.
"""
import os
import random
import subprocess
import sys

PROGRAM = os.path.join(os.path.dirname(os.path.abspath(__file__)), "..", "crates", "walk", "out", "walk")

WAYS = [["--crew", "1"], ["--crew", "2"], ["--crew", "4"], ["--batch", "3"], ["--batch", "64"]]

ROOTS = ["/r", "r/", "//r/.", "/../r", "/r/a/..", "../r/a"]

NAMES = ["a", "b", "ab", "a b", "é", "Z", "0", "long name of an entry"]


class Tree:
    """The lines of a random tree, and the paths that it has."""

    def __init__(self, rng, most):
        self.rng = rng
        self.lines = ["d /r"]
        self.folders = ["/r"]
        self.paths = ["/r"]
        for number in range(rng.randrange(most)):
            self.add(number)
        for folder in self.folders:
            if rng.random() < 0.03:
                self.lines.append(f"x {folder}")

    def add(self, number):
        """Adds an entry below a directory that is there: a late one more often, so that trees are deep too."""
        rng = self.rng
        parent = rng.choice(self.folders[-8:] if rng.random() < 0.3 else self.folders)
        dot = "." if rng.random() < 0.06 else ""
        path = f"{parent}/{dot}{rng.choice(NAMES)}{number}"
        kind = rng.random()
        if kind < 0.5:
            self.lines.append(f"d {path}")
            self.folders.append(path)
        elif kind < 0.85:
            self.lines.append(f"f {rng.randrange(100)} {path}")
        else:
            self.lines.append(f"l {self.target()}\t{path}")
        self.paths.append(path)

    def target(self):
        """What a link leads to: something of the tree, a directory above, itself, or nothing."""
        beside = ["..", ".", "../..", "", "/nowhere", "/", self.paths[-1].rsplit("/", 1)[1]]
        return self.rng.choice(self.paths + beside)


def words_of(rng, tree):
    """Options and a root at random. Links are followed in walks that end soon, since loops of relative ones aren't found."""
    words = [word for word in ("--sort", "--hidden") if rng.random() < 0.5]
    follow = rng.random() < 0.3
    if follow:
        words += ["--follow", "--max", str(rng.randrange(7))]
    elif rng.random() < 0.2:
        words += ["--max", str(rng.randrange(8))]
    if rng.random() < 0.2:
        words += ["--min", str(rng.randrange(5))]
    root = "/r" if rng.random() < 0.85 else rng.choice(tree.paths + ["/", "/none", "/r/../r", ".."])
    return words, root


def walked(program, words, root, lines):
    """What a walk prints, and its status."""
    ran = subprocess.run([program, "--tree", *words, root], input=lines, stdout=subprocess.PIPE, stderr=subprocess.PIPE)
    if ran.stderr or ran.returncode not in (0, 1):
        sys.exit(f"{words} {root!r}: status {ran.returncode}, {ran.stderr.decode(errors='replace')}")
    return ran.stdout.split(b"\n"), ran.returncode


def first_apart(these, others):
    """The first lines of two walks that differ."""
    for number, (one, other) in enumerate(zip(these, others), 1):
        if one != other:
            return f"line {number}: {one!r}, and serially {other!r}"
    return f"{len(these)} lines, and serially {len(others)}"


def compare(program, seed):
    """How many lines the serial walk of a seed prints, and whether all ways of reading print the same."""
    rng = random.Random(seed)
    tree = Tree(rng, 1_500 if seed % 10 == 0 else 60)
    words, root = words_of(rng, tree)
    lines = "\n".join(tree.lines).encode()
    serial = walked(program, words, root, lines)
    alike = True
    for way in WAYS:
        found = walked(program, [*words, *way], root, lines)
        if found != serial:
            alike = False
            ended = f"status {found[1]}, and serially {serial[1]}"
            print(f"seed {seed}: {' '.join([*words, *way, root])}: {ended}; {first_apart(found[0], serial[0])}", flush=True)
    return len(serial[0]) - 1, alike


class Links:
    """A random tree `/r` of directories and links, with texts of all kinds."""

    def __init__(self, rng):
        self.folders, self.links = ["/r"], {}
        for _ in range(24):
            folder = rng.choice(self.folders)
            if len(self.links) < 6 and rng.random() < 1 / 3:
                parts = rng.choices(["", ".", "..", "a", "b", "r", "l0"], [1, 1, 5, 2, 1, 1, 1], k=rng.randrange(5))
                self.links[f"{folder}/l{len(self.links)}"] = "/".join([rng.choice(["/r", ".", "."]), *parts])
            else:
                path = f"{folder}/{rng.choice('ab')}"
                if path not in self.folders:
                    self.folders.append(path)

    def lines(self):
        folders = [f"d {path}" for path in self.folders]
        return "\n".join([*folders, *(f"l {text}\t{path}" for path, text in self.links.items())]).encode()

    def text_at(self, path):
        """The text of the link at this path, which may lead through other links."""
        names, parts = [], path.split("/")[::-1]
        while parts:
            part = parts.pop()
            if part == "..":
                names = names[:-1]
            elif part not in ("", "."):
                names.append(part)
            text = self.links.get("/" + "/".join(names))
            if text is not None and parts:
                names = [] if text.startswith("/") else names[:-1]
                parts += text.split("/")[::-1]
        return text


def spot(*texts):
    """Where texts lead one after another, by their parts alone: from the root or not, how far up, and down to which names."""
    is_absolute, ups, names = False, 0, []
    for text in texts:
        if text.startswith("/"):
            is_absolute, ups, names = True, 0, []
        for part in text.split("/"):
            if part == ".." and names:
                names = names[:-1]
            elif part == "..":
                ups += not is_absolute
            elif part not in ("", "."):
                names = [*names, part]
    return is_absolute, ups, names


def judge(tree, root, lines):
    """How many links these lines tell as loops and how many as directories, and the first that is told wrongly."""
    above, loops, others = [root], 0, 0
    for line in lines:
        words = line.split(" ")
        is_error = words[0] == "!"
        depth, path = int(words[is_error]), words[2]
        above = above[: depth + 1]
        ancestor = words[4] if words[3:4] == ["loop"] else None
        if ancestor or words[1] == "D":
            leads_to = spot(path, "..", tree.text_at(path))
            is_loop = leads_to in [spot(it) for it in above]
            if is_loop != bool(ancestor) or (ancestor and spot(ancestor) != leads_to):
                return loops, others, line
            loops, others = loops + bool(ancestor), others + (not ancestor)
        if not is_error:
            above.append(path)
    return loops, others, None


def told(program, seed):
    """How many loops and other links the walk of a seed tells, and whether it tells them rightly."""
    rng = random.Random(seed)
    tree, root = Links(rng), ROOTS[seed % len(ROOTS)]
    lines, _ = walked(program, ["--follow", "--max", "6"], root, tree.lines())
    loops, others, wrong = judge(tree, root, [line.decode() for line in lines if line])
    if wrong:
        print(f"seed {seed}: {root}: this link is told wrongly: {wrong}", flush=True)
    return loops, others, not wrong


def main():
    count = int(sys.argv[1]) if len(sys.argv) > 1 else 2_000
    first = int(sys.argv[2]) if len(sys.argv) > 2 else 1
    program = sys.argv[3] if len(sys.argv) > 3 else PROGRAM
    print(f"seeds {first} to {first + count - 1}, each walked {len(WAYS) + 1} times")
    lines, apart = 0, 0
    for seed in range(first, first + count):
        more, alike = compare(program, seed)
        lines += more
        apart += not alike
        if (seed - first + 1) % 500 == 0:
            print(f"{seed - first + 1} trees, {lines} lines of serial walks, {apart} trees walked otherwise", flush=True)
    print(f"{count} trees, {lines} lines of serial walks, {apart} trees walked otherwise")
    found = [told(program, seed) for seed in range(first, first + count)]
    loops, others, right = map(sum, zip(*found))
    print(f"{count} trees of links, {loops} loops and {others} other links, {count - right} trees told wrongly")
    return 1 if apart or right < count else 0


if __name__ == "__main__":
    sys.exit(main())
