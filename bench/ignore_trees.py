#!/usr/bin/env python3
"""Small trees with ignore files, and what git keeps of them.

    python3 bench/ignore_trees.py write SEED           writes the 100 trees of tests/seek/ignore_trees.t, and the four of
                                                       them in crates/test_ignore/src/trees.rt; theirs is seed 1
    python3 bench/ignore_trees.py against PROGRAM COUNT SEED
                                                       random trees on disk: git beside what PROGRAM PATH prints

Each tree is a fresh repository with an empty index and no settings of the user's. It is a text: a line that ends with a
slash is a directory, one with `=` is a file with rules, whose lines end with `|`, and any other is an empty file. What
is kept is each path that `git check-ignore --no-index` doesn't print, in the order of a sorted walk. PROGRAM is run with
the tree's path, and prints the paths that it keeps below it, each ended by a zero byte; `{}` in PROGRAM stands for the
path. A pattern with a literal text that `**` is directly behind is left out, since git 2.39 matches more there than it
documents, and so is `**\\/`. The 100 are chosen of 200, one after another: each time the tree that shows most that none
of those chosen before shows. The four are those that are chosen first.
"""
import os
import random
import re
import shlex
import subprocess
import sys
import tempfile

ENVIRONMENT = dict(os.environ, GIT_CONFIG_GLOBAL="/dev/null", GIT_CONFIG_SYSTEM="/dev/null", LC_ALL="C")
ENVIRONMENT.pop("XDG_CONFIG_HOME", None)
NAMES = ["a", "b", "ab", "c.o", "k.o", ".h", "sub"]
PIECES = ["a", "b", "ab", "*", "?", "**/", "/**", "/", "*.o", "k.o", "sub", "[ab]", "[!a]", ".h", "\\a", "c.?"]


def pattern(rng):
    """One line of an ignore file, of which git does what it documents."""
    while True:
        text = "".join(rng.choice(PIECES) for _ in range(rng.randint(1, 3)))
        literal = re.match(r"[^*?\[\\]*", text).group()
        behind = text[len(literal):]
        unsettled = "/" in text.rstrip("/") and behind.startswith("**") and literal.lstrip("/") and not literal.endswith("/")
        if unsettled or "**\\/" in text:
            continue
        return ("!" if rng.random() < 0.3 else "") + text + ("/" if rng.random() < 0.2 else "")


def rules(rng):
    return "".join(pattern(rng) + "|" for _ in range(rng.randint(1, 3)))


def tree(rng):
    """The lines of a tree: directories before what is in them."""
    lines = []

    def fill(folder, depth):
        if rng.random() < (0.9 if depth == 0 else 0.4):
            lines.append(f"{folder}.gitignore={rules(rng)}")
        for name in sorted(rng.sample(NAMES, rng.randint(1, 3))):
            if depth < 3 and rng.random() < 0.5 and not name.startswith("."):
                lines.append(f"{folder}{name}/")
                fill(f"{folder}{name}/", depth + 1)
            else:
                lines.append(f"{folder}{name}")

    if rng.random() < 0.3:
        lines.append(f".git/info/exclude={rules(rng)}")
    fill("", 0)
    return lines


def plant(folder, lines):
    """Makes the tree on disk, in a fresh repository."""
    subprocess.run(["git", "init", "-q", folder], env=ENVIRONMENT, check=True)
    subprocess.run(["git", "-C", folder, "config", "core.ignorecase", "false"], env=ENVIRONMENT, check=True)
    for line in lines:
        path, mark, text = line.partition("=")
        whole = os.path.join(folder, path)
        if line.endswith("/"):
            os.mkdir(whole)
        else:
            with open(whole, "w") as file:
                file.write(text.replace("|", "\n") if mark else "")


def paths_of(lines):
    """The paths of a tree but those in `.git`, in the order of a sorted walk."""
    paths = [line.partition("=")[0].rstrip("/") for line in lines if not line.startswith(".git/")]
    return sorted(paths, key=lambda path: path.split("/"))


def kept(folder, lines):
    """What git keeps of them."""
    paths = paths_of(lines)
    asked = b"".join(path.encode() + b"\0" for path in paths)
    answer = subprocess.run(["git", "-C", folder, "check-ignore", "--no-index", "-z", "--stdin"], env=ENVIRONMENT,
                            input=asked, capture_output=True)
    ignored = set(answer.stdout.decode().split("\0"))
    return [path for path in paths if path not in ignored]


def trees(count, seed):
    for number in range(count):
        rng = random.Random(f"{seed} {number}")
        lines = tree(rng)
        with tempfile.TemporaryDirectory() as top:
            folder = os.path.join(top, "r")
            plant(folder, lines)
            yield number, folder, lines, kept(folder, lines)


TOP = os.path.join(os.path.dirname(os.path.abspath(__file__)), "..")
ROWS = os.path.join(TOP, "tests", "seek", "ignore_trees.t")
TREES = os.path.join(TOP, "crates", "test_ignore", "src", "trees.rt")
COUNT = 100
FIRST = 4


def indented(lines):
    return [f"  {line}" for line in lines]


def row_of(number, lines, left):
    """The lines of a file of rows for a tree."""
    said = [f"# tree {number}", "tree", "  d /r", "  d /r/.git"]
    files = [line.partition("=") for line in lines if "=" in line]
    for line in lines:
        if "=" not in line:
            said.append(f"  d /r/{line[:-1]}" if line.endswith("/") else f"  f 1 /r/{line}")
    for path, _, text in files:
        said += [f"rules /r/{path}", *indented(text.removesuffix("|").split("|"))]
    return [*said, "$ seek -H . /r", *(f"  /r/{path}" for path in left), ""]


def quoted(text):
    """A literal of Rust. A `|` ends each line of rules."""
    for mark, code in ("\\", "\\\\"), ('"', '\\"'), ("|", "\\n"):
        text = text.replace(mark, code)
    return f'"{text}"'


def scene_of(number, lines, left):
    """The scene of a tree in a table of walks, in Rust."""
    tree = [f"            {quoted(line)}," for line in [".git/", *lines]]
    items = quoted("".join(f"{path}|" for path in left))
    row = [f"// Tree {number}.", "Row {", f"    yields: Yields::Items({items}),", "    ..ROW", "},"]
    rows = [f"            {line}" for line in row]
    return ["    Scene {", "        tree: &[", *tree, "        ],", "        rows: &[", *rows, "        ],", "        ..SCENE", "    },"]


def pieces_of(text):
    """The pieces that a pattern is made of, between its two ends."""
    longest_first = sorted(PIECES, key=len, reverse=True)
    return ["^"] + re.findall("|".join(re.escape(piece) for piece in longest_first), text) + ["$"]


def shown_by_file(path, text):
    """What a file of rules shows: which pieces stand side by side, and which forms of lines."""
    kind = "exclude" if path.startswith(".git/") else min(path.count("/"), 2)
    for line in text.strip("|").split("|"):
        negated, pattern = line.startswith("!"), line.removeprefix("!")
        yield kind, negated, pattern.endswith("/"), "/" in pattern.rstrip("/")
        pieces = pieces_of(pattern)
        for pair in zip(pieces, pieces[1:]):
            yield pair
            yield kind, negated, pair[0]


def shown(lines, left):
    """What a tree shows: of each file of rules, where there are some, and which of its paths are kept."""
    found = set()
    kinds = []
    for line in lines:
        path, mark, text = line.partition("=")
        if mark:
            found.update(shown_by_file(path, text))
            kinds.append(path.count("/") if not path.startswith(".git/") else "exclude")
        name = path.rstrip("/").split("/")[-1]
        found.add((name, path.count("/"), line.endswith("/"), path.rstrip("/") in left))
    found.add(tuple(kinds))
    return found


def chosen(rows, count):
    """That many of these rows, in their order: each time the one that shows most that is new."""
    all_shown = [shown(lines, left) for lines, left in rows]
    seen, places = set(), []
    while len(places) < count:
        place = max((at for at in range(len(rows)) if at not in places), key=lambda at: (len(all_shown[at] - seen), -at))
        places.append(place)
        seen |= all_shown[place]
    return [rows[place] for place in sorted(places)]


def write(seed):
    """Writes the rows and the table, of trees of at most 12 lines."""
    rows = [(lines, left) for _, _, lines, left in trees(900, seed) if len(lines) <= 12 and len(left) < len(paths_of(lines))]
    rows = list(enumerate(chosen(rows[:200], COUNT)))
    first = chosen([row for _, row in rows], FIRST)
    with open(ROWS, "w") as file:
        file.write("-- Small trees with ignore files, and the part of each that git 2.39 keeps.\n\n")
        file.write("\n".join(line for number, row in rows for line in row_of(number, *row)))
    with open(TREES, "w") as file:
        file.write("//! Small trees with ignore files, and the part of each that git 2.39 keeps. `bench/ignore_trees.py` writes them.\n")
        file.write("use crate::planted::{ROW, Row, SCENE, Scene, Yields};\n\n")
        file.write("pub(crate) const TREES: &[Scene] = &[\n")
        file.write("".join(f"{line}\n" for number, row in rows if row in first for line in scene_of(number, *row)))
        file.write("];\n")


def against(program, count, seed):
    words = shlex.split(program)
    print(f"seed {seed}, {count} trees")
    differences = 0
    for number, folder, lines, left in trees(count, seed):
        call = [word.replace("{}", folder) for word in words] if "{}" in program else words + [folder]
        printed = subprocess.run(call, capture_output=True).stdout.decode().split("\0")
        found = sorted(os.path.relpath(path, folder) for path in printed if path and os.path.relpath(path, folder) != ".")
        if found != sorted(left):
            differences += 1
            print(f"tree {number}: git keeps {sorted(left)}, the program {found}, of\n" + "\n".join(lines))
    print(f"{differences} differences")
    return 1 if differences else 0


def main():
    match sys.argv[1:]:
        case ["write", seed]:
            write(seed)
        case ["against", program, count, seed]:
            sys.exit(against(program, int(count), seed))
        case _:
            sys.exit(__doc__)


main()
