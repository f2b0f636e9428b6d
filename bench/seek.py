#!/usr/bin/env python3
"""`seek` beside git, rg, fd and find: what is listed, and how long it takes.

    python3 bench/seek.py trees COUNT SEED [PROGRAM]       random trees with ignore files, beside git, rg and fd
    python3 bench/seek.py beside FOLDER.. [PROGRAM]        folders on disk, beside rg and fd, and git where it is a work tree
    python3 bench/seek.py words [PROGRAM]                  the words that fd has too, beside fd, over one small tree
    python3 bench/seek.py speed [FOLDER] [PROGRAM]         times, beside fd and find

Build the program first: (cd crates/seek && rt run). PROGRAM is another one, named by a path with a slash, and begins with
`program=`. fd is `fd` or `fdfind`, and rg and fd are left out where they aren't there.

Each random tree is a fresh repository with an empty index and no settings of the user's (`GIT_CONFIG_GLOBAL` is
`/dev/null`, `XDG_CONFIG_HOME` an empty folder), with rules of every kind at every depth. Four lists are compared:

- the files that `git ls-files --others --exclude-standard -z` lists, and those of `seek --hidden --type f -0`;
- the paths that `git check-ignore --no-index -z` doesn't print, and those of `seek --hidden -0`;
- those of `rg --files --hidden --no-ignore-global -g '!.git' -0`, and those of `seek --hidden --type f -0`;
- those of `fd -H --no-global-ignore-file -E .git -0`, and those of `seek --hidden -0`.

Every second tree is for git alone, which knows no `.ignore`; the others are for rg and fd, and have such files. What rg
and fd read otherwise than git documents is left out there: a tab at a line's end, two slashes, three stars, and classes of
all other bytes. Lists are compared as sets, without names that aren't UTF-8, and each difference is printed with its tree.

With `words` each row of `WORDS` is a call of both programs in a folder with files of known sizes, times and modes, links
and ignore files. What they print is compared as lists without order, without a `./` in front or a slash behind, and
without `.git`, which `seek` leaves out.

The times are of one warm run after another: each turn runs all programs once, and the least of nine turns counts. The
second tree has 20,000 directories and 500 ignore files of 20 patterns; it is made in FOLDER, or in a temporary folder.
"""
import os
import random
import shutil
import subprocess
import sys
import tempfile
import time

TOP = os.path.join(os.path.dirname(os.path.abspath(__file__)), "..")
sys.path.insert(0, os.path.dirname(os.path.abspath(__file__)))
ARGUMENTS = [word for word in sys.argv[1:] if not word.startswith("program=")]
NAMED = [word.partition("=")[2] for word in sys.argv[1:] if word.startswith("program=")]
PROGRAM = os.path.abspath(NAMED[0]) if NAMED else os.path.join(TOP, "crates", "seek", "out", "seek")
FD = shutil.which("fd") or shutil.which("fdfind")
RG = shutil.which("rg")
EMPTY = tempfile.mkdtemp()
ENVIRONMENT = dict(os.environ, GIT_CONFIG_GLOBAL="/dev/null", GIT_CONFIG_SYSTEM="/dev/null", XDG_CONFIG_HOME=EMPTY, LC_ALL="C")
PIECES = ["a", "b", "ab", "*", "?", "**/", "/**", "/", "*.o", "k.o", "sub", "[ab]", "[!a]", ".h", "\\a", "c.?", " x", "é"]
NAMES = ["a", "b", "ab", "c.o", "k.o", ".h", "sub", "a x", "é", "-b"]


def paths(folder, words, zero=True):
    """What a program lists in a folder, as a set, without names that aren't UTF-8."""
    printed = subprocess.run(words, cwd=folder, env=ENVIRONMENT, stdin=subprocess.DEVNULL, capture_output=True).stdout
    found = set()
    for path in printed.split(b"\0" if zero else b"\n"):
        try:
            text = path.decode()
        except UnicodeDecodeError:
            continue
        text = text.removeprefix("./").rstrip("/")
        if text:
            found.add(text)
    return found


def settled(text):
    """Whether git does with a pattern what it documents (see `docs/IGNORE.md`)."""
    literal = len(text) - len(text.lstrip("".join(c for c in set(text) if c not in "*?[\\")))
    behind = text[literal:]
    front = text[:literal].lstrip("/")
    unsettled = "/" in text.removesuffix("/") and behind.startswith("**") and front and not front.endswith("/")
    return not unsettled and "**\\/" not in text


def pattern(rng, wide):
    while True:
        text = "".join(rng.choice(PIECES) for _ in range(rng.randint(1, 3)))
        text += "/" if rng.random() < 0.2 else ""
        if settled(text) and (wide or not any(odd in text for odd in ("//", "***", "[!"))):
            return ("!" if rng.random() < 0.3 else "") + text


def rules(rng, wide):
    lines = [pattern(rng, wide) for _ in range(rng.randint(1, 4))]
    if rng.random() < 0.2:
        lines.insert(rng.randint(0, len(lines)), rng.choice(["", "# a", "\\#", "a "] + ["b\t"] * wide))
    return (("\r\n" if rng.random() < 0.1 else "\n").join(lines) + ("\n" if rng.random() < 0.9 else "")).encode()


def plant(rng, top, own):
    """Makes a tree in a fresh repository. `.ignore` files come too if they are to."""
    subprocess.run(["git", "init", "-q", top], env=ENVIRONMENT, check=True)
    subprocess.run(["git", "-C", top, "config", "core.ignorecase", "false"], env=ENVIRONMENT, check=True)
    if rng.random() < 0.3:
        write(os.path.join(top, ".git", "info", "exclude"), rules(rng, not own))

    def fill(folder, depth):
        if rng.random() < (0.9 if depth == 0 else 0.4):
            write(os.path.join(folder, ".gitignore"), rules(rng, not own))
        if own and rng.random() < 0.3:
            write(os.path.join(folder, ".ignore"), rules(rng, not own))
        for name in rng.sample(NAMES, rng.randint(1, 4)):
            path = os.path.join(folder, name)
            if depth < 4 and rng.random() < 0.5:
                os.mkdir(path)
                fill(path, depth + 1)
            elif rng.random() < 0.1:
                os.symlink(rng.choice(NAMES), path)
            else:
                write(path, b"")

    fill(top, 0)


def write(path, content):
    with open(path, "wb") as file:
        file.write(content)


def all_paths(top):
    """All paths in a folder but `.git`, with whether each is a directory."""
    found = set()
    for folder, dirs, files in os.walk(top):
        if folder == top and ".git" in dirs:
            dirs.remove(".git")
        for name in dirs + files:
            found.add(os.path.relpath(os.path.join(folder, name), top))
    return found


def kept_by_git(top):
    """The paths that git doesn't ignore, and that aren't below one that it ignores."""
    all_of = all_paths(top)
    asked = b"".join(path.encode() + b"\0" for path in all_of)
    answer = subprocess.run(["git", "check-ignore", "--no-index", "-z", "--stdin"], cwd=top, env=ENVIRONMENT, input=asked, capture_output=True)
    return all_of - set(answer.stdout.decode().split("\0"))


def told(what, expected, found):
    """Prints a difference, and returns how many there are."""
    if expected == found:
        return 0
    print(f"{what}: only there {sorted(expected - found)[:5]}, only seek {sorted(found - expected)[:5]}")
    return 1


def beside_git(top):
    files = paths(top, ["git", "ls-files", "--others", "--exclude-standard", "-z"])
    links = {path for path in files if os.path.islink(os.path.join(top, path))}
    count = told("git ls-files", files - links, paths(top, [PROGRAM, "--hidden", "--type", "f", "-0"]))
    return count + told("git check-ignore", kept_by_git(top), paths(top, [PROGRAM, "--hidden", "-0"]))


def beside_others(top):
    count = 0
    if RG:
        listed = paths(top, [RG, "--files", "--hidden", "--no-ignore-global", "-g", "!.git", "-0"])
        count += told("rg", listed, paths(top, [PROGRAM, "--hidden", "--type", "f", "-0"]))
    if FD:
        listed = paths(top, [FD, "-H", "--no-global-ignore-file", "-E", ".git", "-0"])
        count += told("fd", listed, paths(top, [PROGRAM, "--hidden", "-0"]))
    return count


def show(top):
    """Prints a tree."""
    for folder, dirs, files in os.walk(top):
        if ".git" in dirs and folder != top:
            dirs.remove(".git")
        for name in sorted(dirs + files):
            path = os.path.join(folder, name)
            below = os.path.relpath(path, top)
            if name in (".gitignore", ".ignore") or below == ".git/info/exclude":
                with open(path, "rb") as file:
                    print(f"    {below} = {file.read()!r}")
            elif not below.startswith(".git/") and below != ".git":
                print(f"    {below}" + ("/" if os.path.isdir(path) and not os.path.islink(path) else ""))


def trees(count, seed):
    print(f"seed {seed}, {count} trees")
    differences = 0
    for number in range(count):
        rng = random.Random(f"{seed} {number}")
        own = number % 2 == 1
        with tempfile.TemporaryDirectory() as folder:
            top = os.path.join(folder, "r")
            plant(rng, top, own)
            wrong = beside_others(top) if own else beside_git(top)
            if wrong:
                print(f"tree {number} of seed {seed}:")
                show(top)
            differences += wrong
    print(f"{differences} differences")
    return 1 if differences else 0


def beside(folders):
    differences = 0
    for folder in folders:
        print(folder)
        if os.path.exists(os.path.join(folder, ".git")):
            listed = paths(folder, ["git", "ls-files", "--others", "--exclude-standard", "-z"])
            tracked = paths(folder, ["git", "ls-files", "-z"])
            found = paths(folder, [PROGRAM, "--hidden", "--type", "f", "-0"])
            links = {path for path in listed if os.path.islink(os.path.join(folder, path))}
            differences += told("git ls-files, untracked", listed - links, found - tracked)
        differences += beside_others(folder)
    print(f"{differences} differences")
    return 1 if differences else 0


# Words that mean the same in both programs.
WORDS = [
    *[[pattern] for pattern in ["a.foo", "foo", "^b", "C", "c", "xyz", "two", r"\.rs$", "[ab]"]],
    *[["-g", glob] for glob in ["*.foo", "*.{foo,rs}", "{a,b}.foo", "[ac].foo", "C*"]],
    *[["-F", text] for text in [".foo", "a.", "*"]],
    *[[word, "FOO"] for word in ["-i", "-s", "-is", "-si"]],
    *[["-e", text] for text in ["foo", ".foo", "rs", "FOO"]],
    *[["-t", kind] for kind in ["f", "d", "l", "x", "p", "e", "file", "directory", "symlink", "executable", "pipe", "empty"]],
    *[["-te", *words] for words in [["-tf"], ["-td"], ["-tl"], ["-tp"], ["-tx"], ["-H"], ["-L"], ["-I"], ["--prune"], ["-1", "three"], ["-q", "a.foo"], ["-q", "x"]]],
    *[["-t", "f", "-t", "l"], ["-p", "one/two"], ["foo", "--and", "a"]],
    *[[f"-S{size}"] for size in ["+1k", "-1k", "1k", "+1ki", "-2ki", "10b", "+0b"]],
    *[[f"--changed-within={time}"] for time in ["1h", "2weeks", "2020-01-01 00:00:00"]],
    *[[f"--changed-before={time}"] for time in ["1h", "2weeks", "2020-01-01 00:00:00"]],
    ["--newer", "1h"], ["--change-newer-than", "1h"], ["--change-older-than", "1h"],
    *[[f"--owner={owner}"] for owner in [f"{os.getuid()}", f"!{os.getuid()}", f":{os.getgid()}", f"{os.getuid()}:!{os.getgid()}"]],
    *[[word] for word in ["-H", "-I", "-u", "-HI", "-L", "-a", "-0", "--no-ignore-vcs", "--no-ignore-parent", "--one-file-system"]],
    ["--ignore-file=.given"], ["-H", "--ignore-file=.given"], ["--ignore-file=.given", "foo", "one"], ["--ignore-file=.given", "--ignore-file=.kept"],
    *[[word, "--ignore-file=.given"] for word in ["-I", "-u"]], ["-I", "--ignore-file=.given", "foo", "one"], ["-I", "--ignore-file=.given", "--ignore-file=.kept"],
    *[[*words, "foo"] for words in [["--ignore-file=nowhere"], ["-I", "--ignore-file=nowhere"], ["--ignore-file=one"]]],
    *[["-S", "-1k"], ["--size", "-1ki", "-S", "+1k"], ["-HS", "-10b"], ["-g", "--regex", "o$"]],
    *[["--path-separator", text, "-t", "f"] for text in ["#", "::", ""]], ["--path-separator=#", "--color=always", "b.foo"],
    *[["--base-directory", "one", *words] for words in [["foo"], ["foo", "two"], ["-a", "foo"], ["-p", "one/two"], ["foo", "../one"]]],
    ["--base-directory", "nowhere", "foo"],
    *[[*words, "foo"] for words in [["-H", "--no-hidden"], ["--no-hidden", "-H"], ["-I", "--ignore"], ["--ignore", "-I"], ["-L", "--no-follow"], ["--no-follow", "-L"]]],
    *[[*words, "foo"] for words in [["--no-ignore-vcs", "--ignore-vcs"], ["-a", "--relative-path"], ["--relative-path", "-a"], ["-HI", "--no-hidden"], ["--no-hidden", "-u"]]],
    ["-H", "--no-ignore-vcs"], ["-L", "-t", "l"], ["-L", "-t", "d"], ["-a", "foo"], ["--strip-cwd-prefix", "foo"],
    *[[word] for word in ["-d1", "-d2", "--max-depth=3", "--maxdepth=1", "--min-depth=2", "--exact-depth=2"]],
    *[["-E", line] for line in ["*.foo", "two", "*.{foo,rs}"]],
    *[["--prune", pattern] for pattern in ["two", "o", "."]],
    *[["--max-results=0", "foo"], ["-1", "a.foo"], ["-q", "foo"], ["-q", "xyz"], ["--has-results", "foo"]],
    *[["foo", "one"], ["foo", "one", "link"], ["--search-path", "one", "foo"], ["foo", "one/../one/two"], [".", "nowhere"]],
    *[["--color=always", pattern] for pattern in ["a.foo", "b.foo", "x$", "xyz"]], ["--color=never", "foo"],
]


def grow(top):
    """Makes the tree of `words`, in a repository."""
    os.makedirs(os.path.join(top, "one", "two", "three"))
    os.makedirs(os.path.join(top, "one", "none"))
    os.makedirs(os.path.join(top, "one", "within", "none"))
    os.mkdir(os.path.join(top, ".git"))
    sizes = {"a.foo": 10, "one/b.foo": 1000, "one/two/c.foo": 1024, "one/two/C.Foo2": 5000, "one/two/three/d.rs": 0}
    for name in ["ignored-by-fd", "ignored-by-git", ".hidden.foo", "one/x", "one/old.foo", "spaces in it"]:
        sizes[name] = 0
    for name, size in sizes.items():
        write(os.path.join(top, name), b"#" * size)
    write(os.path.join(top, ".fdignore"), b"ignored-by-fd\n")
    write(os.path.join(top, ".gitignore"), b"ignored-by-git\n")
    write(os.path.join(top, ".given"), b"/one/two\n*.foo\n")
    write(os.path.join(top, ".kept"), b"!a.foo\n")
    os.chmod(os.path.join(top, "one", "x"), 0o755)
    os.utime(os.path.join(top, "one", "old.foo"), (1_500_000_000, 1_500_000_000))
    os.mkfifo(os.path.join(top, "one", "pipe"))
    os.symlink("one/two", os.path.join(top, "link"))
    os.symlink("nowhere", os.path.join(top, "one", "broken"))


def settled_lines(printed):
    """The printed paths, in an order of their own, without a `./` in front, or a slash behind in its own color."""
    text = printed.decode(errors="replace").replace("\0", "\n").replace("\x1b[34m/\x1b[0m", "")
    lines = (line.removeprefix("./").rstrip("/") for line in text.split("\n") if line)
    return sorted(line for line in lines if line != ".git")


def words():
    if not FD:
        sys.exit("there is no fd here")
    environment = dict(ENVIRONMENT, LS_COLORS="di=34:ln=36:ex=32:*.foo=31")
    differences = 0
    with tempfile.TemporaryDirectory() as folder:
        grow(folder)
        for row in WORDS:
            calls = [[FD, "--no-global-ignore-file", *row], [PROGRAM, *row]]
            said = [subprocess.run(call, cwd=folder, env=environment, stdin=subprocess.DEVNULL, capture_output=True) for call in calls]
            one, other = [(settled_lines(it.stdout), it.returncode == 0) for it in said]
            if one != other:
                differences += 1
                print(f"{' '.join(row)}: fd {one}, seek {other}")
    print(f"{differences} of {len(WORDS)} calls differ")
    return 1 if differences else 0


def large(folder):
    """20,000 directories, each with two files, and 500 ignore files of 20 patterns."""
    top = os.path.join(folder, "large")
    if os.path.exists(top):
        return top
    rng = random.Random("large")
    os.makedirs(top)
    subprocess.run(["git", "init", "-q", top], env=ENVIRONMENT, check=True)
    for number in range(20000):
        path = os.path.join(top, f"d{number // 400:02d}", f"e{number // 20 % 20:02d}", f"f{number % 20:02d}")
        os.makedirs(path)
        for name in ("one.c", "two.o"):
            write(os.path.join(path, name), b"")
        if number % 40 == 0:
            lines = [f"{rng.choice(['*.', 'x', '/y', '**/z', 'q*'])}{rng.randint(0, 999)}" for _ in range(19)] + ["*.o"]
            write(os.path.join(path, ".gitignore"), "\n".join(lines).encode() + b"\n")
    return top


def least_times(rows, turns=9):
    """The least time of each of these calls, which take turns."""
    least = [float("inf")] * len(rows)
    for _ in range(turns):
        for index, words in enumerate(rows):
            start = time.monotonic()
            subprocess.run(words, env=ENVIRONMENT, stdin=subprocess.DEVNULL, stdout=subprocess.DEVNULL, stderr=subprocess.DEVNULL)
            least[index] = min(least[index], time.monotonic() - start)
    return least


def speed(folder):
    top = large(folder)
    fd = [FD] if FD else ["fd"]
    tables = [
        ("/usr without ignore files, 4 threads", [[PROGRAM, "-HI", "-j4", ".", "/usr"], fd + ["-HI", "-j4", ".", "/usr"], ["find", "/usr"]]),
        ("/usr without ignore files, by a name", [[PROGRAM, "-HI", "-j4", "lib.*so", "/usr"], fd + ["-HI", "-j4", "lib.*so", "/usr"], ["find", "/usr", "-regex", ".*/[^/]*lib[^/]*so[^/]*"]]),
        ("20,000 directories with ignore files, 4 threads", [[PROGRAM, "-j4", ".", top], fd + ["-j4", ".", top], ["find", top]]),
        ("/usr without ignore files, one thread", [[PROGRAM, "-HI", "-j1", ".", "/usr"], fd + ["-HI", "-j1", ".", "/usr"], ["find", "/usr"]]),
        ("/usr by size, 4 threads", [[PROGRAM, "-j4", "-S", "+1M", ".", "/usr"], fd + ["-j4", "-S", "+1M", ".", "/usr"], ["find", "/usr", "-type", "f", "-size", "+999999c"]]),
        ("/usr by size without ignore files, 4 threads", [[PROGRAM, "-HI", "-j4", "-S", "+1M", ".", "/usr"], fd + ["-HI", "-j4", "-S", "+1M", ".", "/usr"], ["find", "/usr", "-type", "f", "-size", "+999999c"]]),
        ("/usr by size, one thread", [[PROGRAM, "-HI", "-j1", "-S", "+1M", ".", "/usr"], fd + ["-HI", "-j1", "-S", "+1M", ".", "/usr"], ["find", "/usr", "-type", "f", "-size", "+999999c"]]),
        ("/usr by time without ignore files, 4 threads", [[PROGRAM, "-HI", "-j4", "--changed-within", "1d", ".", "/usr"], fd + ["-HI", "-j4", "--changed-within", "1d", ".", "/usr"], ["find", "/usr", "-mtime", "-1"]]),
        ("/usr by time, 4 threads", [[PROGRAM, "-j4", "--changed-within", "1d", ".", "/usr"], fd + ["-j4", "--changed-within", "1d", ".", "/usr"], ["find", "/usr", "-mtime", "-1"]]),
    ]
    for name, rows in tables:
        rows = [words for words in rows if shutil.which(words[0])]
        times = least_times(rows)
        print(name)
        for words, passed in zip(rows, times):
            print(f"  {passed * 1000:6.0f} ms  {times[0] / passed:4.2f}  {os.path.basename(words[0])} {' '.join(words[1:])}")


def main():
    match ARGUMENTS:
        case ["trees", count, seed]:
            sys.exit(trees(int(count), seed))
        case ["beside", *folders]:
            sys.exit(beside(folders))
        case ["words"]:
            sys.exit(words())
        case ["speed"]:
            with tempfile.TemporaryDirectory() as folder:
                speed(folder)
        case ["speed", folder]:
            speed(folder)
        case _:
            sys.exit(__doc__)


main()
