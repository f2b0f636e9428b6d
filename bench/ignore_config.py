#!/usr/bin/env python3
"""What `seek` leaves out by texts of git's configuration, beside `git check-ignore`.

    python3 bench/ignore.py config [PROGRAM]

PROGRAM is crates/seek/out/seek where none is given, so run `rt run` in crates/seek first. Each text is tried as
`~/.gitconfig`, as `git/config` in the folder of configurations, as a repository's own configuration, as that of a
repository whose worktree is searched, as a file that `~/.gitconfig` includes, and as `~/.gitconfig` outside any repository.
Where git refuses a configuration, `seek` is to name the same file and line; outside of repositories it is to leave out
nothing, without an error. Texts in which git 2.39 differs from what it documents (it makes a space of a tab in a value)
aren't tried.
"""
import os
import re
import shutil
import subprocess
import sys
import tempfile

TOP = os.path.dirname(os.path.dirname(os.path.abspath(__file__)))
PROGRAM = f"{TOP}/crates/seek/out/seek"
NAMES = ["a.o", "b.c", "d.x"]
CORE = b"[core]\n"
SET = b"\texcludesFile = ~/o\n"

TEXTS = [
    b"",
    b"\n\n",
    CORE + SET,
    CORE + b"excludesfile=~/o",
    b"[core]excludesFile = ~/o\n",
    b"[core] excludesFile = ~/o",
    b"[CORE]\nEXCLUDESFILE = ~/o\n",
    b"\xef\xbb\xbf" + CORE + SET,
    b"\xef\xbb" + CORE + SET,
    CORE + b"\xef\xbb\xbf" + SET,
    b"# a\n; b\n  # c\n" + CORE + SET,
    b"[core] # a\n" + SET,
    b"[core] ; a\n" + SET,
    CORE + b"excludesFile = ~/o # a\n",
    CORE + b"excludesFile = ~/o;a\n",
    CORE + b"excludesFile = \"~/o\"\n",
    CORE + b"excludesFile = \"~/o\" # a\n",
    CORE + b"excludesFile = \"~/o#1\"\n",
    CORE + b"excludesFile = ~\"/\"o\"\"\n",
    CORE + b"excludesFile = \"\"~/o\n",
    CORE + b"excludesFile = \"\" ~/o\n",
    CORE + b"excludesFile = ~/o\"#1\"\n",
    CORE + b"excludesFile = ~/with  spaces  \n",
    CORE + b"excludesFile = \"~/end \"\n",
    CORE + b"excludesFile = ~/end\" \"  # a\n",
    CORE + b"excludesFile = ~/end \\\n",
    CORE + b"excludesFile = ~/\\\no\n",
    CORE + b"excludesFile = ~/\\\n  o\n",
    CORE + b"excludesFile = \"~/\\\no\"\n",
    CORE + b"excludesFile = \\\n~/o\n",
    CORE + b"excludesFile = ~/o \\",
    CORE + b"excludesFile = ~/o # a \\\nx = 1\n",
    CORE + b"excludesFile = \"~/quote\\\"\"\n",
    CORE + b"excludesFile = ~/back\\\\\n",
    CORE + b"excludesFile = ~/tab\\t\n",
    CORE + b"excludesFile = ~/line\\n\n",
    CORE + b"excludesFile = ~/bell\\b\n",
    CORE + b"excludesFile = ~/o\\a\n",
    CORE + b"excludesFile = ~/vt\x0b\n",
    CORE + b"\x0bexcludesFile = ~/o\n",
    CORE + b"\x0c\n" + SET,
    CORE + b"\texcludesFile \t = \t ~/o \t \n",
    b"[core]\r\n\texcludesFile = ~/o\r\n",
    b"[core]\r\n\texcludesFile = ~/\\\r\no\r\n",
    CORE + b"excludesFile = ~/o\r",
    CORE + b"excludesFile\r\n",
    CORE + b"excludesFile\r = ~/o\n",
    CORE + b"excludesFile\n",
    CORE + b"excludesFile",
    CORE + b"excludesFile # a\n",
    CORE + b"excludesFile\n" + SET,
    CORE + SET + b"excludesFile = ~/c\n",
    CORE + SET + b"excludesFile =\n",
    CORE + b"excludesFile = \"\"\n",
    CORE + SET + b"[user]\nexcludesFile = ~/c\n",
    b"[core] [user] excludesFile = ~/o\n",
    b"[user] [core] excludesFile = ~/o\n",
    b"[core \"x\"]\n" + SET,
    b"[core \"\"]\n" + SET,
    b"[core.x]\n" + SET,
    b"[core.x]\nx = 1\n" + CORE + SET,
    b"[core \"a\\\"]\\\\\"]\nx = 1\n" + CORE + SET,
    b"excludesFile = ~/o\n",
    b"[core]\nexcludesFile ~/o\n",
    b"[core]\nexcludes_File = ~/o\n",
    b"[core]\n-x = 1\n" + SET,
    b"[core]\n1x = 1\n" + SET,
    b"[core]\nx-1 = 1\n" + SET,
    b"[core\n]\n" + SET,
    b"[core",
    b"[core \"x",
    b"[core \"x\"",
    b"[core \"x\"\n",
    b"[core \"x\" ]\n" + SET,
    b"[core x]\n" + SET,
    b"[ core]\n" + SET,
    b"[core ]\n" + SET,
    b"[]\n" + SET,
    b"[.]\n" + SET,
    b"[-core]\n" + CORE + SET,
    b"[co_re]\n" + CORE + SET,
    CORE + SET + b"]\n",
    CORE + SET + b"\n\n= 1\n",
    CORE + b"excludesFile = \"~/o\n" + b"\"\n",
    CORE + b"excludesFile = \"~/o",
    CORE + b"excludesFile = \"~/o\\",
    CORE + b"excludesFile = ~/none\n",
    b"# caf\xe9\n" + CORE + SET,
    b"[include]\npath = more\n",
    CORE + SET + b"[include]\npath = more\n",
    b"[include]\npath = more\n" + CORE + SET,
    b"[include]\npath = ~/more\n",
    b"[Include]\nPath = \"~/more\" # a\n",
    b"[include \"x\"]\npath = more\n",
    b"[include]\npath = none\n" + CORE + SET,
    b"[include]\npath\n" + CORE + SET,
    b"[include]\npath = bad\n" + CORE + SET,
    b"[include]\npath = loop\n" + CORE + SET,
    b"[include]\npath = deep1\n",
    b"[include]\npath = deep0\n",
]

EXCLUDES = {"o": "*.o", "c": "*.c", "o#1": "*.x", "with  spaces": "*.o", "end ": "*.o", 'quote"': "*.o", "back\\": "*.o",
            "tab\t": "*.o", "line\n": "*.o", "bell\b": "*.o", "vt\x0b": "*.o", "vt": "*.c", "end": "*.c", "o\r": "*.c"}


def write(path, data):
    os.makedirs(os.path.dirname(path), exist_ok=True)
    with open(path, "wb") as file:
        file.write(data)


def beside(folder):
    """The files that configurations in a folder include: two settings, a bad line, and ones that include others."""
    write(f"{folder}/more", b"[core]\nexcludesFile = ~/c\n")
    write(f"{folder}/bad", b"[core]\n\nx y\n")
    write(f"{folder}/loop", b"[include]\npath = loop\n")
    for number in range(10):
        write(f"{folder}/deep{number}", b"[include]\npath = deep%d\n" % (number + 1))
    write(f"{folder}/deep10", b"[core]\nexcludesFile = ~/c\n")


def git(folder, home, *words):
    environment = {"PATH": os.environ["PATH"], "HOME": home, "GIT_CONFIG_NOSYSTEM": "1", "LC_ALL": "C"}
    return subprocess.run(["git", *words], cwd=folder, env=environment, capture_output=True)


def repository(top, home):
    """A repository with a worktree, before any text is its configuration."""
    main = f"{top}/main"
    os.mkdir(main)
    git(main, home, "init", "-q", ".")
    git(main, home, "-c", "user.name=n", "-c", "user.email=e", "commit", "-q", "--allow-empty", "-m", "m")
    git(main, home, "worktree", "add", "-q", f"{top}/tree")
    for folder in [main, f"{top}/tree", f"{top}/plain"]:
        for name in NAMES:
            write(f"{folder}/{name}", b"")


def set_up(top, kind, text):
    """Writes the text as this kind of configuration, and returns the folder that is searched."""
    home = f"{top}/home"
    os.mkdir(home)
    for name, line in EXCLUDES.items():
        write(f"{home}/{name}", line.encode() + b"\n")
    repository(top, home)
    own = f"{top}/main/.git/config"
    place = {"user": f"{home}/.gitconfig", "xdg": f"{home}/.config/git/config", "repository": own, "worktree": own,
             "included": f"{home}/below/text", "none": f"{home}/.gitconfig"}[kind]
    if kind == "included":
        write(f"{home}/.gitconfig", b"[include]\npath = below/text\n")
    beside(os.path.dirname(place))
    beside(home)
    write(place, text)
    return f"{top}/" + {"worktree": "tree", "none": "plain"}.get(kind, "main")


def git_says(folder, home):
    """The names that git ignores, or the file and the line that it refuses."""
    done = git(folder, home, "check-ignore", *NAMES)
    if done.returncode < 2:
        return done.stdout.decode().split()
    said = done.stderr.decode(errors="replace")
    for form, what in [(r"bad config line (\d+) in file (.*)", "line"), (r"variable '[^']*' in file '(.*)' at line (\d+)", "unset")]:
        if found := re.search(form, said):
            first, second = found.groups()
            return (what, second, first) if what == "line" else (what, first, second)
    if "include depth" in said:
        return ("deep",)
    return ("other", said)


def seek_says(program, folder, home):
    """The same of the program."""
    environment = {"HOME": home, "PATH": os.environ["PATH"], "XDG_CONFIG_HOME": "", "NO_COLOR": "1"}
    done = subprocess.run([program, "."], cwd=folder, env=environment, capture_output=True)
    said = done.stderr.decode(errors="replace")
    if found := re.search(r"([^ ]*): bad config line (\d+)$", said, re.M):
        return ("line", *found.groups())
    if found := re.search(r"([^ ]*): missing value on line (\d+)$", said, re.M):
        return ("unset", *found.groups())
    if "included too deep" in said:
        return ("deep",)
    if done.returncode or said:
        return ("other", said)
    left = done.stdout.decode().split()
    return [name for name in NAMES if name not in left]


def same_file(folder, said):
    """What was said, with the file's path as it is from the root of the disk."""
    if isinstance(said, tuple) and len(said) == 3 and said[0] != "other":
        return (said[0], os.path.realpath(os.path.join(folder, said[1])), said[2])
    return said


def differs(program, kind, text):
    """Git's answer and the program's, if they differ."""
    top = os.path.realpath(tempfile.mkdtemp(prefix="c"))
    try:
        folder, home = set_up(top, kind, text), f"{top}/home"
        wanted = [] if kind == "none" else same_file(folder, git_says(folder, home))
        found = same_file(folder, seek_says(program, folder, home))
        return None if wanted == found else (wanted, found)
    finally:
        shutil.rmtree(top)


def main(words):
    program = os.path.abspath(words[0]) if words else PROGRAM
    count = 0
    for kind in ["user", "xdg", "repository", "worktree", "included", "none"]:
        for text in TEXTS:
            if said := differs(program, kind, text):
                count += 1
                print(f"{kind}: {text!r}: git {said[0]}, seek {said[1]}")
    print(f"{len(TEXTS)} texts in 6 ways: {count} differ")
    return 1 if count else 0


if __name__ == "__main__":
    sys.exit(main(sys.argv[1:]))
