#!/usr/bin/env python3
"""Runs the program `walk` on what the tests can't make everywhere: a directory without permissions, as a user to whom
that is denied, and names that are no UTF-8.

    python3 bench/nobody.py [PROGRAM]

Build the program first: (cd crates/walk && rt run). Run by root, the walks are made as the user nobody; else as the user
who runs this. Each row is a folder, the words of a call, and the lines and the status that must come, with `/t` for the
folder. The status is 0 where all rows are as they must be, and else 1.
"""
import os
import shutil
import subprocess
import sys
import tempfile

PROGRAM = os.path.join(os.path.dirname(os.path.abspath(__file__)), "..", "crates", "walk", "out", "walk")

NOBODY = 65534


def closed(folder):
    """A directory without permissions among others."""
    for name in (b"/a", b"/closed", b"/z"):
        os.mkdir(folder + name)
        open(folder + name + b"/x", "wb").close()
    os.chmod(folder + b"/closed", 0)


def locked(folder):
    """A directory whose names may be read, and in which nothing may be looked at."""
    closed(folder)
    os.chmod(folder + b"/closed", 0o400)


def itself_closed(folder):
    """A folder that is itself without permissions."""
    os.chmod(folder, 0)


def no_texts(folder):
    """Names that are no UTF-8 among others, of a file and of a directory that holds something."""
    os.mkdir(folder + b"/d")
    os.mkdir(folder + b"/\xff")
    for name in (b"/a", b"/b\xe9", b"/d/c\xc3", b"/d/y", b"/\xff/x", b"/z"):
        open(folder + name, "wb").close()


# what makes the folder, the words, the lines in order and the status
ROWS = [
    (closed, [], "0 d /t; 1 d /t/a; 2 f /t/a/x; 1 d /t/closed ! PermissionDenied; 1 d /t/z; 2 f /t/z/x", 0),
    (locked, [], "0 d /t; 1 d /t/a; 2 f /t/a/x; 1 d /t/closed; ! 2 /t/closed/x PermissionDenied; 1 d /t/z; 2 f /t/z/x", 1),
    (itself_closed, [], "0 d /t ! PermissionDenied", 0),
    (no_texts, [], "0 d /t; 1 f /t/a; 1 d /t/d; 2 f /t/d/y; ! 2 - Other; 1 f /t/z; ! 1 - Other; ! 1 - Other", 1),
]


def hand_over(folder):
    """Gives a folder and all that it holds to nobody, where root runs this."""
    if os.geteuid() == 0:
        for at, folders, files in os.walk(folder):
            for path in [at, *(os.path.join(at, name) for name in folders + files)]:
                os.chown(path, NOBODY, NOBODY)


def walk(program, words, folder):
    """The lines of a walk by name, parted by `; `, with `/t` for the folder, and its status."""
    user = {"user": NOBODY, "group": NOBODY, "extra_groups": []} if os.geteuid() == 0 else {}
    words = [program, "--sort", *words, folder]
    ran = subprocess.run(words, stdin=subprocess.DEVNULL, stdout=subprocess.PIPE, stderr=subprocess.PIPE, **user)
    if ran.stderr:
        sys.exit(f"the program said on standard error: {ran.stderr.decode(errors='replace')}")
    lines = ran.stdout.replace(folder, b"/t").decode().splitlines()
    return "; ".join(lines), ran.returncode


def is_well(room, program, row):
    """Whether a row is as it must be."""
    make, words, lines, status = row
    folder = os.path.join(room, make.__name__).encode()
    os.mkdir(folder)
    make(folder)
    hand_over(folder)
    found = walk(program, words, folder)
    print(f"{make.__name__:<14}{'as it must be' if found == (lines, status) else 'WRONG'}")
    if found != (lines, status):
        print(f"  came: {found}\n  must: {(lines, status)}")
    return found == (lines, status)


def remove(room):
    """Removes all folders, whatever their permissions are."""
    for at, folders, _ in os.walk(room):
        for name in folders:
            os.chmod(os.path.join(at, name), 0o700)
    shutil.rmtree(room)


def main():
    room = tempfile.mkdtemp(prefix="walk-nobody-")
    try:
        os.chmod(room, 0o711)
        program = shutil.copy(sys.argv[1] if len(sys.argv) > 1 else PROGRAM, room)
        os.chmod(program, 0o755)
        return 0 if all([is_well(room, program, row) for row in ROWS]) else 1
    finally:
        remove(room)


sys.exit(main())
