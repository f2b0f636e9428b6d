#!/usr/bin/env python3
"""Tries copy_into.sh on a small library that stands in for this one: a first copy, an update, files that a user changed,
a copy without a list, the licence and HANDLES, and what processor time a thousand files take.

    python3 bench/copies.py
"""
import os
import resource
import shutil
import subprocess
import sys
import tempfile

TOP = os.path.dirname(os.path.dirname(os.path.abspath(__file__)))
LINES = "below:\nabove: jwalk\njwalk: below\njwalk_contents_first: below\njwalk_usage: jwalk\njwalk_subtotals: jwalk_usage\njwalk_ignore: jwalk\n"
LIST = "crates/jwalk/copied.sha256"
LICENCE = "crates/LICENSE-jwalk"
HANDLES = "Handles allowed: Threads, Wait.\n"
# The processor seconds that a first copy and an update of a thousand files may take.
FIRST, UPDATE = 2, 3


def write(path, text):
    os.makedirs(os.path.dirname(path), exist_ok=True)
    with open(path, "w") as file:
        file.write(text)


def read(path):
    with open(path) as file:
        return file.read()


def make_library(folder):
    """A library of five crates, and a crate that isn't part of it."""
    shutil.copy(f"{TOP}/copy_into.sh", folder)
    write(f"{folder}/crates.txt", LINES)
    write(f"{folder}/LICENSE", "permission\n")
    write(f"{folder}/HANDLES", HANDLES)
    for name in ["below", "jwalk", "jwalk_contents_first", "jwalk_usage", "jwalk_subtotals", "jwalk_ignore", "above"]:
        write(f"{folder}/crates/{name}/src/lib.rt", f"//! {name}\n")
    write(f"{folder}/crates/jwalk/must-fail/a.edit", "wrong\n")
    write(f"{folder}/crates/jwalk/specs/Old.antt", "old\n")
    write(f"{folder}/crates/jwalk/out/kept", "proved\n")


def change_library(folder):
    """One file and the licence change, one file comes and one goes."""
    write(f"{folder}/LICENSE", "more permission\n")
    write(f"{folder}/crates/below/src/lib.rt", "//! below, newer\n")
    write(f"{folder}/crates/below/src/more.rt", "//! more\n")
    os.remove(f"{folder}/crates/jwalk/specs/Old.antt")
    write(f"{folder}/crates/jwalk/out/kept", "proved again\n")


def copy(library, *words):
    """Runs the script, and returns its status and what it wrote on standard error."""
    ran = subprocess.run(["bash", f"{library}/copy_into.sh", *words], capture_output=True, text=True)
    return ran.returncode, ran.stderr


def files_of(folder):
    """The text of each file below a folder."""
    found = {}
    for at, _, names in os.walk(folder):
        for name in names:
            path = os.path.join(at, name)
            found[os.path.relpath(path, folder)] = read(path)
    return found


def check(what, holds):
    if not holds:
        sys.exit(f"copy_into.sh: {what}: no")


def first_copy(library, user):
    check("a first copy ends with 0", copy(library, user)[0] == 0)
    found = files_of(user)
    check("it has the library and what that uses", "crates/below/src/lib.rt" in found and "crates/above/src/lib.rt" not in found)
    check("it has no wrong bodies", not any("must-fail" in path for path in found))
    check("it has what was proved", found["crates/jwalk/out/kept"] == "proved\n")
    check("it has the licence", found[LICENCE] == "permission\n")
    check("it has the line of handles", found["HANDLES"] == HANDLES)
    listed = [line.split("  ")[1] for line in found[LIST].splitlines()]
    check("all other files are listed", sorted(listed) == sorted(set(found) - {LIST, "HANDLES", "crates/jwalk/out/kept"}))
    sums = subprocess.run(["sha256sum", "-c", "--quiet", LIST], cwd=user)
    check("with their sums", sums.returncode == 0)
    status, said = copy(library, user)
    check("a second one is refused", status == 1 and "is there already" in said and files_of(user) == found)


def update(library, user):
    check("an update ends with 0", copy(library, "--update", user)[0] == 0)
    found = files_of(user)
    check("it replaces files", found["crates/below/src/lib.rt"] == "//! below, newer\n")
    check("it adds files", found["crates/below/src/more.rt"] == "//! more\n")
    check("it takes files away, and folders that are empty", not os.path.exists(f"{user}/crates/jwalk/specs"))
    check("it brings what was proved", found["crates/jwalk/out/kept"] == "proved again\n")
    check("it brings the licence", found[LICENCE] == "more permission\n")
    check("a second one changes nothing", copy(library, "--update", user)[0] == 0 and files_of(user) == found)


def update_changed(library, user):
    """Four files are the user's: two that are newer here, one that went, and one that came."""
    mine = ["crates/below/src/lib.rt", LICENCE, "crates/jwalk/specs/Old.antt", "crates/below/src/more.rt"]
    for path in mine:
        write(f"{user}/{path}", "mine\n")
    for _ in range(2):
        status, said = copy(library, "--update", user)
        found = files_of(user)
        check("changed files give 1", status == 1)
        for path in mine:
            check(f"{path} is left and named", found[path] == "mine\n" and f"{path} was changed" in said)


def update_unlisted(library, user):
    os.remove(f"{user}/{LIST}")
    found = files_of(user)
    status, said = copy(library, "--update", user)
    check("without a list nothing is changed", status == 1 and LIST in said and files_of(user) == found)


def handles(library, room):
    """What is said of a HANDLES that is there, which is left as it is."""
    for at, (line, wanted) in enumerate(
        [
            ("Handles allowed: Threads, Wait, Net.\n", ""),
            ("Handles allowed: none.\n", "Handles allowed: Threads, Wait."),
            ("Handles allowed: Wait, Processes.\n", "Handles allowed: Threads, Wait, Processes."),
        ]
    ):
        user = f"{room}/handles{at}"
        write(f"{user}/HANDLES", line)
        status, said = copy(library, user)
        check("a copy beside other handles ends with 0", status == 0 and read(f"{user}/HANDLES") == line)
        check(f"beside {line.strip()!r} it says {wanted!r}", wanted in said and ("HANDLES" in said) == bool(wanted))


def seconds(library, *words):
    """What a call takes of the processors."""
    before = resource.getrusage(resource.RUSAGE_CHILDREN)
    check(f"{' '.join(words)} ends with 0", copy(library, *words)[0] == 0)
    after = resource.getrusage(resource.RUSAGE_CHILDREN)
    return after.ru_utime + after.ru_stime - before.ru_utime - before.ru_stime


def times(library, user):
    """No process is started for each file: a thousand would take more."""
    os.mkdir(user)
    for at in range(1000):
        write(f"{library}/crates/below/specs/Number{at}.antt", f"{at}\n")
    check(f"a first copy of 1,000 files takes {FIRST} seconds", seconds(library, user) <= FIRST)
    for at in range(0, 1000, 2):
        write(f"{library}/crates/below/specs/Number{at}.antt", f"{at + 1}\n")
    check(f"an update of 1,000 files takes {UPDATE} seconds", seconds(library, "--update", user) <= UPDATE)
    check("it replaces each that changed", read(f"{user}/crates/below/specs/Number998.antt") == "999\n")


def main():
    with tempfile.TemporaryDirectory() as room:
        library, user, other = (f"{room}/{name}" for name in ["library", "user", "other"])
        for folder in [library, user, other]:
            os.mkdir(folder)
        make_library(library)
        first_copy(library, user)
        check("another first copy ends with 0", copy(library, other)[0] == 0)
        change_library(library)
        update(library, user)
        update_changed(library, other)
        update_unlisted(library, user)
        handles(library, room)
        times(library, f"{room}/large")
    print("copy_into.sh: first copies, updates, changed files, licence, handles and times are as they should be")


if __name__ == "__main__":
    main()
