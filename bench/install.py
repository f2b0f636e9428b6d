#!/usr/bin/env python3
"""Tries install.sh with programs that stand in for the built ones: where they are built, where they are to be built,
where nothing is installed, and where one prints something else. In each shell that is on this machine it types words of
each program whose values are files, folders or a few words, and looks for these among what is offered.

    python3 bench/install.py
"""
import itertools
import os
import pty
import select
import shutil
import subprocess
import sys
import tempfile

import man

TOP = os.path.dirname(os.path.dirname(os.path.abspath(__file__)))

# A program that prints what --check wants, and a toolchain that builds it.
STAND_IN = '#!/bin/sh\nif [ "$1" = --tree ]; then echo "0 d /"; else echo "$(basename "$0") 1.0"; fi\n'
# What --check writes of a program, if it isn't its version.
CALLS = {"walk": "walk --tree /: 0 d /"}
BUILDS = '#!/bin/sh\nname=$(basename "$PWD")\nmkdir -p out\ncp "$STAND_IN" "out/$name"\n'

# What bash shows where it waits for a line.
PROMPT = "bash waits: "


def check(what, holds):
    if not holds:
        sys.exit(f"install.sh: {what}: no")


def write(path, text, mode=0o755):
    os.makedirs(os.path.dirname(path), exist_ok=True)
    with open(path, "w") as file:
        file.write(text)
    os.chmod(path, mode)


def read(path):
    with open(path) as file:
        return file.read()


def run(top, *words, **variables):
    """Runs the script, and returns its status and what it wrote."""
    environment = {**os.environ, **variables}
    ran = subprocess.run([f"{top}/install.sh", *words], capture_output=True, text=True, env=environment)
    return ran.returncode, ran.stdout + ran.stderr


def names():
    return sorted(it[:-2] for it in os.listdir(f"{TOP}/docs/man"))


def make_top(top):
    """A repository without built programs."""
    os.mkdir(top)
    shutil.copy(f"{TOP}/install.sh", top)
    for folder in ["man", "completions"]:
        shutil.copytree(f"{TOP}/docs/{folder}", f"{top}/docs/{folder}")
    for name in names():
        os.makedirs(f"{top}/crates/{name}")


def installs(top, to, room):
    write(f"{room}/tools/rt", BUILDS)
    write(f"{room}/stand_in", STAND_IN)
    tools = {"PATH": f"{room}/tools:{os.environ['PATH']}", "STAND_IN": f"{room}/stand_in"}
    status, said = run(top, "--prefix", to, **tools)
    check("it builds and ends with 0", status == 0 and "isn't built" in said)
    status, said = run(top, "--prefix", to, PATH="/usr/bin:/bin")
    check("what is built isn't built again", status == 0 and "isn't built" not in said)
    for name in names():
        check(f"{name} is a program", os.access(f"{to}/bin/{name}", os.X_OK))
        for path in [
            f"man/man1/{name}.1",
            f"bash-completion/completions/{name}",
            f"zsh/site-functions/_{name}",
            f"fish/vendor_completions.d/{name}.fish",
        ]:
            check(f"share/{path} is there", os.path.getsize(f"{to}/share/{path}") > 0)


def checks(top, to):
    status, said = run(top, "--prefix", to, "--check")
    wanted = [CALLS.get(name, f"{name} --version: {name} 1.0") for name in names()]
    check("--check runs each program", status == 0 and said.splitlines() == wanted)
    for name in names():
        kept = read(f"{to}/bin/{name}")
        write(f"{to}/bin/{name}", "#!/bin/sh\necho else\n")
        status, said = run(top, "--prefix", to, "--check")
        check(f"--check refuses another text of {name}", status == 1 and "prints 'else', not '" in said)
        os.remove(f"{to}/bin/{name}")
        status, said = run(top, "--prefix", to, "--check")
        check(f"--check misses {name}", status == 1 and f"{name} isn't installed in {to}/bin\n" in said)
        write(f"{to}/bin/{name}", kept)


def other_calls(top, room):
    none = f"{room}/none"
    for words, variables in [(["--prefix", none, "--check"], {}), (["--check"], {"PREFIX": none})]:
        status, said = run(top, *words, **variables)
        check("--check says where nothing is", status == 1 and said == f"install.sh: nothing is installed in {none}/bin\n")
    check("and makes no folder", not os.path.exists(none))
    status, said = run(top, "--help")
    check("--help ends with 0", status == 0 and "./install.sh [--prefix DIR] --check" in said)
    check("other words are bad", run(top, "--all")[0] == 2 and run(top, "--prefix")[0] == 2)
    status, said = run(top, PREFIX=none)
    check("a prefix may be a variable", status == 0 and sorted(os.listdir(f"{none}/bin")) == names())


class Bash:
    """A bash at a terminal, with the completions of a program."""

    def __init__(self, share, name, folder):
        self.ours, its = pty.openpty()
        environment = {"PATH": os.environ["PATH"], "HOME": folder, "TERM": "dumb", "PS1": PROMPT}
        words = ["bash", "--norc", "--noprofile", "-i"]
        self.process = subprocess.Popen(
            words, stdin=its, stdout=its, stderr=its, cwd=folder, env=environment, start_new_session=True
        )
        os.close(its)
        self.read_to(PROMPT)
        for setting in ["show-all-if-ambiguous on", "page-completions off", "completion-query-items 0"]:
            self.type(f"bind 'set {setting}'")
        self.type(f". {share}/bash-completion/completions/{name}")

    def read_to(self, end):
        """What it shows up to this text, behind which it waits for keys."""
        seen = ""
        while not seen.endswith(end):
            if not select.select([self.ours], [], [], 60)[0]:
                sys.exit(f"bash shows no more than {seen!r}")
            seen += os.read(self.ours, 4096).decode(errors="replace")
        return seen

    def type(self, line, keys="\n"):
        """Types a line and these keys, and then a command by which it is known that all was read. Returns what it shows."""
        os.write(self.ours, f"{line}{keys}\x15echo do''ne\n".encode())
        return self.read_to(f"\ndone\r\n{PROMPT}")

    def end(self):
        os.close(self.ours)
        self.process.wait()


def offered_by_zsh(share, name, folder, line, wanted):
    """What zsh shows behind a line: it has ten seconds to show what is wanted."""
    script = (
        f"zmodload zsh/zpty; zpty z zsh -f -i; zpty -w z 'fpath=({share}/zsh/site-functions $fpath); "
        f"autoload -U compinit; compinit -u -D; cd {folder}; echo rea\"\"dy'; zpty -r z seen '*ready*'; "
        f"zpty -w -n z '{line}'$'\\t'; for i in {{1..50}}; do sleep 0.2; zpty -r -t z seen && print -r -- $seen; "
        f"[[ $seen == *{wanted}* ]] && break; done; zpty -d z"
    )
    ran = subprocess.run(["zsh", "-f", "-c", script], capture_output=True, timeout=60, stdin=subprocess.DEVNULL)
    return ran.stdout.decode(errors="replace")


def offered_by_fish(share, name, folder, line, wanted):
    script = f"source {share}/fish/vendor_completions.d/{name}.fish; complete -C '{line}'"
    ran = subprocess.run(["fish", "-c", script], capture_output=True, timeout=60, stdin=subprocess.DEVNULL, cwd=folder)
    return ran.stdout.decode(errors="replace")


def typed(program):
    """What is typed of a program, with what a shell has to offer and what it may not. The folder has `some_file` and
    `some_folder`."""
    name = program.name
    last = [word for it in program.options for word in man.names_of(it)][-1]
    found = [(f"{name} {last[:-1]}", [last], [])] if last.startswith("--") else []
    for it in program.options:
        for word in man.names_of(it):
            for joint in " =" if word.startswith("--") and program.joins else " ":
                if it.value in man.FILES:
                    found.append((f"{name} {word}{joint}some_f", ["some_file", "some_folder"], []))
                if it.value in man.FOLDERS:
                    found.append((f"{name} {word}{joint}some_f", ["some_folder"], ["some_file"]))
                if man.choices_of(it):
                    found.append((f"{name} {word}{joint}", man.choices_of(it), ["some_file"]))
    ahead = name
    for it in program.words:
        if it.value in man.FILES:
            found.append((f"{ahead} some_f", ["some_file", "some_folder"], []))
        if it.value in man.FOLDERS:
            found.append((f"{ahead} some_f", ["some_folder"], []))
        ahead += f" {it.value.lower()}"
    return found


def completes(to, room):
    """Types words of each program in each shell that is here, and returns which these are, and how many lines were typed."""
    folder, share, lines = f"{room}/typed", f"{to}/share", 0
    os.makedirs(f"{folder}/some_folder")
    write(f"{folder}/some_file", "")
    tried = [shell for shell in ["bash", "zsh", "fish"] if shutil.which(shell)]
    for shell, program in itertools.product(tried, man.all_programs()):
        bash = Bash(share, program.name, folder) if shell == "bash" else None
        for line, wanted, unwanted in typed(program):
            lines += 1
            if bash:
                shown = bash.type(line, "\t")
            else:
                shown = globals()[f"offered_by_{shell}"](share, program.name, folder, line, wanted[-1])
            for it in wanted:
                check(f"{shell} offers {it} for {line!r}", it in shown)
            for it in unwanted:
                check(f"{shell} doesn't offer {it} for {line!r}", it not in shown)
        if bash:
            bash.end()
    return tried, lines


def main():
    with tempfile.TemporaryDirectory() as room:
        top, to = f"{room}/top", f"{room}/to"
        make_top(top)
        installs(top, to, room)
        checks(top, to)
        other_calls(top, room)
        tried, lines = completes(to, room)
    print(f"install.sh: {', '.join(names())} are installed and checked; {lines} lines typed in {', '.join(tried)}")


if __name__ == "__main__":
    main()
