"""Calls of programs, and what is wrong with their outcomes."""
import contextlib
import dataclasses
import difflib
import os
import pty
import select
import signal
import subprocess
import threading
import tty

from runner.texts import lines_of, shown, text_of

VARIABLES = {"XDG_CONFIG_HOME": "", "NO_COLOR": "1", "LS_COLORS": "di=34:*.rs=31:or=35", "TZ": "UTC"}
SECONDS = 60
NOBODY = {"user": 65534, "group": 65534, "extra_groups": []}
MARKS = {"out": " ", "err": "!"}
# A difference shows that many lines at most, and that much of each.
MOST = 50
WIDEST = 400


@dataclasses.dataclass(frozen=True)
class Outcome:
    """What a call wrote, and how it ended: its status, or the negative number of a signal."""

    out: bytes
    err: bytes
    status: int


class Terminal:
    """A terminal, of which a thread keeps what a program writes to it."""

    def __init__(self):
        self.ours, self.end = pty.openpty()
        tty.setraw(self.end)
        self.kept = b""
        self.reader = threading.Thread(target=self.read)

    def read(self):
        # A read fails once the program has closed its end.
        with contextlib.suppress(OSError):
            while piece := os.read(self.ours, 65536):
                self.kept += piece

    def handed_over(self):
        """Begins to read, once the program has the end that it writes to."""
        os.close(self.end)
        self.reader.start()

    def text(self):
        """Waits until the program has closed its end, and returns what it wrote."""
        self.reader.join()
        os.close(self.ours)
        return self.kept


def taking_nothing(goal):
    """Returns an end that takes nothing: a pipe that nobody reads, or a full device."""
    if goal == "full":
        return os.open("/dev/full", os.O_WRONLY)
    ours, end = os.pipe()
    os.close(ours)
    # A process that another thread starts may hold the reader's end until it runs its program.
    nobody = select.poll()
    nobody.register(end, 0)
    nobody.poll()
    return end


def called(program, words, goal, given, **how):
    """Returns the outcome of a call. One that takes too long is killed."""
    screen = Terminal() if goal in MARKS else None
    ends = {"out": subprocess.PIPE, "err": subprocess.PIPE}
    if screen:
        ends[goal] = screen.end
    elif goal:
        ends["out"] = taking_nothing(goal)
    how |= {"stdin": subprocess.PIPE, "stdout": ends["out"], "stderr": ends["err"]}
    process = subprocess.Popen(words, executable=program, **how)
    if screen:
        screen.handed_over()
    elif goal:
        os.close(ends["out"])
    try:
        out, err = process.communicate(given, SECONDS)
    except subprocess.TimeoutExpired:
        process.kill()
        out, err = process.communicate()
    texts = {"out": out or b"", "err": err}
    if screen:
        texts[goal] = screen.text()
    return Outcome(**texts, status=process.returncode)


def how_of(row, scene, folder):
    """Returns where, by whom and with which variables the row is called."""
    variables = {**VARIABLES, "HOME": folder.path + b"/home/u", **row.variables}
    return {"cwd": folder.at(row.place), "env": variables, **(NOBODY if scene.nobody and os.geteuid() == 0 else {})}


def outcome(program, row, scene, folder, way):
    """Returns the outcome of a row in one of its ways, without the path of the folder."""
    takes_lines = way.in_memory or scene.kind == "input"
    own = row.words if takes_lines else map(folder.placed, row.words)
    given = text_of(scene.lines) if takes_lines else b""
    words = [row.program.encode(), *way.front, *own]
    came = called(program, words, row.goal, given, **how_of(row, scene, folder))
    return Outcome(folder.cut(came.out), folder.cut(came.err), came.status)


def marked(mark, text, in_order=True):
    """Returns the lines of an output, each with the mark that it has in a file of rows."""
    lines = lines_of(text)
    return [(mark, line) for line in (lines if in_order else sorted(lines))]


def ended(status):
    if status == -signal.SIGKILL:
        return [("=", b"killed, as after %d seconds\n" % SECONDS)]
    return [("=", b"%d\n" % status if status >= 0 else b"signal %d\n" % -status)]


def unlike(wanted, found, names):
    """Returns the lines of a diff of two lists of marked lines, or none if they are the same."""
    if wanted == found:
        return []
    sides = [[f"{mark} {shown(line)}"[:WIDEST] for mark, line in lines] for lines in (wanted, found)]
    return list(difflib.unified_diff(*sides, *names, lineterm="", n=2))[:MOST]


def difference(row, came, in_order, folder):
    """Returns the lines of a diff of a row's outcome and the one that came, or none if they are the same."""
    wanted, found = [], []
    for name, mark in MARKS.items():
        output, text = getattr(row, name), getattr(came, name)
        if output.parts and all(part in text for part in output.parts):
            continue
        wanted += [(f"{mark}~", part + b"\n") for part in output.parts]
        wanted += marked(mark, folder.measured(text_of(output.lines)), in_order)
        found += marked(mark, text, in_order)
    return unlike(wanted + ended(row.status), found + ended(came.status), ("wanted", "found"))


def apart(first, came, names):
    """Returns the lines of a diff of the outcomes of two ways, or none if they are the same."""
    sides = [marked(" ", it.out) + marked("!", it.err) + ended(it.status) for it in (first, came)]
    return unlike(*sides, names)
