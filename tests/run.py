#!/usr/bin/env python3
"""Calls the built programs as the rows of `tests/*/*.t` say, over folders on the disk, and compares what they write.

    python3 tests/run.py [--program NAME=PATH] [-j N] [--prove] [FILE | FILE:LINE ..]

Without a file, all rows of all files run, on all cores. With `--prove` they run with stand-ins for the programs, and
every row whose outcome a stand-in changes must fail. README.md beside this file tells the rest.
"""
import argparse
import collections
import concurrent.futures
import dataclasses
import os
import pathlib
import shutil
import sys
import tempfile

from runner.folder import CannotMake, Folder, needs_root
from runner.outcomes import apart, difference, outcome
from runner.stand_ins import STAND_INS, says_nothing_of
from runner.table import NoTable, Row, read
from runner.texts import decoded
from runner.ways import PROGRAMS, ways_of

TESTS = pathlib.Path(__file__).resolve().parent


@dataclasses.dataclass
class Result:
    """The result of a row: the report if it is wrong, and the reason if it wasn't called."""

    row: Row
    report: str = ""
    skipped: str = ""
    # Whether the stand-in changed an outcome.
    changed: bool = False


class Runner:
    """The programs that rows call, and the stand-in that takes their place, if there is one."""

    def __init__(self, programs, stand_in=None):
        self.programs, self.stand_in = programs, stand_in

    def results(self, scene):
        """Runs the rows of a scene."""
        if os.geteuid() != 0 and needs_root(scene):
            return [Result(row, skipped="owners and devices need root") for row in scene.rows]
        try:
            with Folder(scene) as folder:
                return [self.result(row, scene, folder) for row in scene.rows]
        except CannotMake as error:
            return [Result(row, skipped=str(error)) for row in scene.rows]
        except OSError as error:
            wrong = f"the folder can't be made, or the program can't be called: {error}"
            return [Result(row, report(row, [wrong])) for row in scene.rows]

    def result(self, row, scene, folder):
        """Runs a row in all of its ways, up to the first that is wrong."""
        groups, changed = {}, False
        folder.change(row.changes)
        for way in ways_of(row, scene):
            real = outcome(self.programs[row.program], row, scene, folder, way)
            came = self.stand_in(real) if self.stand_in else real
            changed |= came != real
            call = call_of(row, way)
            first, other = groups.setdefault(way.group, (came, call))
            lines = difference(row, came, way.in_order, folder) or apart(first, came, (other, call))
            if lines:
                return Result(row, report(row, [f"$ {call}", *lines]), changed=changed)
        return Result(row, changed=changed)


def report(row, lines):
    return "\n".join([f"{row.file}:{row.line}: {row.name}", *lines, "", ""])


def call_of(row, way):
    """Returns the call of a row in one of its ways, as a file of rows has it."""
    front = " ".join(map(decoded, way.front))
    call = decoded(row.call)
    return call.replace(row.program, f"{row.program} {front}", 1) if front else call


def parsed():
    parser = argparse.ArgumentParser(usage="run.py [--program NAME=PATH] [-j N] [--prove] [FILE | FILE:LINE ..]")
    parser.add_argument("--program", action="append", default=[])
    parser.add_argument("-j", type=int, default=os.cpu_count())
    parser.add_argument("--prove", action="store_true")
    parser.add_argument("files", nargs="*", default=sorted(map(os.path.relpath, TESTS.glob("*/*.t"))))
    return parser.parse_args()


def scenes_of(word):
    """Returns the scenes of a file, or the one of the row at a line with that row alone."""
    file, _, line = word.partition(":")
    scenes = read(pathlib.Path(file))
    if line:
        above = [(scene, row) for scene in scenes for row in scene.rows if row.line <= int(line)]
        if not above:
            raise NoTable(f"{word}: no row is at this line")
        scene, row = above[-1]
        scene.rows, scenes = [row], [scene]
    return scenes


def programs_for(scenes, said):
    """Returns the path of each program that a row calls."""
    paths = {name: TESTS.parent / "crates" / name / "out" / name for name in PROGRAMS}
    paths.update(text.split("=", 1) for text in said)
    called = {row.program: f"{row.file}:{row.line}" for scene in scenes for row in scene.rows}
    for name, place in called.items():
        if name not in paths:
            raise NoTable(f"{place}: no program: {name}")
        if not os.access(paths[name], os.X_OK):
            raise NoTable(f"{paths[name]}: no program is there; `rt ci` builds it")
    return {name: paths[name] for name in called}


def copied(programs, folder):
    """Copies the programs to where the user `nobody` can call them, too."""
    os.chmod(folder, 0o755)
    copies = {}
    for name, path in programs.items():
        copies[name] = os.path.join(folder, name)
        shutil.copyfile(path, copies[name])
        os.chmod(copies[name], 0o755)
    return copies


def all_results(runner, scenes, threads):
    """Yields the results of all rows, in order."""
    with concurrent.futures.ThreadPoolExecutor(threads) as pool:
        for results in pool.map(runner.results, scenes):
            yield from results


def run(programs, scenes, threads):
    """Runs the rows, and returns whether none failed."""
    passed, failed, skipped = 0, 0, collections.Counter()
    for result in all_results(Runner(programs), scenes, threads):
        print(result.report, end="", flush=True)
        if result.skipped:
            skipped[result.skipped] += 1
        elif result.report:
            failed += 1
        else:
            passed += 1
    for why, count in skipped.items():
        print(f"rows: {count} skipped: {why}")
    print(f"rows: {passed} passed, {failed} failed")
    return failed == 0


def prove(programs, scenes, threads):
    """Runs the rows with each stand-in, and returns whether each failed that says what the stand-in changed."""
    missed = 0
    for name, stand_in in STAND_INS.items():
        changed = [it for it in all_results(Runner(programs, stand_in), scenes, threads) if it.changed]
        quiet = [it.row for it in changed if not it.report]
        unsaid = [row for row in quiet if says_nothing_of(row, stand_in)]
        for row in quiet:
            if row not in unsaid:
                print(f"{row.file}:{row.line}: {row.name}: not reported")
        print(f"{name}: {len(changed)} rows changed, {len(changed) - len(quiet)} reported, {len(unsaid)} leave it open")
        missed += len(quiet) - len(unsaid)
    print(f"rows that should have been reported: {missed}")
    return missed == 0


def main():
    asked = parsed()
    os.umask(0o022)
    try:
        scenes = [scene for word in asked.files for scene in scenes_of(word) if scene.rows]
        programs = programs_for(scenes, asked.program)
    except (NoTable, OSError) as error:
        print(error)
        return 1
    with tempfile.TemporaryDirectory(prefix="rows_") as folder:
        passes = (prove if asked.prove else run)(copied(programs, folder), scenes, asked.j)
    return 0 if passes else 1


if __name__ == "__main__":
    sys.exit(main())
