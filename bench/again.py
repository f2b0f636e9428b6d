#!/usr/bin/env python3
"""Plays tests that threads or chance may decide again and again: on all cores and on one, and with many seeds.

    python3 bench/again.py [TIMES [SEEDS]]

Build the tests and the program first: (cd crates/test_crews && rt test), (cd crates/test_hostile && rt test) and
(cd crates/walk && rt run). Each test of the two crates runs TIMES times (100 where none is given) on all cores and as often
on one, and has 60 seconds each time. Then random unsteady file systems of SEEDS seeds (200,000) are walked over, 2,000 in
a run of 300 seconds. Then the program walks over a folder with 1, 2, 4, 16 and 256 workers, on all cores and on one, and
must print the lines of the serial walk within 60 seconds. Last it is killed 50 times in the middle of a walk: within two
seconds no process of it may be left, nor a file in its temporary directory. What differs is printed, and the script ends
with 1.
"""
import os
import random
import shutil
import signal
import subprocess
import sys
import tempfile
import time

TOP = os.path.join(os.path.dirname(os.path.abspath(__file__)), "..")

PROGRAM = os.path.join(TOP, "crates", "walk", "out", "walk")

RUNNER = os.path.join(os.path.dirname(os.path.realpath(shutil.which("rt") or "rt")), "rattle-test")

FOLDER = "/usr/share"

CORES = {"all cores": [], "one core": ["taskset", "-c", "0"]}


def tests_of(name):
    """The test program of a crate, which `rt test` left in its folder out."""
    return os.path.join(TOP, "crates", name, "out", name + "_tests")


def passes(words, seconds, env=None):
    """Whether a run of tests passes; what it wrote, if not."""
    ran = subprocess.run([*words], stdout=subprocess.PIPE, stderr=subprocess.STDOUT, timeout=seconds, env={**os.environ, **(env or {})})
    return None if ran.returncode == 0 else ran.stdout.decode(errors="replace")[-2000:]


def again(times):
    """Plays each test of the crates that many times. Returns how often it didn't pass."""
    wrong = 0
    for name in ("test_crews", "test_hostile"):
        for where, front in CORES.items():
            began = time.time()
            for turn in range(times):
                said = passes([*front, RUNNER, "--seconds", "60", tests_of(name)], 3600)
                if said is not None:
                    wrong += 1
                    print(f"{name} on {where}, turn {turn}:\n{said}")
            print(f"{name} on {where}: {times} times in {time.time() - began:.0f} s")
    return wrong


def seeds(count):
    """Walks over the file systems of that many seeds. Returns how many runs didn't pass."""
    wrong, began = 0, time.time()
    for first in range(0, count, 2000):
        env = {"JWALK_FIRST_SEED": str(first), "JWALK_SEEDS": str(min(2000, count - first))}
        said = passes([RUNNER, "--seconds", "300", "--filter", "random_unsteady", tests_of("test_hostile")], 600, env)
        if said is not None:
            wrong += 1
            print(f"seeds from {first}:\n{said}")
    print(f"{count} seeds in {time.time() - began:.0f} s")
    return wrong


def walked(front, words):
    """What the program prints of a folder, and its status."""
    ran = subprocess.run([*front, PROGRAM, "--sort", *words, FOLDER], stdout=subprocess.PIPE, stderr=subprocess.PIPE, timeout=60)
    return ran.stdout, ran.stderr, ran.returncode


def workers():
    """Walks with few and many workers. Returns how many walks differ from the serial one."""
    wrong, serial = 0, walked([], [])
    for where, front in CORES.items():
        for count in (1, 2, 4, 16, 256):
            if walked(front, ["--crew", str(count)]) != serial:
                wrong += 1
                print(f"{count} workers on {where} differ from the serial walk")
    print(f"1 to 256 workers over {FOLDER}, {serial[0].count(10)} lines")
    return wrong


def is_gone(pid):
    """Whether within two seconds no thread of a killed process is left."""
    for _ in range(200):
        if not os.path.exists(f"/proc/{pid}"):
            return True
        time.sleep(0.01)
    return False


def killed(times):
    """Kills walks in the middle. Returns how many left something behind."""
    wrong, rng = 0, random.Random(1)
    with tempfile.TemporaryDirectory() as folder:
        for turn in range(times):
            env = {**os.environ, "TMPDIR": folder}
            walk = subprocess.Popen([PROGRAM, "--crew", "4", "/usr"], stdout=subprocess.DEVNULL, env=env, cwd=folder)
            time.sleep(rng.random() * 0.1)
            walk.send_signal(rng.choice([signal.SIGTERM, signal.SIGINT, signal.SIGKILL]))
            walk.wait(timeout=60)
            if not is_gone(walk.pid) or os.listdir(folder):
                wrong += 1
                print(f"turn {turn}: something was left of the killed walk")
    print(f"killed {times} times")
    return wrong


def main():
    times = int(sys.argv[1]) if len(sys.argv) > 1 else 100
    count = int(sys.argv[2]) if len(sys.argv) > 2 else 200_000
    sys.exit(1 if again(times) + seeds(count) + workers() + killed(50) else 0)


if __name__ == "__main__":
    main()
