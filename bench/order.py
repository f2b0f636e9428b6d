#!/usr/bin/env python3
"""Times the ordered queue and the board beside the same work on the standard library's heap alone.

    python3 bench/order.py [ROUNDS]

Build the program first: (cd crates/test_bench_order && rt run). A row has three runs of it: one makes the input alone, and
two work on that input, by the standard library's heap alone and by the queue or the board. A time is the processor time
of a run, the least of ROUNDS (7 where none is given) that take turns, less that of the input. Both must come to the same
digest of addresses.
"""
import os
import subprocess
import sys

PROGRAM = os.path.join(os.path.dirname(os.path.abspath(__file__)), "..", "crates", "test_bench_order", "out", "test_bench_order")

PARTS = ["input", "heap", "jwalk"]

# shape, addresses, the ratio that is aimed at, and the greatest that will do
ROWS = [
    ("scrambled", 1_000_000, 1.5, 2),
    ("wide", 250_000, 3, 5),
    ("wide", 1_000_000, 3, 5),
    ("bushy", 250_000, 3, 5),
    ("bushy", 1_000_000, 3, 5),
    ("chains", 250_000, 3, 5),
    ("chains", 1_000_000, 3, 5),
]


def run(part, shape, count):
    """The processor time of one run, and the digest that it prints."""
    words = [part, shape, str(count)]
    child = subprocess.Popen([PROGRAM, *words], stdout=subprocess.PIPE, text=True)
    line = child.stdout.read()
    _, status, usage = os.wait4(child.pid, 0)
    child.returncode = status
    if status != 0 or line.split()[:3] != words:
        sys.exit(f"{' '.join(words)} ended with {status} and printed {line!r}")
    return usage.ru_utime + usage.ru_stime, line.split()[3]


def best_times(shape, count, rounds):
    """The least time of each part."""
    times = {part: [] for part in PARTS}
    for _ in range(rounds):
        digests = {}
        for part in PARTS:
            seconds, digests[part] = run(part, shape, count)
            times[part].append(seconds)
        if digests["heap"] != digests["jwalk"]:
            sys.exit(f"{shape} {count}: addresses came in another order than by the heap")
    return [min(times[part]) for part in PARTS]


def main():
    rounds = int(sys.argv[1]) if len(sys.argv) > 1 else 7
    print(f"{os.cpu_count()} cores, the least of {rounds} runs")
    print(f"{'shape':<11}{'addresses':>10}{'input ms':>10}{'heap ms':>9}{'jwalk ms':>10}{'ratio':>7}{'aim':>6}{'bound':>7}")
    before = {}
    for shape, count, aim, bound in ROWS:
        made, heap, jwalk = best_times(shape, count, rounds)
        own, other = jwalk - made, heap - made
        print(f"{shape:<11}{count:>10}{made * 1e3:>10.0f}{other * 1e3:>9.0f}{own * 1e3:>10.0f}{own / other:>7.2f}{aim:>6}{bound:>7}")
        if shape in before:
            fewer, shorter = before[shape]
            print(f"    {count // fewer} times the addresses take {own / shorter:.1f} times the time")
        before[shape] = (count, own)


if __name__ == "__main__":
    main()
