#!/usr/bin/env python3
"""Times `walk` on the real disk beside `find`, and beside `fd` and `bfs` where they are installed; and in batches and over
crews beside the walk that reads a directory at a time, also over a tree in memory. Then it times totals, `walk --usage`,
beside `du` and `find`.

    python3 bench/real.py [--save FILE] [--usage] [FOLDER [PROGRAM]]
    python3 bench/real.py --tally [FOLDER [PROGRAM]]

Build the program first: (cd crates/walk && rt run). FOLDER holds the trees that the script makes (a temporary folder where
none is given). All of a tree's programs take turns, each with its output in a file, and the tree is warm: the first turn
doesn't count. A time is the best of five turns, and its ratio that of two such times; the ratio of processor times is the
median of the turns' ratios. A peak of memory is that of the last turn, and no less than this script's own. The walk by name
of /usr takes turns with the walk in the disk's order. In brackets is what the walk is to take at most. Walks in batches of
each width, and over crews of 1, 2 and 4 workers, take turns with the serial one and with the other programs. The tree in
memory is read from the program's input: 10,101 directories, and the time to read it and to build it is in each of its times.
Of /usr with links followed it prints the lines of each program, and how many loops each tells. `walk` tells a link by its
text, and prints a line for it, as for a broken link. `find -L` asks the system which directory each one is, and prints a
loop with its errors, and a broken link with the rest. `fd -L` leaves loops out. So `walk` has a line more for each loop that
`find` tells too. It has more where a link leads back through another link, whose text doesn't show it, and fewer where a
text seems to lead back and doesn't.
Totals are those of /usr and of the 10,000 directories, and with `--usage` only they are timed. A time of them is the median
of nine turns, and its ratio that of two such times. `find` prints the length of each file, and `awk` adds them up. `dust`,
`gdu` and `dua` take their turns where they are installed. What `walk` counts is compared with what `find` counts of files,
directories and links, and with its sum: `equal`, or the two lists of numbers. The tree in memory has 10,000 directories of 19
files, and `walk --tree --usage` takes turns with `walk --tree`.
With --tally it times `tally -s` beside `du -s`, on the same two trees, as totals are timed. PROGRAM is `tally` then, and what
it adds up is compared with what `du` does.
FILE gets the times of the trees on disk, a row for each tree, from which bench/figures.py draws its picture.
"""
import argparse
import os
import platform
import shutil
import subprocess
import sys
import tempfile
import time
from statistics import median

CRATES = os.path.join(os.path.dirname(os.path.abspath(__file__)), "..", "crates")
PROGRAM = os.path.join(CRATES, "walk", "out", "walk")
TALLY = os.path.join(CRATES, "tally", "out", "tally")
TURNS = 5
USAGE_TURNS = 9
WIDTHS = (1, 4, 16, 64, 256)
WORKERS = (1, 2, 4)


def wide(folder):
    """200,000 files in one directory."""
    for i in range(200_000):
        open(f"{folder}/file-{i:07d}", "w").close()


def flat(folder):
    """10,000 directories of 20 files."""
    for directory in range(10_000):
        os.mkdir(f"{folder}/dir-{directory:05d}")
        for i in range(20):
            open(f"{folder}/dir-{directory:05d}/file-{i:02d}", "w").close()


def deep(folder):
    """40 chains of 100 directories in one another, each with 10 files."""
    for chain in range(40):
        path = f"{folder}/chain-{chain:02d}"
        for _ in range(100):
            os.mkdir(path)
            for i in range(10):
                open(f"{path}/file-{i}", "w").close()
            path += "/d"


def trees(folder):
    """Each tree's name, its root, and the most of find's time that a walk of it may take, if that is said."""
    for make, bound in (wide, 2.3), (flat, 1.9), (deep, None):
        root = os.path.join(folder, make.__name__)
        if not os.path.isdir(root):
            os.mkdir(root)
            make(root)
        yield make.__name__, root, bound
    yield "/usr", "/usr", 1.9


def in_memory(folder):
    """The file with the lines of a tree of small directories: a hundred with a hundred each."""
    path = os.path.join(folder, "memory.txt")
    with open(path, "w") as file:
        file.write("d /r\n")
        for outer in range(100):
            file.write(f"d /r/{outer}\n")
            file.writelines(f"d /r/{outer}/{inner}\n" for inner in range(100))
    return path


def programs(walk, root):
    """The programs that list all that stands below a root, hidden names too."""
    yield "walk", [walk, "--hidden", root]
    yield "find", ["find", root]
    for name in "fd", "fdfind":
        if shutil.which(name):
            yield "fd", [name, "-uu", "-j4", ".", root]
            break
    if shutil.which("bfs"):
        yield "bfs", ["bfs", root]


def run(words, output_path, input_path=os.devnull):
    """The seconds, the processor seconds and the peak memory in KiB of one run."""
    with open(input_path, "rb") as source, open(output_path, "wb") as out:
        start = time.perf_counter()
        child = subprocess.Popen(words, stdin=source, stdout=out)
        _, status, usage = os.wait4(child.pid, 0)
        seconds = time.perf_counter() - start
    if status != 0:
        sys.exit(f"{words} ended with {status}")
    return seconds, usage.ru_utime + usage.ru_stime, usage.ru_maxrss


def turns(commands, output_path, input_path=os.devnull, count=TURNS):
    """The runs of each command, but for its first, and the lines that it printed."""
    runs = {name: [] for name, _ in commands}
    lines = {}
    for turn in range(count + 1):
        for name, words in commands:
            measured = run(words, output_path, input_path)
            if turn > 0:
                runs[name].append(measured)
                continue
            with open(output_path, "rb") as file:
                lines[name] = sum(1 for _ in file)
    return runs, lines


def best(runs):
    return min(seconds for seconds, _, _ in runs)


def middle(runs):
    return median(seconds for seconds, _, _ in runs)


def processor_ratio(runs, beside):
    """The median of the turns' ratios, which a machine that is busy for a while leaves as it is."""
    return median(one[1] / other[1] for one, other in zip(runs, beside))


def compare(tree, root, bound, walk, output):
    runs, lines = turns(list(programs(walk, root)), output)
    if lines["walk"] != lines["find"]:
        sys.exit(f"{tree}: walk printed {lines['walk']} lines, find {lines['find']}")
    find = runs["find"]
    for name, of in runs.items():
        most = f"  (at most {bound})" if name == "walk" and bound else ""
        print(
            f"{tree:<6}{name:<8}{lines[name]:>9}{best(of) * 1e3:>10.1f}{best(of) / best(find):>8.2f}"
            f"{processor_ratio(of, find):>8.2f}{of[-1][2] / 1024:>8.1f}{most}"
        )


def by_name(walk, output):
    commands = [("as it is", [walk, "--hidden", "/usr"]), ("by name", [walk, "--hidden", "--sort", "/usr"])]
    runs, _ = turns(commands, output)
    before, after = runs["as it is"], runs["by name"]
    print(
        f"/usr by name: {best(after) * 1e3:.1f} ms beside {best(before) * 1e3:.1f} ms, "
        f"{best(after) / best(before):.3f} times, of processor {processor_ratio(after, before):.3f} (at most 1.05)"
    )


def lines_of(path):
    """The lines of an output, split at line feeds alone."""
    with open(path, "rb") as file:
        return file.read().split(b"\n")[:-1]


def followed(walk, output):
    """The lines and the loops of /usr with links followed, by each program; they end with 1 where there are loops."""
    commands = [("walk", [walk, "--follow", "--hidden", "/usr"]), ("find", ["find", "-L", "/usr"])]
    fd = next((name for name in ("fd", "fdfind") if shutil.which(name)), None)
    if fd:
        commands.append(("fd", [fd, "-uuL", "-j4", ".", "/usr"]))
    for name, words in commands:
        errors = output + ".err"
        with open(output, "wb") as out, open(errors, "wb") as err:
            start = time.perf_counter()
            subprocess.run(words, stdout=out, stderr=err, check=False)
            seconds = time.perf_counter() - start
        lines = lines_of(output)
        loops = {
            "walk": lambda: sum(1 for line in lines if line.startswith(b"! ") and b" loop " in line),
            "find": lambda: sum(1 for line in lines_of(errors) if b"loop detected" in line),
            "fd": lambda: 0,
        }[name]()
        print(f"/usr, links followed: {name:<6}{len(lines):>9} lines, {loops:>4} loops told, {seconds * 1e3:>9.1f} ms")


def ways():
    """The words for each way to read: a directory at a time, batches of each width, crews of each number of workers."""
    yield []
    for width in WIDTHS:
        yield ["--batch", str(width)]
    for workers in WORKERS:
        yield ["--crew", str(workers)]


def side_by_side(tree, words, output, input_path=os.devnull, others=()):
    """A walk in each way, by turns, beside the serial one, the best of the batches, and `find` if it is among the others.
    Returns the milliseconds of each way, of the batches those of the best."""
    commands = [(" ".join(way) or "serial", [*words[:-1], *way, words[-1]]) for way in ways()]
    runs, lines = turns([*commands, *others], output, input_path)
    if len({lines[name] for name, _ in commands}) > 1:
        sys.exit(f"{tree}: not all ways print as many lines: {lines}")
    serial = runs["serial"]
    batch = min((of for name, of in runs.items() if name.startswith("--batch")), key=best)
    for name, of in runs.items():
        find = f"{best(of) / best(runs['find']):>8.2f}" if "find" in runs else f"{'-':>8}"
        print(
            f"{tree:<8}{name:<12}{best(of) * 1e3:>10.1f}{best(of) / best(serial):>9.2f}{best(of) / best(batch):>8.2f}"
            f"{find}{processor_ratio(of, serial):>8.2f}{of[-1][2] / 1024:>8.1f}"
        )
    singles = {name.replace("--crew", "crew"): of for name, of in runs.items() if not name.startswith("--batch")}
    return {name: best(of) * 1e3 for name, of in {"serial": serial, "best batch": batch, **singles}.items()}


# The length of each file below a root, and their sum.
FIND_SUM = "find \"$1\" -type f -printf '%s\\n' | awk '{s += $1} END {printf \"%.0f\\n\", s}'"


def find_sum(root):
    return ["sh", "-c", FIND_SUM, "sh", root]


# What `tally -s` is to take at most beside `du -s`: serial, and by a crew of 4; and `du` itself.
TALLY_BOUNDS = (1.6, 0.7, None)

# What `walk --usage` is to take at most beside `du`: serial, and by a crew of 4.
USAGE_BOUNDS = {"flat": (1.6, 0.6), "/usr": (1.5, 0.62)}


def adders(tree, walk, root):
    """The programs that add up what is below a root, hidden names too, each with its bounds beside `du`."""
    usage, (serial, crew) = [walk, "--usage", "--hidden"], USAGE_BOUNDS[tree]
    yield "serial", [*usage, root], {"du": serial}
    yield "crew 4", [*usage, "--crew", "4", root], {"du": crew}
    yield "du", ["du", "-s", "--apparent-size", root], {}
    yield "find", find_sum(root), {}
    others = {"dust": ["-s", "-d", "0"], "gdu": ["-n", "-p", "-s", "-a"], "dua": ["--apparent-size", "aggregate"]}
    for name, words in others.items():
        if shutil.which(name):
            yield name, [name, *words, root], {}


def printed(words):
    return subprocess.run(words, stdin=subprocess.DEVNULL, stdout=subprocess.PIPE, check=True, text=True).stdout


def found_totals(root):
    """What `find` counts below a root: files, directories, links, and the bytes of the files."""
    counts = [len(printed(["find", root, "-type", letter, "-printf", "."])) for letter in "fdl"]
    return [*counts, int(printed(find_sum(root)))]


def walked_totals(words):
    """The same numbers from the line of `walk --usage`."""
    fields = printed(words).split()
    numbers = dict(zip(fields[::2], map(int, fields[1::2])))
    return [numbers[name] for name in ("files", "dirs", "links", "bytes")]


def add_up(tree, root, walk, output):
    """The times of all that add up a tree, and whether `walk` counts what `find` does."""
    commands = list(adders(tree, walk, root))
    runs, _ = turns([(name, words) for name, words, _ in commands], output, count=USAGE_TURNS)
    for name, _, bounds in commands:
        of = runs[name]
        most = "  (at most " + ", ".join(f"{bound} of {beside}" for beside, bound in bounds.items()) + ")" if bounds else ""
        print(
            f"{tree:<6}{name:<8}{middle(of) * 1e3:>10.1f}{middle(of) / middle(runs['du']):>8.2f}"
            f"{middle(of) / middle(runs['find']):>8.2f}{of[-1][2] / 1024:>8.1f}{most}"
        )
    wanted = found_totals(root)
    for name, words, _ in commands[:2]:
        found = walked_totals(words)
        print(f"{tree:<6}{name:<8}files, directories, links and bytes:", "equal" if found == wanted else f"{found}, find {wanted}")


def filed(folder):
    """The file with the lines of a tree of 10,000 directories of 19 files."""
    path = os.path.join(folder, "filed.txt")
    with open(path, "w") as file:
        file.write("d /r\n")
        for directory in range(10_000):
            file.write(f"d /r/{directory}\n")
            file.writelines(f"f {length} /r/{directory}/{length}\n" for length in range(19))
    return path


def add_up_in_memory(walk, output, input_path):
    commands = [("lines", [walk, "--tree", "/r"]), ("totals", [walk, "--tree", "--usage", "/r"])]
    runs, _ = turns(commands, output, input_path, USAGE_TURNS)
    lines, totals = middle(runs["lines"]), middle(runs["totals"])
    print(
        f"in memory: totals {totals * 1e3:.1f} ms beside {lines * 1e3:.1f} ms for the lines, {totals / lines:.2f} times (at most 1.1)"
    )


def usages(folder, walk, output):
    """The totals of the trees that they are timed on."""
    print(f"totals, medians of {USAGE_TURNS}")
    print(f"{'tree':<6}{'program':<8}{'ms':>10}{'x du':>8}{'x find':>8}{'MiB':>8}")
    for tree, root, _ in trees(folder):
        if tree in ("flat", "/usr"):
            add_up(tree, root, walk, output)
    add_up_in_memory(walk, output, filed(folder))


def sum_up(tree, root, tally, output):
    """The times of `tally` and `du` on a tree, and whether they add up the same."""
    sums = [tally, "-s", "--plain", "-b"]
    commands = [("serial", [*sums, "-j1", root]), ("crew 4", [*sums, "-j4", root]), ("du", ["du", "-s", "-B1", root])]
    runs, _ = turns(commands, output, count=USAGE_TURNS)
    for (name, _), most in zip(commands, TALLY_BOUNDS):
        of = runs[name]
        bound = f"  (at most {most})" if most else ""
        print(f"{tree:<6}{name:<8}{middle(of) * 1e3:>10.1f}{middle(of) / middle(runs['du']):>8.2f}{of[-1][2] / 1024:>8.1f}{bound}")
    serial, crew, wanted = (printed(words).split()[0] for _, words in commands)
    print(f"{tree:<6}bytes:", "equal" if serial == crew == wanted else f"{serial}, {crew}, du {wanted}")


def tallies(folder, tally, output):
    """What is below the trees that totals are timed on, by `tally` and `du`."""
    print(f"sums, medians of {USAGE_TURNS}")
    print(f"{'tree':<6}{'program':<8}{'ms':>10}{'x du':>8}{'MiB':>8}")
    for tree, root, _ in trees(folder):
        if tree in ("flat", "/usr"):
            sum_up(tree, root, tally, output)


def save(path, rows):
    """Writes each tree's milliseconds, with a first line that says where they were taken."""
    columns = list(rows[0][1])
    with open(path, "w") as file:
        print(f"# {os.cpu_count()} cores, {platform.system()}; best of {TURNS} turns, in milliseconds", file=file)
        print("tree", *columns, sep="\t", file=file)
        for tree, times in rows:
            print(tree, *(f"{times[column]:.0f}" for column in columns), sep="\t", file=file)


def listings(folder, walk, output):
    """The lines of the trees. Returns the milliseconds of each tree, by ways."""
    print(f"{os.cpu_count()} cores, best of {TURNS}")
    print(f"{'tree':<6}{'program':<8}{'lines':>9}{'ms':>10}{'x find':>8}{'cpu x':>8}{'MiB':>8}")
    for tree, root, bound in trees(folder):
        compare(tree, root, bound, walk, output)
    by_name(walk, output)
    followed(walk, output)
    print(f"{'tree':<8}{'way':<12}{'ms':>10}{'x serial':>9}{'x batch':>8}{'x find':>8}{'cpu x':>8}{'MiB':>8}")
    rows = []
    for tree, root, _ in trees(folder):
        others = [(name, words) for name, words in programs(walk, root) if name != "walk"]
        rows.append((tree, side_by_side(tree, [walk, "--hidden", root], output, others=others)))
    side_by_side("memory", [walk, "--tree", "/r"], output, in_memory(folder))
    return rows


def main():
    parser = argparse.ArgumentParser()
    parser.add_argument("folder", nargs="?")
    parser.add_argument("program", nargs="?")
    parser.add_argument("--save", metavar="FILE")
    parser.add_argument("--usage", action="store_true", help="only the totals")
    parser.add_argument("--tally", action="store_true", help="what tally adds up")
    asked = parser.parse_args()
    folder = asked.folder or tempfile.mkdtemp(prefix="walk-real-")
    output = os.path.join(folder, "out.txt")
    walk = asked.program or PROGRAM
    if asked.tally:
        tallies(folder, asked.program or TALLY, output)
    else:
        if not asked.usage:
            rows = listings(folder, walk, output)
            if asked.save:
                save(asked.save, rows)
        usages(folder, walk, output)
    if not asked.folder:
        subprocess.run(["rm", "-rf", folder], check=True)


if __name__ == "__main__":
    main()
