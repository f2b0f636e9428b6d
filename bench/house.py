#!/usr/bin/env python3
"""Measures how much a reader of the code has to hold in the head.

    python3 bench/house.py                    all figures, a line each
    python3 bench/house.py clauses [CRATE ..] the longest clauses, each with its function
    python3 bench/house.py reach CRATE/FILE/NAME ..
                                              the definitions that each of these leads to
    python3 bench/house.py twice [CRATE ..]   lines that are there twice
    python3 bench/house.py --check            fails if one of the figures is above its bound (BOUNDS)

A clause is what stands in the braces of `requires` or `ensures` of a function, with one space for each run of spaces.
Its length is also given with each definition of its own crate that has no other user in its place. A definition leads
to those that its text names, of this repository. Lines are there twice where six or more in a row, without empty ones,
imports and comments, are equal in two places of `src`, `specs` or `proofs`.
"""
import collections
import functools
import glob
import os
import re
import sys

TOP = os.path.dirname(os.path.dirname(os.path.abspath(__file__)))

LEAST_RUN = 6

# What no change may make worse: the figures as they are, or less. The aims are in brackets.
BOUNDS = {
    "words of the documents": 26_000,
    "lines of README": 90,
    "clauses of the library over 260 characters (0)": 16,
    "clauses of programs over 260 characters (0)": 32,
    "characters of nine tenths of the library's clauses (110)": 116,
    "characters of nine tenths of the programs' clauses (110)": 127,
    "the same, unfolded (110)": 138,
    "pairs of places with equal lines": 349,
    "definitions that DirEntryIter/Answers leads to (200)": 324,
}

Clause = collections.namedtuple("Clause", "crate function text")
Definition = collections.namedtuple("Definition", "crate file name text")

PROGRAMS = ("walk", "seek", "tally", "since", "program_", "git_config", "user_excludes")


def read(path):
    with open(path, encoding="utf-8") as file:
        return file.read()


def crates():
    return sorted(os.listdir(f"{TOP}/crates"))


def files_of(crate, *patterns):
    return sorted(it for pattern in patterns for it in glob.glob(f"{TOP}/crates/{crate}/{pattern}", recursive=True))


def closing(text, at):
    """The place behind the brace that closes the one here."""
    depth = 0
    for here in range(at, len(text)):
        depth += {"{": 1, "}": -1}.get(text[here], 0)
        if depth == 0:
            return here + 1
    return len(text)


def clauses_of(crate):
    """The clauses of a crate's functions."""
    found = []
    for path in files_of(crate, "src/**/*.rt"):
        text, function = read(path), "?"
        for it in re.finditer(r"\bfn (\w+)|\b(?:requires|ensures)(?: \w+)? \{", text):
            if it[1]:
                function = it[1]
            else:
                inside = text[it.end() : closing(text, it.end() - 1) - 1]
                found.append(Clause(crate, function, " ".join(inside.split())))
    return found


def definitions_of(crate):
    """The definitions of a crate's specs: a definition goes from its name up to the next that begins as far left."""
    found = []
    head = re.compile(r"^ *(?:(?:abbrev|unfoldable|opaque|pub|record|data) )+([^\s:(){}]+)(?= [:({])", re.M)
    for path in files_of(crate, "specs/**/*.antt"):
        text = re.sub(r"^ *(?:--.*|(?:pub )?use .*)$", "", read(path), flags=re.M)
        marks = [it for it in head.finditer(text) if not it[0].startswith("    ")]
        ends = [it.start() for it in marks[1:]] + [len(text)]
        file = os.path.relpath(path, f"{TOP}/crates/{crate}/specs").removesuffix(".antt")
        found += [Definition(crate, file, it[1], " ".join(text[it.start() : end].split())) for it, end in zip(marks, ends)]
    return found


def words_in(text):
    return re.findall(r"[^\s(){}.,;]+", text)


def unfolded(clause, definitions, users):
    """The length of a clause with each definition of its crate that has no other user in the place of its name."""
    length, seen, left = len(clause.text), set(), words_in(clause.text)
    while left:
        name = left.pop()
        own = definitions.get(name)
        if own and users[name] == 1 and name not in seen:
            seen.add(name)
            length += len(own.text)
            left += words_in(own.text)
    return length


def measured(crate):
    """Each clause of a crate with its length, and its length unfolded."""
    definitions = {it.name: it for it in definitions_of(crate)}
    clauses = clauses_of(crate)
    texts = [it.text for it in clauses] + [it.text.partition(it.name)[2] for it in definitions.values()]
    users = collections.Counter(name for text in texts for name in set(words_in(text)) & set(definitions))
    return [(len(it.text), unfolded(it, definitions, users), it) for it in clauses]


def part(sizes, share):
    """The size that this share of all isn't above."""
    return sorted(sizes)[min(len(sizes) - 1, int(len(sizes) * share))] if sizes else 0


def is_program(crate):
    return crate.startswith(PROGRAMS) and not crate.startswith("test_")


def every_definition():
    """All definitions, by crate, file and name."""
    return {(it.crate, it.file, it.name): it for crate in crates() for it in definitions_of(crate)}


def place_of(path):
    """The crate and the file that a path of a `use` names: a crate passes on the files of those below it."""
    crate, *parts = path.split(".")
    if parts and parts[0] in crates():
        crate, *parts = parts
    return crate, "/".join(parts)


@functools.cache
def imports_of(crate, file):
    """What a file of specs names of others: each name's place, and each alias of a file."""
    names, aliases = {}, {}
    path = f"{TOP}/crates/{crate}/specs/{file}.antt"
    for it in re.finditer(r"^ *(?:pub )?use Rattle\.(\S+?)\.specs\.(\S+?)(?:\.\{([^}]*)\}| as (\w+))?$", read(path), re.M):
        place = place_of(f"{it[1]}.{it[2]}")
        for name in re.split(r",\s*", it[3] or ""):
            name, _, other = name.partition(" as ")
            names[other or name] = (*place, name)
        aliases[it[4] or it[2].rpartition(".")[2]] = place
    return names, aliases


def looked_up(crate, file, name, every):
    """The definition that a name stands for in a file of specs, if it is one of this repository."""
    if (crate, file, name) in every:
        return every[crate, file, name]
    if not os.path.isfile(f"{TOP}/crates/{crate}/specs/{file}.antt"):
        return None
    names, aliases = imports_of(crate, file)
    front, _, last = name.partition(".")
    if last and front in aliases:
        return looked_up(*aliases[front], last, every)
    return looked_up(*names[name], every) if name in names else None


def reached(start, every):
    """All definitions that one leads to, itself among them."""
    seen, left = set(), [start]
    while left:
        it = left.pop()
        if it and it not in seen:
            seen.add(it)
            words = set(re.findall(r"[^\s(){},;]+", it.text))
            left += [looked_up(it.crate, it.file, word, every) for word in words]
    return seen


def plain_lines(path):
    """The lines of a file that count, each with its number."""
    lines = enumerate(read(path).splitlines(), 1)
    return [(number, line.strip()) for number, line in lines if not re.match(r"\s*(//|--|(pub |ghost )*use |$|[})\]]*[,;]?$)", line)]


def runs(names):
    """The pairs of places that share at least so many lines, the longest first."""
    places, files = collections.defaultdict(list), {}
    for crate in names:
        for path in files_of(crate, "src/**/*.rt", "specs/**/*.antt", "proofs/**/*.antt"):
            files[path] = plain_lines(path)
            texts = [line for _, line in files[path]]
            for at in range(len(texts) - LEAST_RUN + 1):
                places[tuple(texts[at : at + LEAST_RUN])].append((path, at))
    pairs = {(a, b) for found in places.values() for a in found for b in found if a < b}
    # (a pair that goes on from one before it is a part of that)
    starts = [(a, b) for a, b in pairs if ((a[0], a[1] - 1), (b[0], b[1] - 1)) not in pairs]
    found = []
    for a, b in starts:
        length = LEAST_RUN
        while ((a[0], a[1] + length - LEAST_RUN + 1), (b[0], b[1] + length - LEAST_RUN + 1)) in pairs:
            length += 1
        found.append((length, *(f"{os.path.relpath(path, TOP)}:{files[path][at][0]}" for path, at in (a, b))))
    return sorted(found, reverse=True)


def document_words():
    """The words of the documents, without CHANGELOG and the page that is made of the sources."""
    paths = [f"{TOP}/README.md", *glob.glob(f"{TOP}/docs/**/*.md", recursive=True)]
    return sum(len(read(path).split()) for path in paths if not path.endswith("docs/API.md"))


def say_clauses(names):
    for length, whole, clause in sorted((it for crate in names for it in measured(crate)), reverse=True)[:40]:
        print(f"{length} ({whole} unfolded)  {clause.crate} {clause.function}: {clause.text[:90]}")


def reach_of(word, every):
    """How many definitions one leads to, which is named by its crate, its file and its name."""
    crate, _, path = word.partition("/")
    file, _, name = path.rpartition("/")
    if (crate, file, name) not in every:
        sys.exit(f"{word} is no definition")
    return len(reached(every[crate, file, name], every))


def say_reach(words):
    every = every_definition()
    for word in words:
        print(f"{word}: {reach_of(word, every)} definitions")


def sizes_of(of_programs):
    """The lengths of all clauses of programs or of the library, and their lengths unfolded."""
    names = [it for it in crates() if is_program(it) == of_programs and not it.startswith(("test_", "example"))]
    sizes = [(length, whole) for crate in names for length, whole, _ in measured(crate)]
    return [it[0] for it in sizes], [it[1] for it in sizes]


def readme_lines():
    return len(read(f"{TOP}/README.md").splitlines())


def say_all():
    for title, of_programs in (("library", False), ("programs", True)):
        plain, whole = sizes_of(of_programs)
        print(f"{title}: {len(plain)} clauses; characters: half at most {part(plain, 0.5)}, nine tenths {part(plain, 0.9)},", end="")
        print(f" longest {max(plain)}, over 260: {sum(it > 260 for it in plain)}; unfolded, nine tenths {part(whole, 0.9)}")
    found = runs(crates())
    print(f"{len(found)} pairs of places with {LEAST_RUN} equal lines or more, {sum(it[0] for it in found)} lines")
    say_reach(["jwalk_iter/DirEntryIter/Answers"])
    print(f"documents: {document_words()} words; README: {readme_lines()} lines")


def check():
    """Compares the figures with their bounds, says which are above, and returns how many."""
    (library, _), (programs, unfolded_programs) = sizes_of(False), sizes_of(True)
    figures = {
        "words of the documents": document_words(),
        "lines of README": readme_lines(),
        "clauses of the library over 260 characters (0)": sum(it > 260 for it in library),
        "clauses of programs over 260 characters (0)": sum(it > 260 for it in programs),
        "characters of nine tenths of the library's clauses (110)": part(library, 0.9),
        "characters of nine tenths of the programs' clauses (110)": part(programs, 0.9),
        "the same, unfolded (110)": part(unfolded_programs, 0.9),
        "pairs of places with equal lines": len(runs(crates())),
        "definitions that DirEntryIter/Answers leads to (200)": reach_of("jwalk_iter/DirEntryIter/Answers", every_definition()),
    }
    above = [title for title, bound in BOUNDS.items() if figures[title] > bound]
    for title in above:
        print(f"{title}: {figures[title]}, and the bound is {BOUNDS[title]}")
    print(f"{len(BOUNDS) - len(above)} of {len(BOUNDS)} figures are within their bounds")
    return len(above)


def main():
    verb, words = (sys.argv[1:] or [""])[0], sys.argv[2:]
    if verb == "--check":
        sys.exit(1 if check() else 0)
    elif verb == "clauses":
        say_clauses(words or crates())
    elif verb == "reach":
        say_reach(words)
    elif verb == "twice":
        for length, one, other in runs(words or crates()):
            print(f"{length} lines: {one} {other}")
    else:
        say_all()


if __name__ == "__main__":
    main()
