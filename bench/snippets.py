#!/usr/bin/env python3
"""Compares the code that README.md and the documents show with the files of the crates.

    python3 bench/snippets.py

A block of `rust` (which stands for Rattle) or `antt` in these documents is code that the gate checks. The line directly
above it is a mark, with the file that has this text, or with a file and the name of a part of it:

    <!-- crates/example_first_walk/src/main.rt -->
    <!-- crates/examples/src/batch_walk.rt: loop -->

The part is what the file has between its lines `// begin loop` and `// end loop`, which in a file of antt begin with
`--`. Indentation that all lines of a part have in common is dropped, and so are lines that begin or end any part. A
block of `sh` (commands) or `text` (output, diagrams) needs no mark, and is compared if it has one.

docs/API.md isn't compared, which bench/api.py writes.

It prints how many blocks it compared. At the first that differs it prints the document, the line, the file and the
first line that differs, and ends with status 1. So it does at code without a mark, at a mark whose file or part is
missing, at a block of another language or that isn't closed, and at lines that are indented as code is that isn't
fenced: by four spaces, behind an empty line; and where it found no block at all.
"""
import itertools
import os
import re
import sys
import textwrap

from api import PAGE

TOP = os.path.dirname(os.path.dirname(os.path.abspath(__file__)))

# The languages of blocks, and whether code in them needs a mark.
NEEDS_MARK = {"rust": True, "antt": True, "sh": False, "text": False}

MARK = re.compile(r"\s*<!-- ([^\s:]+)(?:: (\S+))? -->")
EDGE = re.compile(r"\s*(?://|--) (begin|end) (\S+)")


class Wrong(Exception):
    """What is wrong with a block."""


def read(path):
    """The lines of a file of the repository."""
    try:
        with open(os.path.join(TOP, path), encoding="utf-8") as file:
            return file.read().splitlines()
    except OSError as error:
        raise Wrong(f"{path} can't be read: {error.strerror}") from None


def text_of(path, part):
    """The lines of a file, or of its part of this name, without those that begin or end a part."""
    lines = read(path)
    edges = [EDGE.fullmatch(line) for line in lines]
    first, last = 0, len(lines)
    if part:
        found = [(edge[1], at) for at, edge in enumerate(edges) if edge and edge[2] == part]
        if [word for word, _ in found] != ["begin", "end"]:
            raise Wrong(f"{path} has not just one part {part}, with a line that begins and one that ends it")
        first, last = found[0][1], found[1][1]
    kept = [line for line, edge in zip(lines[first:last], edges[first:last]) if not edge]
    return textwrap.dedent("\n".join(kept)).strip("\n").split("\n")


def blocks(lines):
    """Yields of each block the number of its first line, its language, the line above it, and its lines. The language
    is empty where the block isn't closed, and where it is indented and not fenced."""
    at, above = 0, ""
    while at < len(lines):
        line, start = lines[at], at
        at += 1
        if line.lstrip().startswith("```"):
            while at < len(lines) and lines[at].strip() != "```":
                at += 1
            indent = len(line) - len(line.lstrip())
            shown = [it[indent:] for it in lines[start + 1 : at]]
            yield start + 1, line.strip("` ") if at < len(lines) else "", above, shown
            at += 1
        elif line.startswith("    ") and not above.strip():
            yield start + 1, "", above, [line]
        above = line


def is_compared(language, above, shown):
    """Whether a block has a mark. Its text is then that of the mark's file."""
    if language not in NEEDS_MARK:
        raise Wrong("code has to be in a fenced block, closed, and marked as rust, antt, sh or text")
    mark = MARK.fullmatch(above)
    if not mark:
        if NEEDS_MARK[language]:
            raise Wrong("directly above this block there is no mark with the file that has its text")
        return False
    for at, (line, wanted) in enumerate(itertools.zip_longest(shown, text_of(mark[1], mark[2])), 1):
        if line != wanted:
            raise Wrong(f"line {at} of this block is {line!r}, and in {above.strip()} it is {wanted!r}")
    return True


def main():
    folders = ["docs", "docs/internals"]
    documents = ["README.md", *sorted(f"{at}/{it}" for at in folders for it in os.listdir(f"{TOP}/{at}") if it.endswith(".md"))]
    documents.remove(PAGE)
    compared = 0
    for document in documents:
        for number, *block in blocks(read(document)):
            try:
                compared += is_compared(*block)
            except Wrong as wrong:
                sys.exit(f"{document}, line {number}: {wrong}")
    if not compared:
        sys.exit("no block of the documents was compared")
    print(f"{compared} blocks of the documents are what their files have")


if __name__ == "__main__":
    main()
