#!/usr/bin/env python3
"""Draws docs/figures.svg: the times of `walk` on the disk beside `find`, `fd` and `bfs`, as horizontal bars.

    python3 bench/figures.py [RESULTS [PICTURE]]

RESULTS is bench/figures.tsv where none is given: a file as `bench/real.py --save FILE` writes it. Its first line
says where the times were taken, and its rows are the milliseconds of each tree. PICTURE is docs/figures.svg where none
is given. A program without a column has no bars.
"""
import os
import sys
from html import escape

TOP = os.path.join(os.path.dirname(os.path.abspath(__file__)), "..")

# the column of the results, the label of its bars, and their colour
BARS = [
    ("serial", "walk, serial", "#1f5fa8"),
    ("best batch", "walk, best batch", "#4f8fd0"),
    ("crew 4", "walk, crew of 4", "#0d8a6a"),
    ("find", "find", "#8a8a8a"),
    ("fd", "fd -j4", "#a5a5a5"),
    ("bfs", "bfs", "#bdbdbd"),
]

TREES = {
    "wide": "200,000 files in one directory",
    "flat": "10,000 directories of 20 files",
    "deep": "40 chains of 100 directories, 10 files in each",
    "/usr": "/usr",
}

WIDTH, LEFT, RIGHT = 760, 150, 70
TITLE, HEADING, BAR, GAP, BETWEEN, BOTTOM = 64, 24, 15, 4, 16, 30


def read(path):
    """The line that says where the times were taken, and each tree with its milliseconds by column."""
    with open(path) as file:
        taken, header, *lines = file.read().splitlines()
    columns = header.split("\t")[1:]
    rows = [line.split("\t") for line in lines]
    return taken.lstrip("# "), [(row[0], dict(zip(columns, map(float, row[1:])))) for row in rows]


def text(x, y, words, more=""):
    return f'<text x="{x:.0f}" y="{y:.0f}"{more}>{escape(words)}</text>'


def bars(y, tree, times, scale):
    """The lines of a tree's bars, under its name, and where the next tree begins."""
    yield text(LEFT, y + 15, TREES.get(tree, tree), ' font-weight="bold"')
    y += HEADING
    for column, label, colour in BARS:
        if column not in times:
            continue
        long = times[column] * scale
        yield text(LEFT - 8, y + 12, label, ' text-anchor="end"')
        yield f'<rect x="{LEFT}" y="{y}" width="{long:.1f}" height="{BAR}" fill="{colour}"/>'
        yield text(LEFT + long + 6, y + 12, f"{times[column]:.0f} ms")
        y += BAR + GAP


def height(times):
    """The height of a tree's bars with its name."""
    return HEADING + sum(column in times for column, _, _ in BARS) * (BAR + GAP)


def said(rows):
    """All that the picture shows, in words."""
    for tree, times in rows:
        of = "; ".join(f"{label}: {times[column]:.0f} ms" for column, label, _ in BARS if column in times)
        yield f"{TREES.get(tree, tree)} - {of}."


def picture(taken, rows):
    longest = max(times[column] for _, times in rows for column, _, _ in BARS if column in times)
    scale = (WIDTH - LEFT - RIGHT) / longest
    tall = TITLE + sum(height(times) + BETWEEN for _, times in rows) + BOTTOM
    end = tall - BOTTOM - BETWEEN / 2
    yield f'<svg xmlns="http://www.w3.org/2000/svg" width="{WIDTH}" height="{tall}" viewBox="0 0 {WIDTH} {tall}"'
    yield ' role="img" aria-labelledby="title desc" font-family="sans-serif" font-size="13" fill="#222222">'
    yield '<title id="title">Time to list all below a directory, in milliseconds</title>'
    yield '<desc id="desc">'
    yield from map(escape, said(rows))
    yield "</desc>"
    yield f'<rect width="{WIDTH}" height="{tall}" fill="#ffffff"/>'
    heading = "Time to list all below a directory: a shorter bar is faster"
    yield text(LEFT, 26, heading, ' font-size="16" font-weight="bold"')
    yield text(LEFT, 46, taken, ' font-size="12" fill="#555555"')
    for ms in range(0, int(longest) + 1, 100):
        x = LEFT + ms * scale
        yield f'<line x1="{x:.1f}" y1="{TITLE}" x2="{x:.1f}" y2="{end:.0f}" stroke="#dddddd"/>'
        yield text(x, end + 16, f"{ms} ms", ' font-size="12" fill="#555555" text-anchor="middle"')
    y = TITLE
    for tree, times in rows:
        yield from bars(y, tree, times, scale)
        y += height(times) + BETWEEN
    yield "</svg>"


def main():
    results = sys.argv[1] if len(sys.argv) > 1 else os.path.join(TOP, "bench", "figures.tsv")
    path = sys.argv[2] if len(sys.argv) > 2 else os.path.join(TOP, "docs", "figures.svg")
    with open(path, "w") as file:
        file.writelines(line + "\n" for line in picture(*read(results)))


if __name__ == "__main__":
    main()
