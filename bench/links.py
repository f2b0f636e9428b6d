#!/usr/bin/env python3
"""Looks for dead links in the documents: to files that aren't there, and to headings that no document has. And looks
whether the picture at the head of ARCHITECTURE has each crate of the library and the programs once, above all that it
uses.

    python3 bench/links.py
"""
import glob
import os
import re
import sys

TOP = os.path.dirname(os.path.dirname(os.path.abspath(__file__)))
LINK = re.compile(r"\]\(([^)\s]+)\)")
# How many letters of a row of the picture say what is in it.
ROW_NAME = 16


def text_of(document):
    """A document without its blocks of code."""
    with open(f"{TOP}/{document}") as file:
        return re.sub(r"^```.*?^```", "", file.read(), flags=re.M | re.S)


def anchor(heading):
    """The name by which a link leads to a heading."""
    return re.sub(r"[^\w\- ]", "", heading.strip().lower()).replace(" ", "-")


def anchors(document):
    return {anchor(line.lstrip("#")) for line in text_of(document).splitlines() if line.startswith("#")}


def is_dead(document, link):
    path, _, heading = link.partition("#")
    leads_to = os.path.normpath(os.path.join(os.path.dirname(document), path)) if path else document
    if not os.path.exists(f"{TOP}/{leads_to}"):
        return True
    return bool(heading) and heading not in anchors(leads_to)


def uses():
    """The crates that each crate uses, by crates.txt, but for laws, examples and tests."""
    with open(f"{TOP}/crates.txt") as file:
        lines = [line.partition("#")[0].partition(":") for line in file]
    found = {name.strip(): used.split() for name, _, used in lines if name.strip()}
    return {name: used for name, used in found.items() if not re.match(r"example|test_|.*_laws$", name)}


def faults_of_picture():
    """What is wrong in the picture of the crates: a crate that isn't there once, or is below one that it uses."""
    with open(f"{TOP}/docs/internals/ARCHITECTURE.md") as file:
        picture = re.search(r"^```text\n(.*?)^```", file.read(), flags=re.M | re.S)[1]
    known, rows = uses(), [re.findall(r"\w+", line[ROW_NAME:]) for line in picture.splitlines()]
    at = {name: number for number, row in enumerate(rows) for name in row}
    found = [f"{name} isn't there once" for name in known if sum(row.count(name) for row in rows) != 1]
    found += [f"{name} is no crate" for name in at if name not in known]
    found += [f"{name} uses {used}" for name in known for used in known[name] if name in at and at.get(used, 99) <= at[name]]
    return found


def main():
    faults = faults_of_picture()
    if faults:
        sys.exit("the picture in ARCHITECTURE: " + "; ".join(faults))
    documents = sorted(glob.glob("*.md", root_dir=TOP) + glob.glob("docs/**/*.md", root_dir=TOP, recursive=True))
    links, dead = 0, []
    for document in documents:
        for link in LINK.findall(text_of(document)):
            if "://" not in link:
                links += 1
                dead += [f"{document}: {link}"] * is_dead(document, link)
    if dead:
        sys.exit("dead links:\n" + "\n".join(dead))
    print(f"{links} links of {len(documents)} documents lead somewhere")


if __name__ == "__main__":
    main()
