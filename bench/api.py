#!/usr/bin/env python3
"""Writes docs/API.md out of the sources: all that users of the library can name, by the paths that they write.

    python3 bench/api.py           writes docs/API.md
    python3 bench/api.py --check   compares what is there with what it makes, and ends with status 1 if they differ

A new name is put into the last section, unless SECTIONS names it or its module. Contracts and ghost members aren't shown,
nor modules `laws`.
"""
import os
import re
import sys
import textwrap

from links import anchor
from public_items import Crates

TOP = os.path.dirname(os.path.dirname(os.path.abspath(__file__)))
PAGE = "docs/API.md"
WIDTH = 120

# The crates that users name. A path that begins with none of these is in the first.
CRATES = ["jwalk", "jwalk_contents_first", "jwalk_usage", "jwalk_subtotals", "jwalk_changes"]
CRATES += ["jwalk_ignore", "jwalk_callbacks", "jwalk_indexed_fs", "tree_walk", "tree_crew"]

# What each section has, in this order: items, and with `::` at the end all of a path that isn't named elsewhere.
SECTIONS = {
    "Build a walk": "WalkDir WalkDirGeneric Options Parallelism Host",
    "Take its answers": "DirEntryIter entries:: read_dir::Item read_dir::List",
    "Entries": "DirEntry file_system::FileType file_system::Metadata file_system::Details file_system::Moment"
    " file_system::Identity ReadChildren read_dir::Ancestors",
    "Errors": "Error Result",
    "Callbacks": "ClientState read_dir::ProcessReadDir read_dir::NoProcess read_dir::ByFn read_dir::FilterEntry"
    " read_dir::SkipNames read_dir::SortBy read_dir::Both read_dir::Calls read_dir::Closure read_dir::Compares"
    " read_dir::ByOrder read_dir::ByKey jwalk_callbacks::",
    "File systems": "file_system::FileSystem file_system::RealFs file_system::Patient file_system::MemoryFs"
    " file_system::BuildError file_system::Listed file_system::Seen file_system::Sink file_system:: jwalk_indexed_fs:: path_text::",
    "Contents first": "jwalk_contents_first:: jwalk_contents_first::iter::",
    "Totals": "jwalk_usage::",
    "Subtotals": "jwalk_subtotals:: jwalk_subtotals::SubtotalOptions jwalk_subtotals::iter:: jwalk_subtotals::WithSubtotal"
    " jwalk_subtotals::Subtotal jwalk_subtotals::SubtotalError jwalk_subtotals::Files",
    "Changes": "jwalk_changes::",
    "Ignore files": "jwalk_ignore::builder:: jwalk_ignore::states:: jwalk_ignore::ignore_files:: jwalk_ignore::excluding::"
    " jwalk_ignore::texts:: jwalk_ignore::real_texts:: jwalk_ignore::with_excludes:: jwalk_ignore::memory_texts::"
    " jwalk_ignore::rules::Rules jwalk_ignore::",
    "Crews": "Crew crew:: NoCrew Readers",
    "Trees that are no file system": "board::Plan tree_walk:: tree_crew::",
    "Single readings, and the parts of a walk": "read_dir:: read_dir_iter:: readings:: jwalk::",
}

HEAD = """# Public names

All that users of the library can name, by its path: public fields, variants and methods by their signatures, each with
the first sentence of its documentation, which goes on in the source. `bench/api.py` writes this page. [USE](USE.md)
begins with programs, and [PROMISES](internals/PROMISES.md) says what is proved.

`C` is the pair of a walk's states, `S` its file system, `P` its callback, `A` its allocator, and `W` or `L` who reads
ahead ([types](USE.md#types)). Left out are contracts, ghost members, and modules `laws`, whose functions do nothing.
Every type can be dropped.
"""

# Traits of which nothing is shown: all types have the first, and the second is for proofs alone.
UNSHOWN = ["Drop", "Model"]


def one_line(text):
    """A text of several lines in one, without the spaces and commas that only several lines have."""
    text = re.sub(r"\s+", " ", text)
    text = re.sub(r"([(<\[]) ", r"\1", text)
    return re.sub(r",? ([)\]>])", r"\1", text)


def depths(text):
    """How many brackets are around each letter of a text. A bracket isn't in itself."""
    depth, found = 0, []
    for at, letter in enumerate(text):
        depth -= letter in ")]>" and text[at - 1 : at + 1] not in ("->", "=>")
        found.append(depth)
        depth += letter in "([<"
    return found


def split_list(text):
    """The parts of a text between its commas, but for those in brackets."""
    commas = [at for at, depth in enumerate(depths(text)) if depth == 0 and text[at] == ","]
    return [text[first + 1 : last].strip() for first, last in zip([-1, *commas], [*commas, len(text)])]


def filled(text, indent):
    """The lines of a list, as many of its parts in each as it has room for."""
    lines = []
    for part in split_list(text):
        if lines and len(f"{lines[-1]} {part},") <= WIDTH:
            lines[-1] += f" {part},"
        elif part:
            lines += broken(f"{part},", indent)
    return lines


def broken(text, indent):
    """The lines of a text, of which the longest bracket is broken if it is too long for one: one before an arrow."""
    at_top = [at for at, depth in enumerate(depths(text)) if depth == 0]
    arrow = next((at for at in at_top if text.startswith("->", at)), len(text))
    starts = [at for at in at_top if text[at] in "([<"]
    starts = [at for at in starts if at < arrow] or starts
    if len(indent + text) <= WIDTH or not starts:
        return [indent + text]
    ends = [next(it for it in at_top if it > at) for at in starts]
    start, end = max(zip(starts, ends), key=lambda it: it[1] - it[0])
    rest = broken(text[end + 1 :], indent)
    rest[0] = indent + text[end] + rest[0].removeprefix(indent)
    return [indent + text[: start + 1], *filled(text[start + 1 : end], indent + "    "), *rest]


def laid_out(head, end, indent=""):
    """The lines of a signature, with what comes behind it."""
    text = one_line(re.sub(r"(\(\s*)mut self\b", r"\1self", head)).rstrip(",")
    if len(indent + text + end) <= WIDTH:
        return [indent + text + end]
    text, _, bounds = text.partition(" where ")
    if not bounds:
        return broken(text + end, indent)
    lines = [*broken(text, indent), f"{indent}where", *filled(bounds, indent + "    ")]
    return [*lines, indent + end.strip()] if end != ";" else [*lines[:-1], lines[-1].rstrip(",") + end]


def wrapped(text, before=""):
    return textwrap.wrap(
        text, WIDTH, initial_indent=before, subsequent_indent=before, break_long_words=False, break_on_hyphens=False
    )


def sentence(item):
    """The first sentence of an item's docs, without links, which lead from the source alone."""
    return re.sub(r"\[([^\]]+)\](\([^)]*\))?", r"\1", item.sentence())


def with_members(head, inside, keeps_more=False, indent=""):
    """The lines of what has fields, variants or methods."""
    if not inside:
        return laid_out(head, " { .. }" if keeps_more else " {}" if is_trait(head) else ";", indent)
    lines = laid_out(head, " {", indent)
    for item in inside:
        lines += member(item, indent + "    ", is_trait(head))
    return lines + [f"{indent}    .."] * keeps_more + [indent + "}"]


def is_trait(head):
    return head.startswith("trait ")


def member(item, indent, may_be_given=False):
    """The lines of a field, a variant or a method, with its first sentence. A trait may give the body of a method."""
    lines = wrapped(sentence(item), f"{indent}/// ")
    end = "," if item.kind in ("field", "variant") else " { .. }" if may_be_given and item.has_body else ";"
    if not item.inside:
        return lines + laid_out(item.head, end, indent)
    lines += with_members(item.head, item.inside, False, indent)
    return lines[:-1] + [lines[-1] + end]


class Page:
    """The public names of the crates, with the item of each, and the impls of all crates that these use."""

    def __init__(self):
        self.crates = Crates(f"{TOP}/crates")
        self.paths, self.items = {}, {}
        for crate in CRATES:
            for path, _, item in self.crates.public((crate, ()), [crate]):
                if path[-2] != "laws":
                    self.add("::".join(path), item)
        self.items = {path: item for item, path in self.paths.items()}
        self.impls = [(module, it) for module in self.modules() for it in self.crates.file(module).impls]

    def add(self, path, item):
        """Keeps the shortest of an item's paths in the first crate that has it."""
        known = self.paths.setdefault(item, path)
        if known.split("::")[0] == path.split("::")[0] and path.count("::") < known.count("::"):
            self.paths[item] = path

    def modules(self):
        """All modules of the crates that users name, and of those that these use."""
        names = list(CRATES)
        for name in names:
            for module in self.crates.modules((name, ())):
                yield module
                used = {path[0]: None for _, path in self.crates.file(module).names.values()}
                names += [it for it in used if self.crates.has(it) and it not in names]

    def named(self, module, text):
        """The item that a type's or a trait's text is of, or `None` for what isn't of these crates."""
        found = self.crates.lead(module, re.match(r"[\w:]*", text)[0].split("::"))
        return found[1] if found else None

    def is_shown(self, module, of_trait):
        """Whether users can name the trait of an impl, in these crates or in the standard library."""
        item = self.named(module, of_trait)
        return of_trait not in UNSHOWN and (item is None or item in self.paths)

    def parts(self, item):
        """The parts of an item's block of code: itself, and the impls of it, and of it as a trait for other types."""
        own, of_traits = {}, []
        for module, it in self.impls:
            of_type = self.named(module, it.of_type)
            if of_type is item and it.of_trait is None:
                own.setdefault(one_line(it.head), []).extend(it.inside)
            elif it.of_trait and self.is_shown(module, it.of_trait):
                if of_type is item or (of_type is None and self.named(module, it.of_trait) is item):
                    types = [one for one in it.inside if one.kind == "type"]
                    of_traits += with_members(it.head, types, not types)
        return own, of_traits

    def block(self, item):
        """The code that is shown of an item."""
        own, of_traits = self.parts(item)
        derived = re.findall(r"derive\w*\((.*?)\)", " ".join(item.attributes), re.S)
        shown = [it for it in ", ".join(derived).split(", ") if it not in ("", *UNSHOWN)]
        parts = [[f"#[derive({', '.join(shown)})]"] * bool(shown) + with_members(item.head, item.inside, item.keeps_more)]
        parts += [with_members(head, inside) for head, inside in own.items() if inside]
        parts += [of_traits] * bool(of_traits)
        return "\n\n".join("\n".join(part) for part in parts)

    def places(self):
        """Where each path stands: the section, and the first of its names that the path has, the longest."""
        listed = [(title, full(name)) for title, names in SECTIONS.items() for name in names.split()]
        for _, name in listed:
            if not name.endswith("::") and name not in self.items:
                sys.exit(f"{name} is no public name")
        return {path: max((it for it in listed if is_at(path, it[1])), key=lambda it: len(it[1])) for path in self.items}

    def sections(self):
        """Yields of each section its title, and its parts: a heading and items, of which functions stand together."""
        places = self.places()
        for title, names in SECTIONS.items():
            parts = {}
            for name in names.split():
                here = [path for path, place in places.items() if place == (title, full(name))]
                for path in sorted(here, key=lambda it: self.items[it].kind != "fn"):
                    is_fn = self.items[path].kind == "fn"
                    parts.setdefault(path.rpartition("::")[0] if is_fn else path, []).append(self.items[path])
            yield title, parts


def full(name):
    return name if name.split("::")[0] in CRATES else f"{CRATES[0]}::{name}"


def is_at(path, name):
    """Whether a name of SECTIONS is that of a path, or of what it is in."""
    return path.startswith(name) if name.endswith("::") else path == name


def heading(path, items):
    return f"Functions of `{path}`" if items[0].kind == "fn" else f"`{path}`"


def link(path, items):
    names = [it.name for it in items] if items[0].kind == "fn" else [path.split("::")[-1]]
    return ", ".join(f"[`{name}`](#{anchor(heading(path, items))})" for name in names)


def section(page, title, parts):
    """The lines of a section."""
    lines = ["", f"## {title}"]
    for path, items in parts.items():
        lines += ["", f"### {heading(path, items)}", ""]
        if items[0].kind == "fn":
            lines += ["```rust", *[line for item in items for line in member(item, "")], "```"]
        else:
            lines += [*wrapped(sentence(items[0])), "", "```rust", page.block(items[0]), "```"]
    return lines


def text():
    page = Page()
    sections = list(page.sections())
    lines = [HEAD, "| section | what is in it |", "|---|---|"]
    for title, parts in sections:
        links = ", ".join(link(path, items) for path, items in parts.items())
        lines.append(f"| [{title}](#{anchor(title)}) | {links} |")
    for title, parts in sections:
        lines += section(page, title, parts)
    return "\n".join(lines) + "\n"


def main():
    made = text()
    if sys.argv[1:] != ["--check"]:
        with open(f"{TOP}/{PAGE}", "w", encoding="utf-8") as file:
            file.write(made)
        return
    with open(f"{TOP}/{PAGE}", encoding="utf-8") as file:
        if file.read() != made:
            sys.exit(f"{PAGE} isn't what the sources say: run python3 bench/api.py")
    print(f"{PAGE} has the names of {sum(line.startswith('### ') for line in made.splitlines())} types and groups")


if __name__ == "__main__":
    main()
