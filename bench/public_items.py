"""Reads what crates have that others can name: types, traits and functions, by the paths that lead to them. Contracts,
ghost members and the bodies of functions are passed over.
"""
import os
import re
from collections import namedtuple

TOKEN = re.compile(
    r"""(?P<doc>///[^\n]*) | (?P<skip>\s+|//[^\n]*|/\*.*?\*/) | (?P<text>b?"(?:[^"\\]|\\.)*")
    | (?P<char>b?'(?:[^'\\\n]|\\[^\n']+|\\')') | (?P<life>'\w+) | (?P<name>\w+) | (?P<mark>::|->|=>|.)""",
    re.X | re.S,
)
CLOSES = {"(": ")", "[": "]", "{": "}"}
# The words that begin a clause of a contract.
CLAUSES = ("ghost", "requires", "ensures", "decreases")
KINDS = ("struct", "enum", "trait", "type", "const", "fn", "unsafe")

# A word of a file, and where it is there.
Token = namedtuple("Token", "kind text start end")
# An impl: its text up to its members, the text of its trait, or `None`, and of its type, and its members.
Impl = namedtuple("Impl", "head of_trait of_type inside")


class Item:
    """A struct, an enum, a trait, a type, a constant, a function, a field or a variant. `head` is its text up to what is
    in it, and `inside` has its public fields, its variants or its members. `keeps_more` is true if it has others."""

    def __init__(self, kind, name, head, docs, attributes):
        self.kind, self.name, self.head, self.attributes = kind, name, head, attributes
        self.docs = [line.removeprefix("///").strip() for line in docs]
        self.inside, self.keeps_more, self.has_body, self.is_public = [], False, False, False

    def sentence(self):
        """The first sentence of its docs."""
        paragraph = " ".join(self.docs[: self.docs.index("")] if "" in self.docs else self.docs)
        end = re.search(r"[.!?](?=\s+[A-Z0-9`\[(\"&])", paragraph)
        return paragraph[: end.end()] if end else paragraph


class Reader:
    """A place in the words of a file."""

    def __init__(self, text):
        self.text, self.at, self.renamed = text, 0, {}
        found = TOKEN.finditer(text)
        self.tokens = [Token(it.lastgroup, it[0], it.start(), it.end()) for it in found if it.lastgroup != "skip"]

    def peek(self, ahead=0):
        return self.tokens[self.at + ahead].text if self.at + ahead < len(self.tokens) else ""

    def next(self):
        self.at += 1
        return self.tokens[self.at - 1].text

    def take(self, *words):
        """Whether one of these words comes next, which is passed then."""
        if self.peek() in words:
            self.at += 1
            return True
        return False

    def pass_one(self):
        """Passes one word, or a bracket with all up to the one that closes it."""
        close = CLOSES.get(self.next())
        while close and not self.take(close):
            self.pass_one()

    def pass_to(self, *ends):
        """Passes all up to one of these words outside of brackets, those of generics too."""
        depth = 0
        while depth or self.peek() not in ends:
            depth += {"<": 1, ">": -1}.get(self.peek(), 0)
            self.pass_one()

    def since(self, start):
        """The text from the word of this number up to this place, with paths for names that this file alone has."""
        text = self.text[self.tokens[start].start : self.tokens[self.at - 1].end]
        for name, path in self.renamed.items():
            text = re.sub(rf"\b{name}\b", "::".join(path), text)
        return text


class File:
    """What a file has: items, impls, modules, each with whether it is public, and names that it uses, each with whether
    it is public and with its path."""

    def __init__(self, text):
        self.items, self.impls, self.modules, self.names = [], [], {}, {}
        self.reader = Reader(text)
        while self.reader.peek():
            self.read_item()

    def marks(self):
        """Passes docs, attributes and a visibility, and returns them."""
        reader, docs, attributes = self.reader, [], []
        while reader.peek() == "#" or reader.peek().startswith("///"):
            start = reader.at
            if reader.take("#"):
                reader.take("!")
                reader.pass_one()
                attributes.append(reader.since(start))
            else:
                docs.append(reader.next())
        is_public = reader.take("pub")
        if is_public and reader.peek() == "(":
            reader.pass_one()
            is_public = False
        return docs, attributes, is_public

    def read_item(self):
        docs, attributes, is_public = self.marks()
        reader = self.reader
        if reader.peek() in KINDS:
            item = self.read_one(docs, attributes)
            item.is_public = is_public
            self.items.append(item)
        elif reader.take("use"):
            self.read_use(is_public, [])
        elif reader.take("mod"):
            self.modules[reader.next()] = is_public
        elif reader.peek() == "impl":
            self.read_impl()
        elif reader.take("ghost"):
            reader.pass_to(";")
        else:
            reader.pass_one()

    def read_use(self, is_public, path):
        """Reads the names of a `use`, up to what is behind them."""
        reader = self.reader
        while reader.peek() not in (";", ",", "}"):
            if reader.take("{"):
                while not reader.take("}"):
                    self.read_use(is_public, path)
                    reader.take(",")
            elif reader.take("as"):
                self.names[reader.peek()] = self.names.pop(path[-1])
                reader.renamed[reader.next()] = path
            elif not reader.take("::"):
                path = path + [reader.next()]
                if reader.peek() != "::":
                    self.names[path[-1]] = (is_public, path)

    def read_one(self, docs, attributes):
        """Reads an item or a member, from the word that says what it is."""
        reader = self.reader
        reader.take("final")
        start = reader.at
        while reader.peek() in ("unsafe", "const") and reader.peek(1) in KINDS:
            reader.next()
        kind, name = reader.next(), reader.next()
        if kind == "fn":
            return self.read_fn(start, name, docs, attributes)
        reader.pass_to("{", ";", "(") if kind in ("struct", "enum", "trait") else reader.pass_to(";")
        item = Item(kind, name, reader.since(start), docs, attributes)
        if reader.peek() == "(":
            self.read_tuple(item, start)
        elif reader.take("{"):
            self.read_inside(item)
        return item

    def read_fn(self, start, name, docs, attributes):
        reader = self.reader
        reader.pass_to(*CLAUSES, "{", ";")
        item = Item("fn", name, reader.since(start).rstrip(","), docs, attributes)
        while reader.peek() in CLAUSES:
            reader.pass_to("{")
            reader.pass_one()
        item.has_body = reader.peek() == "{"
        reader.pass_one()
        return item

    def read_tuple(self, item, start):
        """Reads the fields of a struct that have no names."""
        reader, first = self.reader, self.reader.at
        reader.pass_one()
        if any(it.text == "pub" for it in reader.tokens[first : reader.at]):
            item.head = reader.since(start)
        else:
            item.keeps_more = True

    def read_inside(self, item):
        """Reads fields, variants or members, up to the closing bracket."""
        reader = self.reader
        while not reader.take("}"):
            docs, attributes, is_public = self.marks()
            if reader.peek() == "ghost":
                reader.pass_to(";", ",", "}")
            elif item.kind == "trait":
                item.inside.append(self.read_one(docs, attributes))
            elif is_public or item.kind in ("enum", "variant"):
                item.inside.append(self.read_field(item.kind, docs, attributes))
            else:
                reader.pass_to(",", "}")
                item.keeps_more = True
            reader.take(";", ",")

    def read_field(self, of, docs, attributes):
        """Reads a field, or a variant, which may have fields of its own."""
        reader, start = self.reader, self.reader.at
        reader.pass_to(*("{", ",", "}") if of == "enum" else (",", "}"))
        name = reader.tokens[start].text
        item = Item("variant" if of == "enum" else "field", name, reader.since(start), docs, attributes)
        if of == "enum" and reader.take("{"):
            self.read_inside(item)
        return item

    def read_impl(self):
        reader, start = self.reader, self.reader.at
        reader.next()
        if reader.peek() == "<":
            reader.next()
            reader.pass_to(">")
            reader.next()
        first, of_trait = reader.at, None
        reader.pass_to("for", "where", "{")
        if reader.peek() == "for":
            of_trait = reader.since(first)
            reader.next()
            first = reader.at
            reader.pass_to("where", "{")
        of_type = reader.since(first)
        reader.pass_to("{")
        head = reader.since(start)
        reader.next()
        self.impls.append(Impl(head, of_trait, of_type, self.read_members(of_trait is not None)))

    def read_members(self, are_all_public):
        """Reads the members of an impl, and returns those that others can name."""
        reader, inside = self.reader, []
        while not reader.take("}"):
            docs, attributes, is_public = self.marks()
            if reader.peek() == "ghost":
                reader.pass_to(";")
            else:
                inside += [self.read_one(docs, attributes)] * (is_public or are_all_public)
            reader.take(";")
        return inside


class Crates:
    """The crates of a folder. A module is a crate's name and the names that lead to the module there."""

    def __init__(self, top):
        self.top, self.files = top, {}

    def has(self, name):
        return name != "" and os.path.isdir(f"{self.top}/{name}")

    def file(self, module):
        if module not in self.files:
            crate, names = module
            with open(f"{self.top}/{crate}/src/{'/'.join(names) or 'lib'}.rt", encoding="utf-8") as file:
                self.files[module] = File(file.read())
        return self.files[module]

    def modules(self, module):
        """Yields a module and all below it, public or not."""
        yield module
        for name in self.file(module).modules:
            yield from self.modules((module[0], module[1] + (name,)))

    def lead(self, module, path):
        """Where a path leads that is written in a module: to a module, or to one and the item there; `None` for what
        isn't in these crates."""
        if path[0] == "crate":
            return self.below((module[0], ()), path[1:])
        if path[0] == "super":
            return self.below((module[0], module[1][:-1]), path[1:])
        found = self.below(module, path)
        if found is None and self.has(path[0]):
            return self.below((path[0], ()), path[1:])
        return found

    def below(self, module, path):
        """Where a path leads that begins in a module."""
        if not path:
            return module
        file, name = self.file(module), path[0]
        if name in file.modules:
            return self.below((module[0], module[1] + (name,)), path[1:])
        item = next((it for it in file.items if it.name == name), None)
        if item and len(path) == 1:
            return module, item
        if name in file.names and file.names[name][1] != path:
            return self.lead(module, file.names[name][1] + path[1:])
        return None

    def public(self, module, path):
        """Yields all that others can name of a module, which they name by this path: the path of each, the module that
        has it, and the item."""
        file = self.file(module)
        for item in [it for it in file.items if it.is_public]:
            yield path + [item.name], module, item
        for name in [it for it, is_public in file.modules.items() if is_public]:
            yield from self.public((module[0], module[1] + (name,)), path + [name])
        for name in [it for it, (is_public, _) in file.names.items() if is_public]:
            found = self.lead(module, file.names[name][1])
            if found and isinstance(found[1], Item):
                yield path + [name], *found
            elif found:
                yield from self.public(found, path + [name])
