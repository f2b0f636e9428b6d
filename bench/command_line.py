"""Reads a command line out of the code that makes it, by running that code: functions of one file that call each other,
`Arg` and `Command` of the crate `clap`, and the methods of both. Nothing else is known of it, so an option that is added
in any of these forms is found.
"""
import re

TOKEN = re.compile(
    r"""(?P<skip>\s+|//[^\n]*) | (?P<text>"(?:[^"\\]|\\.)*") | (?P<char>'(?:[^'\\]|\\.)') | (?P<life>'\w+)
    | (?P<number>\d+) | (?P<name>\w+!?(?!=)) | (?P<mark>::|->|\.\.=?|.)""",
    re.X | re.S,
)
CLOSES = {"(": ")", "[": "]", "{": "}"}


class Made:
    """An `Arg` or a `Command`: what was said of it, by method."""

    def __init__(self, name):
        self.name, self.said = name, {}

    def call(self, method, values):
        self.said.setdefault(method, []).append(values)
        return self

    def get(self, method, default=None):
        """What one value was said of it last by this method."""
        return self.said[method][-1][0] if method in self.said else default


def tokens_of(text):
    """The words of a file, each with its kind."""
    found = []
    for match in TOKEN.finditer(text):
        if match.lastgroup != "skip":
            found.append((match.lastgroup, match[0]))
    return found


class Reader:
    """A place in the words of a file."""

    def __init__(self, tokens, at=0):
        self.tokens, self.at = tokens, at

    def peek(self):
        return self.tokens[self.at][1] if self.at < len(self.tokens) else ""

    def next(self):
        self.at += 1
        return self.tokens[self.at - 1]

    def take(self, word):
        """Whether this word comes next, which is passed then."""
        if self.peek() == word and self.tokens[self.at][0] not in ("text", "char"):
            self.at += 1
            return True
        return False

    def expect(self, word):
        if not self.take(word):
            near = " ".join(it for _, it in self.tokens[max(self.at - 8, 0) : self.at + 4])
            raise SystemExit(f"{word!r} is not what comes near: {near}")

    def skip_block(self):
        """Passes a bracket and all up to the one that closes it."""
        closing = CLOSES[self.next()[1]]
        while not self.take(closing):
            if self.peek() in CLOSES and self.tokens[self.at][0] == "mark":
                self.skip_block()
            else:
                self.next()

    def skip_to(self, *words):
        while self.peek() not in words:
            self.next()


class Code:
    """The functions and constants of a file."""

    def __init__(self, text):
        self.tokens = tokens_of(text)
        self.functions, self.constants = {}, {}
        at = Reader(self.tokens)
        while at.at < len(self.tokens):
            if at.take("fn"):
                self.function(at)
            elif at.take("static") or at.take("const"):
                name = at.next()[1]
                at.skip_to("=")
                at.next()
                self.constants[name] = at.at
                at.skip_to(";")
            else:
                at.next()

    def function(self, at):
        name = at.next()[1]
        at.skip_to("(")
        start = at.at + 1
        at.skip_block()
        end = at.at - 1
        at.skip_to("{", "ensures", "requires")
        while at.peek() != "{":
            at.skip_to("{")
            at.skip_block()
        self.functions[name] = self.parameters(start, end), at.at
        at.skip_block()

    def parameters(self, start, end):
        """The names of parameters: what is in front of a colon."""
        names = []
        for at in range(start, end - 1):
            if self.tokens[at + 1][1] == ":" and self.tokens[at][0] == "name":
                names.append(self.tokens[at][1])
        return names

    def run(self, name, values=()):
        """What a function returns."""
        parameters, body = self.functions[name]
        return Run(self, Reader(self.tokens, body), dict(zip(parameters, values))).block()


class Run:
    """One call of a function: its place, and what its names mean."""

    def __init__(self, code, at, names):
        self.code, self.at, self.names = code, at, names

    def block(self):
        self.at.expect("{")
        while self.at.take("let"):
            self.at.take("mut")
            name = self.at.next()[1]
            self.at.skip_to("=")
            self.at.next()
            self.names[name] = self.value()
            self.at.expect(";")
        value = self.value()
        self.at.expect("}")
        return value

    def values(self, closing):
        """Values up to this bracket."""
        found = []
        while not self.at.take(closing):
            found.append(self.value())
            self.at.take(",")
        return found

    def value(self):
        value = self.first()
        while True:
            if self.at.take("."):
                method = self.at.next()[1]
                if method == "call":
                    continue
                self.generics()
                self.at.expect("(")
                values = self.values(")")
                value = value.call(method, values) if isinstance(value, Made) else value
            elif self.at.take("..") or self.at.take("..="):
                if self.at.peek() not in (")", ",", "]"):
                    self.first()
            elif not self.at.take("?"):
                return value

    def generics(self):
        if self.at.take("::"):
            self.at.skip_to(">")
            self.at.next()

    def first(self):
        """A value, without what follows behind a dot."""
        self.at.take("&")
        kind, word = self.at.next()
        if kind in ("text", "char"):
            return re.sub(r"\\(.)", r"\1", word[1:-1])
        if kind == "number":
            return int(word)
        if word in "([":
            return self.values(CLOSES[word])
        return self.named(word)

    def named(self, word):
        """What a path, a macro or a call of a function is."""
        path = word
        while self.at.take("::"):
            if self.at.take("<"):
                self.at.skip_to(">")
                self.at.next()
            else:
                path += "::" + self.at.next()[1]
        if path.endswith("!"):
            return self.of_macro(path)
        if not self.at.take("("):
            return self.constant(path)
        values = self.values(")")
        if path in ("Arg::new", "Command::new"):
            return Made(values[1])
        if path in self.code.functions:
            return self.code.run(path, values)
        return values[0] if path in ("Ok", "Some") else path

    def of_macro(self, path):
        if path != "vec!":
            self.at.skip_block()
            return path
        self.at.expect("[")
        if self.at.take("in"):
            self.at.skip_to(";")
            self.at.next()
        return self.values("]")

    def constant(self, path):
        if path in self.names:
            return self.names[path]
        if path in self.code.constants:
            return Run(self.code, Reader(self.code.tokens, self.code.constants[path]), {}).value()
        return path


class Option:
    """One option, or one word that is none."""

    def __init__(self, arg):
        self.id = arg.name
        self.short, self.long = arg.get("short"), arg.get("long")
        self.longs = [self.long] * bool(self.long) + [name for name, *_ in arg.said.get("visible_alias", [])]
        self.help = arg.get("help", "")
        is_flag = arg.get("action") in ("ArgAction::Count", "ArgAction::SetTrue", "ArgAction::SetFalse", "ArgAction::Help")
        self.value = None if is_flag else arg.get("value_name", self.id.upper())
        choices = arg.get("value_parser")
        self.choices = choices if isinstance(choices, list) else []
        self.repeats = arg.get("action") in ("ArgAction::Append", "ArgAction::Count")
        self.is_hidden = bool(arg.get("hide"))
        self.is_required = arg.get("required") == "true"

    def is_option(self):
        return bool(self.short or self.long)


def command_line(text, function="command"):
    """The command that a function of this file makes: its name, what is said of it, and its options and words."""
    command = Code(text).run(function)
    args = []
    for method in ("arg", "args"):
        for (value, *_) in command.said.get(method, []):
            args += value if isinstance(value, list) else [value]
    return command, [Option(arg) for arg in args]
