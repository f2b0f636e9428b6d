#!/usr/bin/env python3
"""Makes the man pages and the shells' completions of the programs from the programs' own words, and the version that they
show from the file VERSION and the toolchain.

    python3 bench/man.py           writes docs/man, docs/completions and the version
    python3 bench/man.py --check   compares what is there with what it makes, and ends with status 1 if they differ

The options of a program with a crate NAME_words are those of its command.rt, with their texts, and of options.rt in
program_parts, which it calls. Those of `walk` are the table of words in docs/PROGRAM.md. What the pages say of statuses,
lines, sizes and times is in the documents, and so are their examples: calls with a remark, in blocks of sh. A page names
no file of the repository, which who installed the program may lack.
"""
import glob
import os
import re
import subprocess
import sys

from command_line import Made, Option, command_line

TOP = os.path.dirname(os.path.dirname(os.path.abspath(__file__)))
# The options that command lines share, and the forms of options.
SHARED = "crates/program_parts/src/options.rt"

# The version that programs show.
SHOWN = "crates/program_parts/src/version.rt"

# Values that are paths: of folders, and of any files.
FOLDERS, FILES = ["ROOT", "DIR", "PATH"], ["FILE"]

# The variables that programs read. Their documents name them too.
VARIABLES = {
    "seek": [
        ("COLUMNS", "the greatest width of lines of `-h`, if it is a number, in place of 80"),
        ("LS_COLORS", "the colors of types and of names, as `dircolors` writes them"),
        ("NO_COLOR", "with `--color auto` nothing is printed in colors if this is set and isn't empty"),
        ("XDG_CONFIG_HOME", "the folder with `git/config` and `git/ignore`, in place of `~/.config`"),
    ],
    "tally": [("COLUMNS", "the width of tables on a terminal, and the greatest of lines of `--help`, if it is a number, in place of 80")],
    "since": [("COLUMNS", "the greatest width of lines of `-h`, if it is a number, in place of 80")],
    "walk": [],
}


def read(path):
    try:
        with open(f"{TOP}/{path}", encoding="utf-8") as file:
            return file.read()
    except OSError as error:
        sys.exit(f"{path} can't be read: {error.strerror}")


def command_files():
    """The command lines of programs, of which each has a crate NAME with its main and a crate NAME_words."""
    names = [it.split("/")[1] for it in sorted(glob.glob("crates/*/src/main.rt", root_dir=TOP))]
    files = [f"crates/{name}_words/src/command.rt" for name in names]
    return [it for it in files if os.path.exists(f"{TOP}/{it}")]


class Program:
    """What a page and completions are made of. A section is a heading, pairs of a word and its text, and a paragraph."""

    def __init__(self, name, about, synopsis, options, words):
        self.name, self.about, self.synopsis = name, about, synopsis
        self.options, self.words = options, words
        # Whether an option may be one word with its value, as --color=never.
        self.joins = name != "walk"
        self.paragraphs, self.sections = [], []

    def add(self, heading, pairs, paragraph=""):
        self.sections.append((heading, pairs, paragraph))

    def add_variables(self, document):
        """The variables, which the document has to name."""
        for name, _ in VARIABLES[self.name]:
            if f"`{name}`" not in read(document):
                sys.exit(f"{document} doesn't name the variable {name}")
        if VARIABLES[self.name]:
            self.add("ENVIRONMENT", [(f"`{name}`", text) for name, text in VARIABLES[self.name]])

    def add_examples(self, document):
        """The first six calls of the document that have a remark, each with words that the program has."""
        known = [name for it in self.options for name in names_of(it)]
        calls = examples(read(document))[:6]
        for call, _ in calls:
            words = call.split(" | ")[0].split()
            bad = [it for it in words if it.startswith("--") and it.partition("=")[0] not in known]
            if bad or words[0] != self.name:
                sys.exit(f"{document} has the example {call!r}, which {self.name} doesn't take")
        if len(calls) < 6:
            sys.exit(f"{document} has {len(calls)} examples, calls with a remark, and not 6")
        self.add("EXAMPLES", [(f"`{call}`", text) for call, text in calls])


def toolchain():
    """What `rt version` prints."""
    try:
        return subprocess.run(["rt", "version"], capture_output=True, text=True, check=True).stdout.strip()
    except (OSError, subprocess.CalledProcessError) as error:
        sys.exit(f"`rt version` doesn't tell the toolchain: {error}")


def told_toolchain():
    """The toolchain that the programs' sources tell. Another machine may have another, and needs no other sources."""
    return re.search(r': &str = ".* \((.*)\)";', read(SHOWN))[1]


def shown_version(of_toolchain):
    """The file of programs' sources with the version that they show: that of VERSION, and a toolchain."""
    return re.sub(r'(?<=: &str = ").*(?=";)', f"{read('VERSION').strip()} ({of_toolchain})", read(SHOWN))


def plain_option(id, short, text):
    """An option of one word."""
    arg = Made(id).call("short", [short]).call("long", [id])
    return Option(arg.call("action", ["ArgAction::SetTrue"]).call("help", [text]))


# What the crate `clap` adds to a command line: help, unless the program has an option for it, and the version.
HELP, VERSION = plain_option("help", "h", "Print help"), plain_option("version", "V", "Print version")


def section(document, heading):
    """The lines of a document below a heading, up to the next."""
    lines = read(document).split("\n")
    if heading not in lines:
        sys.exit(f"{document} has no heading {heading!r}")
    start = lines.index(heading) + 1
    end = next((at for at in range(start, len(lines)) if lines[at].startswith("#")), len(lines))
    return lines[start:end]


def split_table(lines, first):
    """The rows of the table whose head begins with this cell, and the lines behind it."""
    start = next((at for at, line in enumerate(lines) if line.startswith(f"| {first} |")), None)
    if start is None:
        sys.exit(f"no table begins with {first!r}")
    end = next((at for at in range(start, len(lines)) if not lines[at].startswith("|")), len(lines))
    return [[cell.strip() for cell in line.split("|")[1:-1]] for line in lines[start + 2 : end]], lines[end:]


def table(lines, first):
    return split_table(lines, first)[0]


def paragraphs(lines):
    """The paragraphs of a document's lines, each in one line, without blocks of code."""
    text = re.sub(r"^```.*?^```", "", "\n".join(lines), flags=re.M | re.S)
    return [it.replace("\n", " ") for it in re.split(r"\n\n+", text.strip())]


def bullet(lines, head):
    """The item of a list that begins with this, in one line."""
    items = re.split(r"\n(?=- |\n)", "\n".join(lines))
    found = [it[2:].replace("\n ", "") for it in items if it.startswith(f"- **{head}**")]
    if not found:
        sys.exit(f"no item of a list begins with {head!r}")
    return found[0]


def examples(text):
    """The calls of a document that have a remark, and these."""
    blocks = re.findall(r"^```sh\n(.*?)^```", text, flags=re.M | re.S)
    return re.findall(r"^(.*\S)\s+# (.*)$", "".join(blocks), flags=re.M)


def without_links(text):
    """A text in which a link is its words, without a bracket that holds a link alone, and a bold word one like others."""
    text = text.replace("**", "")
    text = re.sub(r" \(\[[^]]*\]\([^)]*\)\)", "", text)
    return re.sub(r"\[([^]]*)\]\([^)]*\)", r"\1", text)


def shown_word(word):
    """A word that is no option, as the synopsis has it."""
    if word.is_required:
        return word.value
    return f"[{word.value}{'..' if word.repeats else ''}]"


def by_clap(path):
    """A program whose words are read by the crate `clap`."""
    command, args = command_line(read(path) + read(SHARED))
    name, page = command.name, f"docs/{command.name.upper()}.md"
    words = [it for it in args if not it.is_option()]
    shown = ["[OPTIONS]"] + [shown_word(it) for it in words]
    options = [it for it in args if it.is_option() and not it.is_hidden]
    options += [VERSION] if any(it.id == "help" for it in options) else [HELP, VERSION]
    made = Program(name, command.get("about"), " ".join(shown), options, words)
    made.paragraphs += paragraphs(section(page, f"# The program `{name}`"))
    made.add("ARGUMENTS", [(f"`{it.value}`", it.help) for it in words])
    add_sizes(made, page)
    statuses = table(read(page).split("\n"), "status")
    made.add("EXIT STATUS", [(f"`{row[0]}`", row[1]) for row in statuses])
    made.add_variables(page)
    made.add_examples(page)
    return made


def add_sizes(made, page):
    """What the document says of sizes, and of the times that words have."""
    lines = section(page, "## Sizes") if "## Sizes" in read(page).split("\n") else []
    rows = [row for row in table(section(page, "## Options"), "word") if " SIZE" in row[0]]
    if lines or rows:
        made.add("SIZES", [(row[0].split(",")[0], row[1]) for row in rows], "\n".join(paragraphs(lines)))
    if any(it.value == "TIME" for it in made.options):
        made.add("TIMES", [], bullet(section(page, "## What is found"), "A time"))


def walk():
    """The program `walk`, by docs/PROGRAM.md."""
    page = "docs/PROGRAM.md"
    head = section(page, "# The program `walk`")
    synopsis = next(line for line in head if line.startswith("walk "))
    options = []
    for word, effect in table(section(page, "## Words"), "word"):
        name, _, value = word.strip("`").partition(" ")
        arg = Made(name.strip("-")).call("long", [name.strip("-")]).call("help", [without_links(effect)])
        arg.call("value_name" if value else "action", [value or "ArgAction::SetTrue"])
        options.append(Option(arg))
    root = Option(Made("root").call("value_name", ["ROOT"]).call("help", ["Where the walk begins"]))
    made = Program("walk", "prints a line for each entry below a folder", synopsis[5:], options, [root])
    made.paragraphs += paragraphs(head)[:2]
    rows, behind = split_table(section(page, "## Lines of output"), "what the walk yields")
    made.add("LINES", [(row[1], row[0]) for row in rows], paragraphs(behind)[0])
    made.add("TOTALS", [], paragraphs(section(page, "## Totals"))[0])
    rows, behind = split_table(section(page, "## Lines of a tree"), "line")
    made.add("LINES OF A TREE", [(row[0], row[1]) for row in rows], paragraphs(behind)[0])
    rows = table(section(page, "## Statuses"), "status")
    made.add("EXIT STATUS", [(f"`{row[0]}`" if row[0] else "", row[1]) for row in rows])
    made.add_variables(page)
    made.add_examples(page)
    return made


# The man page


# The marks that a man page doesn't show as they are: in any text, and in what is typed.
MARKS = {"\\": "\\e", "-": "\\-"}
TYPED_MARKS = {**MARKS, "'": "\\(aq", "`": "\\(ga", "^": "\\(ha", "~": "\\(ti"}


def escaped(text, marks):
    return "".join(marks.get(it, it) for it in text)


def roff(text):
    """A text of a document, as a man page has it."""
    parts = re.split(r"`([^`]+)`", without_links(text))
    shown = [f"\\fB{escaped(it, TYPED_MARKS)}\\fR" if at % 2 else escaped(it, MARKS) for at, it in enumerate(parts)]
    return re.sub(r"^([.'])", r"\\&\1", "".join(shown))


def entries(pairs):
    """A list of words, each with what it means. A pair without a word goes on with the one before it."""
    lines = []
    for word, text in pairs:
        lines += [".TP", roff(word)] if word else [".IP"]
        lines.append(roff(text[:1].upper() + text[1:]))
    return lines


def words_of(option):
    """What a call has for an option."""
    names = names_of(option)
    value = f" {option.value}" if option.value else ""
    return ", ".join(f"`{it}`" for it in names) + value


def man_page(program, others):
    name, about = program.name, program.about
    lines = [
        '.\\" Made by bench/man.py.',
        f'.TH {name.upper()} 1 "" "jwalk {read("VERSION").strip()}"',
        ".SH NAME",
        f"{name} \\- {roff(about[:1].lower() + about[1:])}",
        ".SH SYNOPSIS",
        f".B {name}",
        roff(program.synopsis),
        ".SH DESCRIPTION",
    ]
    for at, paragraph in enumerate(program.paragraphs):
        lines += [".PP"] * (at > 0) + [roff(paragraph)]
    lines += [".SH OPTIONS"] + entries([(words_of(it), it.help) for it in program.options])
    for heading, pairs, paragraph in program.sections:
        lines += [f".SH {heading}"] + entries(pairs)
        for it in paragraph.split("\n") if paragraph else []:
            lines += [".PP", roff(it)]
    lines += [".SH SEE ALSO", ", ".join(f"\\fB{it}\\fR(1)" for it in others)]
    page = "\n".join(lines) + "\n"
    named = re.search(r"\S*(?:\.md|docs/|crates/|install\.sh|README)\S*", page)
    if named:
        sys.exit(f"the man page of {name} names {named[0]}, which its reader may lack")
    return page


# Completions


def short_text(text):
    """The first part of what an option means, without marks."""
    return re.split(r"\. |; | \[", without_links(text).replace("`", ""))[0]


def choices_of(option):
    """The values of an option, if it has a few: those that the parser lists, or else those that its text ends with."""
    listed = re.search(r": ((?:\w+, )*\w+ or \w+)$", option.help)
    return option.choices or (re.split(", | or ", listed[1]) if option.value and listed else [])


def bash_values(option):
    """What bash does for the value of an option. Without a word it completes files."""
    if option.value in FILES:
        return ""
    if option.value in FOLDERS:
        return "compopt +o default -o dirnames; "
    choices = choices_of(option)
    given = f'COMPREPLY=($(compgen -W "{" ".join(choices)}" -- "$word")); ' if choices else ""
    return f"compopt +o default; {given}"


def for_bash(program):
    name = program.name
    every = [word for it in program.options for word in names_of(it)]
    lines = [
        f"# Completions of {name} for bash, made by bench/man.py.",
        f"_{name}() {{",
        "    local word=${COMP_WORDS[COMP_CWORD]} before=${COMP_WORDS[COMP_CWORD - 1]}",
        "    if [[ $word == = ]]; then word=; elif [[ $before == = ]]; then before=${COMP_WORDS[COMP_CWORD - 2]}; fi",
        "    COMPREPLY=()",
        "    case $before in",
    ]
    for it in program.options:
        if it.value:
            lines.append(f"    {' | '.join(names_of(it))}) {bash_values(it)}return ;;")
    lines += [
        "    esac",
        f'    if [[ $word == -* ]]; then COMPREPLY=($(compgen -W "{" ".join(every)}" -- "$word")); fi',
        "}",
        f"complete -o default -F _{name} {name}",
    ]
    return "\n".join(lines) + "\n"


def names_of(option):
    """All names of an option, the short one first."""
    return [f"-{option.short}"] * bool(option.short) + [f"--{it}" for it in option.longs]


def quoted(text):
    """A text in single quotes, as a shell reads it."""
    return "'" + text.replace("'", "'\\''") + "'"


def zsh_values(option):
    """What zsh completes for the value of an option, or for a word."""
    if option.value in FOLDERS:
        return "_files -/"
    choices = choices_of(option)
    return "_files" if option.value in FILES else f"({' '.join(choices)})" if choices else " "


def for_zsh(program):
    specs = []
    for it in program.options:
        help_text = re.sub(r"([\[\]:\\])", r"\\\1", short_text(it.help))
        label = (it.value or "").replace(":", "\\:")
        value = f":{label}:{zsh_values(it)}" if it.value else ""
        ends = ("+", "=") if it.value and program.joins else ("", "")
        names = [f"-{it.short}{ends[0]}"] * bool(it.short) + [f"--{name}{ends[1]}" for name in it.longs]
        repeats = "*" if it.repeats else ""
        specs += [quoted(f"{repeats}{name}[{help_text}]{value}") for name in names]
    for at, it in enumerate(program.words, 1):
        where = "*" if it.repeats else at
        specs.append(quoted(f"{where}:{it.value}:{zsh_values(it)}"))
    lines = [f"#compdef {program.name}", f"# Completions of {program.name} for zsh, made by bench/man.py."]
    return "\n".join(lines) + "\n_arguments -s " + " \\\n    ".join(specs) + "\n"


def fish_values(option):
    """What fish completes for the value of an option."""
    if option.value in FILES:
        return ["-r -F"]
    choices = choices_of(option)
    given = "(__fish_complete_directories)" if option.value in FOLDERS else " ".join(choices)
    return ["-x"] * bool(option.value) + [f"-a {quoted(given)}"] * bool(given)


def for_fish(program):
    lines = [f"# Completions of {program.name} for fish, made by bench/man.py."]
    for it in program.options:
        words = [f"complete -c {program.name}"]
        words += [f"-s {it.short}"] * bool(it.short) + [f"-l {name}" for name in it.longs]
        lines.append(" ".join(words + fish_values(it) + [f"-d {quoted(short_text(it.help))}"]))
    return "\n".join(lines) + "\n"


def all_programs():
    return [walk()] + [by_clap(path) for path in command_files()]


def made(of_toolchain):
    """Each file that is made, with its text."""
    programs = all_programs()
    files = {SHOWN: shown_version(of_toolchain)}
    for program in programs:
        others = [it.name for it in programs if it is not program]
        files[f"docs/man/{program.name}.1"] = man_page(program, others)
        files[f"docs/completions/{program.name}.bash"] = for_bash(program)
        files[f"docs/completions/_{program.name}"] = for_zsh(program)
        files[f"docs/completions/{program.name}.fish"] = for_fish(program)
    return files


def main():
    checks = sys.argv[1:] == ["--check"]
    files = made(told_toolchain() if checks else toolchain())
    if checks:
        there = {SHOWN, *glob.glob("docs/man/*", root_dir=TOP), *glob.glob("docs/completions/*", root_dir=TOP)}
        wrong = sorted(there ^ set(files)) + [it for it in sorted(there & set(files)) if read(it) != files[it]]
        if wrong:
            sys.exit("not what bench/man.py makes: " + ", ".join(wrong))
        print(f"{len(files) - 1} man pages and completions, and the version, are what bench/man.py makes")
        return
    for path, text in files.items():
        os.makedirs(os.path.dirname(f"{TOP}/{path}"), exist_ok=True)
        with open(f"{TOP}/{path}", "w", encoding="utf-8") as file:
            file.write(text)


if __name__ == "__main__":
    main()
