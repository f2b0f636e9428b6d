#!/usr/bin/env python3
"""Rows of ignore files, paths and what git says of them, as in tests/seek/ignore_paths.t.

    python3 bench/ignore.py [SEED [COUNT]]
    python3 bench/ignore.py speed [PROGRAM ..]      times of `seek` beside `fd` (ignore_speed.py)
    python3 bench/ignore.py config [PROGRAM]        texts of git's configuration (ignore_config.py)

Makes random ignore files and paths, and asks `git check-ignore` about each in a fresh repository, with the directories
on disk, since git takes a path's type from there. A row is left out where git's answer is about a directory above the
path, and where a literal text has `**` directly behind it: git 2.39 matches more there than it documents. So is one with
a path that is no UTF-8, which `seek` doesn't print. A row is a repository with the file and the path, and what `seek`
leaves of it.
"""
import os
import random
import re
import subprocess
import sys
import tempfile

import ignore_config
import ignore_speed

ENVIRONMENT = dict(os.environ, GIT_CONFIG_GLOBAL="/dev/null", GIT_CONFIG_SYSTEM="/dev/null", LC_ALL="C")

# What git documents, and each odd form: files, with the paths to ask about.
FIXED = [
    (b"", [b"a"]),
    (b"# a\n\n  \n", [b"# a", b"a"]),
    (b"\\#a\n\\!b\n", [b"#a", b"!b", b"a"]),
    (b"hello.*\n", [b"hello.txt", b"a/hello.java", b"hello"]),
    (b"/hello.*\n", [b"hello.txt", b"a/hello.java"]),
    (b"foo/\n", [b"foo/", b"a/foo/", b"b/foo"]),
    (b"doc/frotz\n", [b"doc/frotz", b"a/doc/frotz"]),
    (b"/doc/frotz\n", [b"doc/frotz", b"a/doc/frotz"]),
    (b"foo/*\n", [b"foo/test.json", b"foo/bar/", b"a/foo/b"]),
    (b"**/foo\n", [b"foo", b"a/foo", b"a/b/foo"]),
    (b"**/foo/bar\n", [b"foo/bar", b"a/foo/bar", b"a/foo/b/bar"]),
    (b"abc/**\n", [b"abc/", b"abc/x", b"a/abc/x"]),
    (b"a/**/b\n", [b"a/b", b"a/x/b", b"a/x/y/b", b"x/a/b"]),
    (b"a/***/b\n", [b"a/b", b"a/x/y/b"]),
    (b"a/x**y/b\n", [b"a/xzy/b", b"a/xy/b", b"a/x/y/b"]),
    (b"*.o\n!keep.o\n", [b"a.o", b"keep.o", b"b/keep.o", b"o"]),
    (b"!keep.o\n*.o\n", [b"keep.o"]),
    (b"a\n!a\na\n", [b"a"]),
    (b"b  \n", [b"b", b"b  "]),
    (b"b\\ \n", [b"b", b"b "]),
    (b"b\\  \n", [b"b", b"b ", b"b  "]),
    (b"b\\\\ \n", [b"b\\", b"b\\ "]),
    (b"b\t\n", [b"b", b"b\t"]),
    (b"b\r\n", [b"b", b"b\r"]),
    (b"b\r", [b"b", b"b\r"]),
    (b"b \r\n", [b"b"]),
    (b"b\r\r\n", [b"b", b"b\r"]),
    (b"b\r \n", [b"b", b"b\r"]),
    (b"\xef\xbb\xbfb\n", [b"b"]),
    (b"a\n\xef\xbb\xbfb\n", [b"b", b"\xef\xbb\xbfb"]),
    (b"\xef\xbb\xbf#b\n", [b"#b"]),
    (b"# caf\xe9\nb\n", [b"b"]),
    (b"caf?\n", [b"caf\xe9", b"caf\xc3\xa9"]),
    (b"b\0c\n", [b"b", b"bc"]),
    (b"a\\\n", [b"a", b"a\\"]),
    (b"a\\b\n", [b"ab", b"a\\b"]),
    (b"a\\/\n", [b"a/", b"a\\/"]),
    (b"a\\/b\n", [b"a/b"]),
    (b"\\a\\*\n", [b"a*", b"ab"]),
    (b"/\n", [b"a/"]),
    (b"//\n", [b"a/"]),
    (b"//a\n", [b"a"]),
    (b"a//b\n", [b"a/b"]),
    (b"!\n", [b"a"]),
    (b"!!a\n", [b"!a", b"a"]),
    (b"*\n", [b"a", b"a.b", b".a"]),
    (b"*/\n", [b"a/", b"b"]),
    (b"/*\n!/a\n", [b"a", b"b"]),
    (b"**\n", [b"a"]),
    (b"/**\n", [b"a"]),
    (b"**/\n", [b"a/", b"b"]),
    (b"a/**/\n", [b"a/b/", b"a/c"]),
    (b"*/b\n", [b"a/b", b"b", b"x/a/b"]),
    (b"a*/b\n", [b"a/b", b"ax/b", b"a/x/b"]),
    (b"a?b\n", [b"axb", b"a/b", b"ab"]),
    (b"x/a?b\n", [b"x/axb", b"x/a/b"]),
    (b"x/a[^x]b\n", [b"x/ayb", b"x/axb", b"x/a/b"]),
    (b"x/a[/]b\n", [b"x/a/b"]),
    (b"[a/b]\n", [b"a", b"x/a"]),
    (b"[a-c]\n", [b"a", b"b", b"d", b"-"]),
    (b"[c-a]\n", [b"a", b"b", b"c"]),
    (b"[!a-c]\n", [b"a", b"d"]),
    (b"[^a-c]\n", [b"a", b"d"]),
    (b"[a-]\n", [b"a", b"-", b"b"]),
    (b"[-a]\n", [b"a", b"-", b"b"]),
    (b"[]-a]\n", [b"]", b"^", b"a", b"b"]),
    (b"[!]a-]\n", [b"]", b"^", b"a", b"-"]),
    (b"[]]\n", [b"]", b"[]]"]),
    (b"[]\n", [b"[]", b"]"]),
    (b"[a\n", [b"[a", b"a"]),
    (b"a[\n", [b"a[", b"a"]),
    (b"[!\n", [b"[!", b"!"]),
    (b"[\\]]\n", [b"]", b"\\"]),
    (b"[\\\\-^]\n", [b"\\", b"]", b"^", b"_"]),
    (b"[a-\\c]\n", [b"a", b"b", b"c", b"\\"]),
    (b"[a-c-e]\n", [b"b", b"d", b"-", b"e"]),
    (b"[a-c--0]\n", [b"b", b"-", b"0", b"d"]),
    (b"[[:alpha:]]\n", [b"a", b"Z", b"1", b"\xe9"]),
    (b"[![:digit:]x]\n", [b"a", b"1", b"x"]),
    (b"[[:alpha:]-z]\n", [b"a", b"-", b"z", b"{"]),
    (b"[a-[:alpha:]]\n", [b"a]", b"b", b":]"]),
    (b"[[:foo]\n", [b"[", b":", b"f", b"o"]),
    (b"[[:foo:]]\n", [b"[", b":", b"f", b"f]"]),
    (b"[[:]\n", [b"[", b":"]),
    (b"[[::]]\n", [b"[", b":", b":]"]),
    (b"[[:alpha:]\n", [b"a", b"["]),
    (b"[[]\n", [b"["]),
    (b"[[a]\n", [b"[", b"a"]),
    (b"*a*a*a*a*a*b\n", [b"aaaaaaaaaaaaaaaaaaaa", b"aaaaaaaab"]),
    (b"a*b*c\n", [b"abc", b"axbxbc", b"abcb"]),
    (b"**/a/**/a/**/b\n", [b"a/a/a/a/a/a/c", b"a/x/a/b", b"a/b"]),
    (b"a/**/**/b\n", [b"a/b", b"a/x/b"]),
    (b"**/**\n", [b"a", b"a/b"]),
]


def ask(rows):
    """Git's answers to (file, path, is_dir) in a fresh repository: the pattern that decides, or empty."""
    with tempfile.TemporaryDirectory() as folder:
        def git(*words, data=b""):
            return subprocess.run(["git", *words], cwd=folder, env=ENVIRONMENT, input=data, capture_output=True).stdout

        git("init", "-q", ".")
        git("config", "core.ignorecase", "false")
        answers = []
        for index, (rules, asked) in enumerate(rows):
            top = b"r%d" % index
            base = os.path.join(os.fsencode(folder), top)
            os.mkdir(base)
            with open(os.path.join(base, b".gitignore"), "wb") as file:
                file.write(rules)
            for path, is_dir in asked:
                try:
                    os.makedirs(os.path.join(base, path if is_dir else os.path.dirname(path)), exist_ok=True)
                    if not is_dir:
                        open(os.path.join(base, path), "wb").close()
                except OSError:
                    pass
            names = b"".join(top + b"/" + path + b"\0" for path, _ in asked)
            fields = git("check-ignore", "--no-index", "-v", "-n", "-z", "--stdin", data=names).split(b"\0")
            answers.append([fields[i + 2] for i in range(0, len(fields) - 1, 4)])
        return answers


def settled(rules):
    """Whether git's answer is what it documents."""
    for line in rules.split(b"\n"):
        line = line.rstrip(b"\r").lstrip(b"!")
        literal = re.match(rb"[^*?\[\\]*", line).group()
        behind = line[len(literal):]
        if b"/" in line.rstrip(b"/") and behind.startswith(b"**") and literal.lstrip(b"/") and not literal.endswith(b"/"):
            return False
        if b"**\\/" in line:
            return False
    return True


def answered(rows):
    """The rows of each file whose answer is about the path itself."""
    wanted = []
    for rules, asked in rows:
        paths = {}
        rows_of = {path for path, _ in asked}
        for path, is_dir in asked:
            parts = path.split(b"/")
            for end in range(1, len(parts)):
                paths[b"/".join(parts[:end])] = True
            paths.setdefault(path, is_dir)
        wanted.append((rules, [(p, d) for p, d in paths.items()], rows_of))
    for (rules, asked, rows_of), answers in zip(wanted, ask([(rules, asked) for rules, asked, _ in wanted])):
        if len(answers) != len(asked):
            continue
        by_path = {path: answer for (path, _), answer in zip(asked, answers)}
        for path, is_dir in asked:
            if path not in rows_of:
                continue
            parts = path.split(b"/")
            above = [by_path[b"/".join(parts[:end])] for end in range(1, len(parts))]
            if any(answer and not answer.startswith(b"!") for answer in above):
                continue
            answer = by_path[path]
            yield rules, path, is_dir, "Unsaid" if not answer else "Kept" if answer.startswith(b"!") else "Ignored"


def random_rows(random, count):
    """Random files of a few lines, with random paths."""
    pieces = [b"a", b"b", b"ab", b"*", b"?", b"**", b"/", b"/", b"[ab]", b"[!a]", b"\\a", b"**/", b"/**", b"[a-b]", b" "]
    names = [b"a", b"b", b"ab", b"ba", b"aab", b"abb"]
    for _ in range(count):
        lines = [(b"!" if random.random() < 0.3 else b"") + b"".join(random.choice(pieces) for _ in range(random.randint(1, 5)))
                 for _ in range(random.randint(1, 3))]
        rules = b"\n".join(lines) + b"\n"
        if settled(rules):
            yield rules, [(b"/".join(random.choice(names) for _ in range(random.randint(1, 4))), random.random() < 0.4)
                          for _ in range(4)]


def escaped(data):
    """A text as files of rows have it: a space at its end, and what isn't printed, as bytes."""
    text = "".join(c if c.isprintable() else "".join(f"\\x{byte:02x}" for byte in c.encode(errors="surrogateescape"))
                   for c in data.decode(errors="surrogateescape"))
    return text[:-1] + "\\x20" if text.endswith(" ") else text


def row_of(rules, path, is_dir, answer):
    """The lines of a row. What is below an ignored directory isn't asked, so the folders above the path are left."""
    parts = path.split(b"/")
    above = [b"/".join(parts[:end]) for end in range(1, len(parts))]
    left = [b".gitignore", *above, *([] if answer == "Ignored" else [path])]
    lines = rules.removesuffix(b"\n").split(b"\n")
    lines = [b"\n".join(lines)] if b"" in lines[:-1] else lines if rules else []
    kind = "d" if is_dir else "f 1"
    said = ["tree", "  d /r/.git", f"  {kind} /r/{escaped(path)}", "rules /r/.gitignore"]
    said += [f"  {escaped(line)}" for line in lines]
    return [*said, "$ seek -H . /r", *(f"  /r/{escaped(path)}" for path in sorted(left, key=lambda it: it.split(b"/"))), ""]


def main():
    if sys.argv[1:2] == ["speed"]:
        return ignore_speed.main(sys.argv[2:])
    if sys.argv[1:2] == ["config"]:
        return sys.exit(ignore_config.main(sys.argv[2:]))
    seed = int(sys.argv[1]) if len(sys.argv) > 1 else 1
    count = int(sys.argv[2]) if len(sys.argv) > 2 else 20
    rows = [(rules, [(p.rstrip(b"/"), p.endswith(b"/")) for p in paths]) for rules, paths in FIXED]
    rows += list(random_rows(random.Random(seed), count))
    for row in answered(rows):
        if row[1] == row[1].decode(errors="replace").encode():
            print(*row_of(*row), sep="\n")


main()
