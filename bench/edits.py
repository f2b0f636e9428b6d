#!/usr/bin/env python3
"""Tries the wrong bodies that the gate doesn't try, those in bench/edits: the prover must refuse each.

    python3 bench/edits.py [--check] [CRATE | CRATE/NAME ..]
    python3 bench/edits.py [--kept] --since COMMIT
    python3 bench/edits.py --kept [--jobs N] [CRATE | CRATE/NAME ..]
    python3 bench/edits.py --twins [CRATE | CRATE/NAME ..]

An edit is the file bench/edits/CRATE/NAME.edit. All are tried where none is named, of a crate that is named all of its
own. While the edits of a crate are tried, they stand in the place of crates/CRATE/must-fail, and `rt must-fail CRATE`
runs on them; the crate's own folder is put back whatever happens, so change nothing in it meanwhile. Each takes what a
check of its crate takes after a change. The lines of `rt` come first, with its reason for each. Then there is a line
for each edit, which says whether it is refused, NOT REFUSED, a BAD EDIT, which can't be applied or compiled, or NOT
TRIED. The script ends with 1 if one isn't refused.

With --kept each is tried on a copy of its crate, over what `rt lib` or `rt check` keeps there and in the crates below:
run `rt check` in the crate first. The gate's edits are tried too. The gate itself takes nothing from kept work. Edits of
different functions are tried by one check, since a function's proof reads no other's body; one that has no error in the
function that it changes is then tried alone. With --jobs N the edits of N crates are tried side by side.

An edit is "refused at a name" if no contract refuses it: a proof file names what the edit took away. It is to be written
anew, so that the names stay and a value changes. It counts as refused, and the last line says how many there are.

With --since it tries those of each crate whose text, or that of a library below it, changed since a commit: the files in
src/, specs/ and proofs/, the line of crates.txt, and the crate's own edits. What isn't committed yet counts too. Who
changes a crate runs it.

With --twins it tries the edits of the gate, in crates/CRATE/must-fail, with a harmless body in the place of the wrong
one, where a rule makes one (`twin_of`): a branch that is added is never taken, and a condition that is changed is what
it was, negated twice. The prover must accept each such twin. One that is refused says that its edit may be refused for
its form alone, and the script ends with 1.

With --check nothing is proved, and it takes a second. Of each edit, also of those that the gate tries, it is looked at
whether each old text stands once in its file. What doesn't is printed, and the script ends with 1.
"""
import os
import re
import shutil
import signal
import subprocess
import sys
import tempfile
from concurrent.futures import ThreadPoolExecutor

TOP = os.path.dirname(os.path.dirname(os.path.abspath(__file__)))

ASIDE = "must-fail-aside"

AT_A_NAME = "refused at a name"

VERDICTS = ["NOT REFUSED", "NOT TRIED", "BAD EDIT", "refused"]

# how an error begins that is no more than a name in a proof file, which the edit took away
NAMING = re.compile(r"(\./)?proofs/.*(has no field|is not in scope|has no `|was not admitted|\(nearest: )")


def read(path):
    with open(path, encoding="utf-8") as file:
        return file.read()


def edits_in(folder):
    """The names of the edits in a folder, none if it isn't there."""
    names = sorted(os.listdir(folder)) if os.path.isdir(folder) else []
    return [name.removesuffix(".edit") for name in names if name.endswith(".edit")]


def own_edits(crate):
    """The folder with the edits of a crate that the gate doesn't try."""
    return f"{TOP}/bench/edits/{crate}"


def gate_edits(crate):
    """The folder with those that it tries."""
    return f"{TOP}/crates/{crate}/must-fail"


def own_names(crate):
    """The names of the edits of a crate that the gate doesn't try."""
    return edits_in(own_edits(crate))


def gate_names(crate):
    """The names of those that it tries."""
    return edits_in(gate_edits(crate))


def all_names(crate):
    """The names of both."""
    return sorted(own_names(crate) + gate_names(crate))


def asked_for(words, names_of):
    """The names of the edits that words ask for, by crate."""
    crates = [crate for crate in sorted(os.listdir(f"{TOP}/crates")) if names_of(crate)]
    asked = {}
    for word in words or crates:
        crate, _, name = word.partition("/")
        there = names_of(crate)
        names = [name.removesuffix(".edit")] if name else there
        if not names or not set(names) <= set(there):
            sys.exit(f"{word} is no edit here, nor a crate that has some")
        asked[crate] = sorted({*asked.get(crate, []), *names})
    return asked


def uses_in(text):
    """The libraries that each crate uses, by the lines of crates.txt."""
    lines = [line.partition("#")[0].partition(":") for line in text.splitlines()]
    return {name.split()[0]: uses.split() for name, _, uses in lines if name.split()}


def git(*words):
    """What a git command prints, as a text. The script ends if it fails."""
    done = subprocess.run(["git", "-C", TOP, *words], capture_output=True, text=True)
    if done.returncode:
        sys.exit(done.stderr.strip())
    return done.stdout


def changed_since(commit):
    """The crates whose own text, line of crates.txt or edits changed since a commit."""
    text = r"(?:crates/([^/]+)/(?:src|specs|proofs|must-fail)|bench/edits/([^/]+))/"
    paths = git("diff", "--name-only", commit).splitlines()
    paths += git("ls-files", "--others", "--exclude-standard").splitlines()
    found = [re.match(text, path) for path in paths]
    was, now = uses_in(git("show", f"{commit}:crates.txt")), uses_in(read(f"{TOP}/crates.txt"))
    return {it[1] or it[2] for it in found if it} | {name for name in now if now[name] != was.get(name)}


def edits_since(commit, names_of):
    """The names of the edits to be tried after the changes since a commit, by crate."""
    uses, changed = uses_in(read(f"{TOP}/crates.txt")), changed_since(commit)

    def is_touched(crate):
        return crate in changed or any(is_touched(it) for it in uses.get(crate, []))

    every = asked_for([], names_of)
    return {crate: names for crate, names in every.items() if is_touched(crate)}


def fault_of(crate, path):
    """Why an edit can't be applied to its crate; nothing if it can. A pair applies to what those before it made."""
    file, old, texts = None, None, {}
    for line in read(path).splitlines():
        if line.startswith("file: "):
            file = line.removeprefix("file: ")
            if not file.startswith("src/") or not os.path.isfile(f"{TOP}/crates/{crate}/{file}"):
                return f"there is no file {file}"
            texts.setdefault(file, read(f"{TOP}/crates/{crate}/{file}"))
        elif line.startswith("old: "):
            old = line.removeprefix("old: ")
        elif line.startswith("new:"):
            if not file or not old:
                return "a new text has no file or no old text"
            if texts[file].count(old) != 1:
                return f"this is {texts[file].count(old)} times in {file}, and not once: {old}"
            texts[file] = texts[file].replace(old, line.removeprefix("new:").removeprefix(" "))
            old = None
        elif line:
            return f"a line is none of an edit: {line}"
    if all(text == read(f"{TOP}/crates/{crate}/{file}") for file, text in texts.items()):
        return "it changes nothing"
    return None


def check(asked):
    """Looks at the edits that are asked for, and at those that the gate tries. Returns how many can't be applied."""
    paths = [(crate, f"bench/edits/{crate}/{name}.edit") for crate, names in asked.items() for name in names]
    for crate in sorted(os.listdir(f"{TOP}/crates")):
        paths += [(crate, f"crates/{crate}/must-fail/{name}.edit") for name in gate_names(crate)]
    bad = 0
    for crate, path in paths:
        fault = fault_of(crate, f"{TOP}/{path}")
        if fault:
            bad += 1
            print(f"{path}: BAD EDIT: {fault}")
    print(f"{len(paths) - bad} of {len(paths)} edits can be applied")
    return bad


def put_back(crate):
    """Puts a crate's own folder back, if it was set aside, and removes the one in its place."""
    folder = f"{TOP}/crates/{crate}"
    if os.path.isdir(f"{folder}/{ASIDE}"):
        shutil.rmtree(f"{folder}/must-fail", ignore_errors=True)
        os.rename(f"{folder}/{ASIDE}", f"{folder}/must-fail")
    if os.path.isdir(f"{folder}/must-fail") and not os.listdir(f"{folder}/must-fail"):
        os.rmdir(f"{folder}/must-fail")


def run_on(crate):
    """Runs `rt must-fail` on a crate and passes its lines on. Returns the verdict on each edit that it says one of."""
    words = ["rt", "must-fail", crate]
    verdicts = {}
    with subprocess.Popen(words, cwd=TOP, stdout=subprocess.PIPE, stderr=subprocess.STDOUT, text=True) as child:
        try:
            for line in child.stdout:
                print(line, end="", flush=True)
                _, found, said = line.partition(f"must-fail {crate}/")
                name, _, said = said.partition(".edit: ")
                if found:
                    verdict = next((it for it in VERDICTS if said.startswith(it)), "NOT TRIED")
                    is_naming = verdict == "refused" and "only because a proof file names" in said
                    verdicts[name] = AT_A_NAME if is_naming else verdict
        except BaseException:
            child.terminate()
            raise
    return verdicts


def tried(crate, texts):
    """Tries edits of a crate, of which these are the texts by name, in the place of its own."""
    folder = f"{TOP}/crates/{crate}"
    put_back(crate)
    try:
        os.makedirs(f"{folder}/must-fail", exist_ok=True)
        os.rename(f"{folder}/must-fail", f"{folder}/{ASIDE}")
        os.mkdir(f"{folder}/must-fail")
        for name, text in texts.items():
            with open(f"{folder}/must-fail/{name}.edit", "w", encoding="utf-8") as file:
                file.write(text)
        return run_on(crate)
    finally:
        put_back(crate)


def edited(crate, path):
    """The texts of the files that an edit changes, by their path in the crate."""
    file, old, texts = None, None, {}
    for line in read(path).splitlines():
        if line.startswith("file: "):
            file = line.removeprefix("file: ")
            texts.setdefault(file, read(f"{TOP}/crates/{crate}/{file}"))
        elif line.startswith("old: "):
            old = line.removeprefix("old: ")
        elif line.startswith("new:"):
            texts[file] = texts[file].replace(old, line.removeprefix("new:").removeprefix(" "))
    return texts


def below(crate):
    """The crates of the repository that a crate is over, itself among them."""
    uses, found = uses_in(read(f"{TOP}/crates.txt")), []

    def add(name):
        if name in uses and name not in found:
            found.append(name)
            for it in uses[name]:
                add(it)

    add(crate)
    return found


def copy_kept(crate, room):
    """Copies a crate with its kept work, and the libraries below it as they were built, into a folder."""
    uses = uses_in(read(f"{TOP}/crates.txt"))
    with open(f"{room}/crates.txt", "w", encoding="utf-8") as out:
        out.writelines(f"{name}: {' '.join(uses[name])}\n" for name in below(crate))
    shutil.copy(f"{TOP}/HANDLES", room)
    for name in below(crate):
        at, to = f"{TOP}/crates/{name}", f"{room}/crates/{name}"
        for part in ("src", "specs", "proofs"):
            if os.path.isdir(f"{at}/{part}"):
                shutil.copytree(f"{at}/{part}", f"{to}/{part}")
        part, copy = ("incremental", shutil.copy2) if name == crate else ("rlib", os.link)
        if os.path.isdir(f"{at}/out/{part}"):
            shutil.copytree(f"{at}/out/{part}", f"{to}/out/{part}", copy_function=copy)


def functions_in(text):
    """The first and last line of each function of a file in layout, in order."""
    lines = text.split("\n")
    found = []
    for at, line in enumerate(lines):
        head = re.match(r"(\s*)(?:pub(?:\([a-z]+\))? )?(?:const )?fn \w", line)
        if head:
            ends = (n for n in range(at, len(lines)) if re.fullmatch(head[1] + r"(\}|.*\{\}|\S.*;)", lines[n]))
            found.append((at + 1, next(ends, len(lines) - 1) + 1))
    return found


def changed_functions(was, now):
    """Which functions of a file, by their numbers, another text of it changes; none if it changes more than functions."""
    before, after = functions_in(was), functions_in(now)
    if len(before) != len(after):
        return None
    olds, news = was.split("\n"), now.split("\n")

    def outside(lines, spans):
        return [line for at, line in enumerate(lines, 1) if not any(first <= at <= last for first, last in spans)]

    if outside(olds, before) != outside(news, after):
        return None
    pairs = enumerate(zip(before, after))
    return {number for number, (one, other) in pairs if olds[one[0] - 1 : one[1]] != news[other[0] - 1 : other[1]]}


def put_together(folder, edits):
    """Puts edits, each with the texts that it makes, into groups of which no two change one function. A group is the texts
    that all of it make, and the places of each edit: files and numbers of functions. One that changes more than functions
    is in no group."""
    groups = []
    for name, texts in edits.items():
        changed = {file: changed_functions(read(f"{folder}/{file}"), text) for file, text in texts.items()}
        if None in changed.values():
            continue
        places = {(file, number) for file, numbers in changed.items() for number in numbers}
        group = next((it for it in groups if not places & {at for other in it[1].values() for at in other}), None)
        if group is None:
            group = ({}, {})
            groups.append(group)
        for file, number in places:
            own = group[0].get(file, read(f"{folder}/{file}"))
            group[0][file] = with_function(own, texts[file], number)
        group[1][name] = places
    return groups


def with_function(text, other, number):
    """A file's text with one of its functions as it is in another text."""
    lines = text.split("\n")
    (first, last), (begin, end) = functions_in(text)[number], functions_in(other)[number]
    return "\n".join([*lines[: first - 1], *other.split("\n")[begin - 1 : end], *lines[last:]])


def checked_with(folder, texts):
    """What a check of a crate in this folder says, and how it ends, with these texts in place of its own."""
    own = {file: read(f"{folder}/{file}") for file in texts}
    try:
        for file, text in texts.items():
            with open(f"{folder}/{file}", "w", encoding="utf-8") as out:
                out.write(text)
        words = ["rt", "check", "--jobs", "1"]
        done = subprocess.run(words, cwd=folder, stdout=subprocess.PIPE, stderr=subprocess.STDOUT, text=True)
    finally:
        for file, text in own.items():
            with open(f"{folder}/{file}", "w", encoding="utf-8") as out:
                out.write(text)
    return done.stdout, done.returncode


def refused_together(folder, group):
    """Which edits of a group a check with all of them refuses at clauses, each with the first error in its function."""
    texts, places = group
    said, status = checked_with(folder, texts)
    if status == 0 or not re.search(r"^logic=not-proved", said, re.M):
        return {}
    errors = re.findall(r"^((?:note: )?(?:\./)?(src/\S+?):(\d+):\d+: (?:error|it is not proved).*)$", said, re.M)
    found = {}
    for name, own in places.items():
        spans = [(file, *functions_in(texts[file])[number]) for file, number in own]
        inside = [line for line, file, at in errors if any(file == it and a <= int(at) <= b for it, a, b in spans)]
        if inside:
            found[name] = inside[0]
    return found


def verdict_over(folder, texts):
    """The verdict of a check of a crate in this folder with these texts in place of its own, and the first error."""
    said, status = checked_with(folder, texts)
    told = re.compile(r"(note: )?\S+:\d+:\d+: (error|it is not proved)")
    errors = [line for line in said.splitlines() if told.match(line)]
    others = [line for line in errors if not NAMING.match(line)]
    first = (others or errors or [said.strip().rpartition("\n")[2]])[0]
    if status == 0:
        return "NOT REFUSED", ""
    if not re.search(r"^logic=not-proved", said, re.M):
        return "BAD EDIT", first
    return AT_A_NAME if errors and not others else "refused", first


def tried_over_kept(crate, names):
    """Tries edits of a crate over its kept work: those of different functions together, and alone what isn't refused so."""
    verdicts = {}

    def say(name, verdict, why):
        verdicts[name] = verdict
        print(f"{crate}/{name}: {verdict}: {why}"[:300], flush=True)

    with tempfile.TemporaryDirectory(prefix="edits-", dir=f"{TOP}/crates/{crate}/out") as room:
        copy_kept(crate, room)
        folder = f"{room}/crates/{crate}"
        places = {name: own_edits(crate) if name in own_names(crate) else gate_edits(crate) for name in names}
        edits = {name: edited(crate, f"{place}/{name}.edit") for name, place in places.items()}
        for group in put_together(folder, edits):
            for name, why in refused_together(folder, group).items() if len(group[1]) > 1 else ():
                say(name, "refused", why)
        for name, texts in edits.items():
            if name not in verdicts:
                say(name, *verdict_over(folder, texts))
    return verdicts


def harmless(old, new):
    """A harmless text in the place of a new one; none if no rule makes one."""
    if new.endswith(old.strip()) and re.match(r"\s*if ", new):
        added = new[: -len(old.strip())].strip()
        return f"if false {{ {added} }} {old.strip()}"
    if new.startswith(old) and re.match(r"\s*if ", new[len(old) :]):
        return f"{old} if false {{ {new[len(old) :].strip()} }}"
    was = re.fullmatch(r"(\s*(?:\} else )?(?:if|while)) (?!let )(.*) \{", old)
    now = re.fullmatch(r"(\s*(?:\} else )?(?:if|while)) (?!let )(.*) \{", new)
    if was and now:
        return f"{was[1]} !!({was[2]}) {{"
    return None


def twin_of(text):
    """An edit of one text with a harmless body in the place of the wrong one; none if no rule makes one."""
    found = re.fullmatch(r"(file: .*)\nold: (.*)\nnew: (.*)\n*", text)
    made = harmless(found[2], found[3]) if found else None
    return f"{found[1]}\nold: {found[2]}\nnew: {made}\n" if made else None


def texts_of(crate, names, twins):
    """The texts of edits by name: of their twins, where there is one, or as they are."""
    if twins:
        made = {name: twin_of(read(f"{gate_edits(crate)}/{name}.edit")) for name in names}
        return {name: text for name, text in made.items() if text}
    return {name: read(f"{own_edits(crate)}/{name}.edit") for name in names}


def number_behind(words, word, default):
    """The number behind a word, which both go; `default` where the word isn't there."""
    if word not in words:
        return default
    at = words.index(word)
    if not words[at + 1 : at + 2] or not words[at + 1].isdigit() or words[at + 1] == "0":
        sys.exit(f"{word} takes a number above 0")
    number = int(words[at + 1])
    del words[at : at + 2]
    return number


def main():
    words = sys.argv[1:]
    jobs = number_behind(words, "--jobs", 1)
    twins, kept = "--twins" in words, "--kept" in words
    words = [word for word in words if word not in ("--check", "--twins", "--kept")]
    names_of = gate_names if twins else all_names if kept else own_names
    if words[:1] == ["--since"] and len(words) == 2:
        asked = edits_since(words[1], names_of)
    else:
        asked = asked_for(words, names_of)
    if "--check" in sys.argv:
        sys.exit(1 if check(asked) else 0)
    # so that an end by one of these signals puts the folder back
    for number in (signal.SIGTERM, signal.SIGHUP):
        signal.signal(number, lambda number, frame: sys.exit(128 + number))

    def results_of(asked_of):
        crate, names = asked_of
        texts = {name: "" for name in names} if kept else texts_of(crate, names, twins)
        verdicts = {}
        if texts:
            verdicts = tried_over_kept(crate, names) if kept else tried(crate, texts)
        return [(f"{crate}/{name}", verdicts.get(name, "NOT TRIED")) for name in texts]

    with ThreadPoolExecutor(jobs if kept else 1) as pool:
        results = [it for found in pool.map(results_of, asked.items()) for it in found]
    for name, verdict in results:
        print(f"{name}: {verdict}")
    wanted = ["NOT REFUSED"] if twins else ["refused", AT_A_NAME]
    right = sum(verdict in wanted for _, verdict in results)
    naming = sum(verdict == AT_A_NAME for _, verdict in results)
    told = "twins are accepted" if twins else f"edits are refused, {naming} of them at a name"
    print(f"{right} of {len(results)} {told}")
    sys.exit(0 if right == len(results) else 1)


if __name__ == "__main__":
    main()
