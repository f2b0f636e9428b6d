#!/usr/bin/env python3
"""Tries package.sh: makes both packages twice, which must give the same bytes, unpacks them beside each other, looks for
each file that has to be there, and calls each program where it was unpacked and where the package's install.sh put it.

    python3 bench/package.py               with the programs in crates/*/out, which have to be built
    python3 bench/package.py --stand-ins   with scripts in their place

Without dpkg-deb and readelf the .deb isn't tried.
"""
import glob
import gzip
import hashlib
import os
import re
import shutil
import subprocess
import sys
import tarfile
import tempfile

from install import make_top, names, read, write

TOP = os.path.dirname(os.path.dirname(os.path.abspath(__file__)))
VERSION = read(f"{TOP}/VERSION").strip()

# Of each program two calls, in a folder with the file some/one of three bytes, and what they print, or how that begins.
CALLS = {
    "seek": [("--version", f"seek {VERSION} ("), ("one some", "some/one\n")],
    "tally": [("--version", f"tally {VERSION} ("), ("--plain -ab --apparent some", "3\tsome/one\n")],
    "since": [("--version", f"since {VERSION} ("), ("-j1 --save kept some", "")],
    "walk": [("--tree /", "0 d /\n"), ("--sort some", "0 d some\n1 f some/one\n")],
}


def check(what, holds):
    if not holds:
        sys.exit(f"package.sh: {what}: no")


def bytes_of(path):
    with open(path, "rb") as file:
        return file.read()


def make_stand_ins(top):
    """A repository with scripts for programs, which print what is wanted of them."""
    make_top(top)
    for path in ["package.sh", "VERSION", "CHANGELOG.md", "LICENSE"]:
        shutil.copy(f"{TOP}/{path}", top)
    for name in names():
        cases = "".join(f"'{call}') cat <<'TEXT'\n{text}\nTEXT\n;;\n" for call, text in CALLS[name])
        write(f"{top}/crates/{name}/out/{name}", f'#!/bin/sh\ncase "$*" in\n{cases}*) exit 2 ;;\nesac\n')


def refusals(room):
    """Where a program isn't built, or the version has no heading, no package is made."""
    top, to = f"{room}/refused", f"{room}/refused/packages"
    make_stand_ins(top)
    os.remove(f"{top}/crates/tally/out/tally")
    ran = subprocess.run([f"{top}/package.sh", to], capture_output=True, text=True)
    check("it says which program isn't built", ran.returncode == 1 and "tally isn't built" in ran.stderr)
    write(f"{top}/VERSION", "0.0.1\n")
    ran = subprocess.run([f"{top}/package.sh", to], capture_output=True, text=True)
    check("it misses a version's heading", ran.returncode == 1 and "no heading '## 0.0.1 (DATE)'" in ran.stderr)
    check("it makes no folder then", not os.path.exists(to))
    check("other words are bad", subprocess.run([f"{top}/package.sh", "--all"], capture_output=True).returncode == 2)
    ran = subprocess.run([f"{top}/package.sh", "--help"], capture_output=True, text=True)
    check("--help ends with 0", ran.returncode == 0 and "./package.sh [DIR]" in ran.stdout)


def make_packages(top, room, has_deb):
    """Makes the packages in two folders, compares their bytes, and returns the paths of the first."""
    made = []
    for at, (umask, zone) in enumerate([(0o022, "UTC"), (0o077, "Asia/Tokyo")]):
        to = f"{room}/packages{at}"
        ran = subprocess.run(
            [f"{top}/package.sh", to], capture_output=True, text=True, umask=umask, env={**os.environ, "TZ": zone}
        )
        check(f"it ends with 0 ({ran.stderr.strip()})", ran.returncode == 0)
        made.append({os.path.basename(path): path for path in ran.stdout.split()})
        check("it names what it made", sorted(made[-1]) == sorted(os.listdir(to)))
    wanted = [f"jwalk-{VERSION}-linux-x86_64.tar.gz"] + [f"jwalk_{VERSION}_amd64.deb"] * has_deb
    check(f"it makes {', '.join(wanted)}", sorted(made[0]) == sorted(wanted))
    for name in wanted:
        check(f"{name} has the same bytes again", bytes_of(made[0][name]) == bytes_of(made[1][name]))
    return [made[0][name] for name in wanted]


def calls(where, folder):
    """Calls the programs in a folder, over a small one."""
    os.makedirs(f"{folder}/some", exist_ok=True)
    write(f"{folder}/some/one", "one", 0o644)
    for name in names():
        for call, wanted in CALLS[name]:
            ran = subprocess.run([f"{where}/{name}", *call.split()], cwd=folder, capture_output=True, text=True)
            check(f"{where}/{name} {call} prints {wanted!r}", ran.returncode == 0 and ran.stdout.startswith(wanted))


def unpack_tar(top, path, room):
    """Unpacks the archive, installs it where no toolchain is, and returns the folder of its programs."""
    with tarfile.open(path) as archive:
        members = archive.getmembers()
        for it in members:
            check(f"{it.name} is root's", (it.uid, it.gid) == (0, 0))
            check(f"{it.name} has a fixed mode", it.mode == (0o755 if it.isdir() or is_program(it.name) else 0o644))
        check("all has one time", len({it.mtime for it in members}) == 1)
        check("names are sorted", [it.name for it in members] == sorted(it.name for it in members))
    os.mkdir(f"{room}/tar")
    subprocess.run(["tar", "-C", f"{room}/tar", "-xzf", path], check=True)
    (folder,) = glob.glob(f"{room}/tar/*")
    check("it is a folder named as the archive", os.path.basename(path) == os.path.basename(folder) + ".tar.gz")
    for it in ["LICENSE", "CHANGELOG.md", "VERSION"]:
        check(f"it has {it}", bytes_of(f"{folder}/{it}") == bytes_of(f"{top}/{it}"))
    to = f"{room}/installed"
    for words in [["--prefix", to], ["--prefix", to, "--check"]]:
        environment = {"PATH": "/usr/bin:/bin", "HOME": room}
        ran = subprocess.run([f"{folder}/install.sh", *words], env=environment, capture_output=True, text=True)
        check(f"its install.sh {' '.join(words)} ends with 0 ({ran.stderr.strip()})", ran.returncode == 0)
    for name in names():
        check(f"it has {name}", bytes_of(f"{folder}/bin/{name}") == bytes_of(f"{top}/crates/{name}/out/{name}"))
        for made, at in places(name, "site-functions"):
            check(f"it installs share/{at}", bytes_of(f"{to}/share/{at}") == bytes_of(f"{top}/docs/{made}"))
    calls(f"{to}/bin", f"{room}/over")
    return f"{folder}/bin"


def is_program(path):
    return os.path.basename(os.path.dirname(path)) == "bin" or path.endswith("/install.sh")


def places(name, zsh):
    """The files that a program has besides itself, with their places below share."""
    return [
        (f"man/{name}.1", f"man/man1/{name}.1"),
        (f"completions/{name}.bash", f"bash-completion/completions/{name}"),
        (f"completions/_{name}", f"zsh/{zsh}/_{name}"),
        (f"completions/{name}.fish", f"fish/vendor_completions.d/{name}.fish"),
    ]


def unpack_deb(top, path, room):
    """Unpacks the package, looks at each of its files, and returns the folder of its programs."""
    folder = f"{room}/deb"
    subprocess.run(["dpkg-deb", "-R", path, folder], check=True)
    control(path, top, folder)
    zipped = {"usr/share/doc/jwalk/changelog.gz": "CHANGELOG.md"}
    plain = {"usr/share/doc/jwalk/copyright": "LICENSE"}
    for name in names():
        plain[f"usr/bin/{name}"] = f"crates/{name}/out/{name}"
        for made, at in places(name, "vendor-completions"):
            if made.startswith("man/"):
                zipped[f"usr/share/{at}.gz"] = f"docs/{made}"
            else:
                plain[f"usr/share/{at}"] = f"docs/{made}"
    for at, source in {**plain, **zipped}.items():
        text = bytes_of(f"{folder}/{at}")
        if at in zipped:
            check(f"{at} has neither name nor time", text[3:8] == bytes(5))
            text = gzip.decompress(text)
        check(f"{at} is {source}", text == bytes_of(f"{top}/{source}"))
    listed = subprocess.run(["dpkg-deb", "-c", path], capture_output=True, text=True, check=True).stdout.splitlines()
    there = []
    for line in listed:
        mode, owner, _, _, _, name = line.split()
        wanted = "drwxr-xr-x" if name.endswith("/") else "-rwxr-xr-x" if is_program(name) else "-rw-r--r--"
        check(f"{name} is root's, with a fixed mode", (mode, owner) == (wanted, "root/root"))
        there += [name.removeprefix("./")] * (not name.endswith("/"))
    check("no other files are there", sorted(there) == sorted({**plain, **zipped}))
    sums = dict(reversed(line.split("  ")) for line in read(f"{folder}/DEBIAN/md5sums").splitlines())
    check("each has its sum", sums == {at: hashlib.md5(bytes_of(f"{folder}/{at}")).hexdigest() for at in there})
    return f"{folder}/usr/bin"


def control(path, top, folder):
    """Looks at the fields that say what the package is, and what it needs."""
    shown = subprocess.run(["dpkg-deb", "-f", path], capture_output=True, text=True, check=True).stdout
    fields = dict(re.findall(r"^(\S+): (.*)$", shown, flags=re.M))
    wanted = {
        "Package": "jwalk",
        "Version": re.escape(read(f"{top}/VERSION").strip()),
        "Architecture": "amd64",
        "Maintainer": r"[^<]+ <\S+@\S+>",
        "Installed-Size": r"\d+",
        "Depends": r"libc6( \(>= [\d.]+\))?",
        "Section": "utils",
        "Priority": "optional",
        "Description": r"[a-z].{,79}",
    }
    check(f"it has the fields {', '.join(wanted)}", sorted(fields) == sorted(wanted))
    for name, form in wanted.items():
        check(f"{name} is {form}, not {fields[name]}", re.fullmatch(form, fields[name]))
    files = [os.path.join(at, it) for at, _, its in os.walk(f"{folder}/usr") for it in its]
    least = sum(os.path.getsize(it) for it in files) // 1024
    check("the size is that of its files", least <= int(fields["Installed-Size"]) <= least + 2 * len(files) + 30)


def main():
    has_deb = bool(shutil.which("dpkg-deb") and shutil.which("readelf"))
    with tempfile.TemporaryDirectory() as room:
        top = TOP
        if sys.argv[1:] == ["--stand-ins"]:
            top = f"{room}/top"
            make_stand_ins(top)
        refusals(room)
        tar, *deb = make_packages(top, room, has_deb)
        calls(unpack_tar(top, tar, room), f"{room}/over")
        for path in deb:
            calls(unpack_deb(top, path, room), f"{room}/over")
        made = " and ".join(os.path.basename(it) for it in [tar, *deb])
    print(f"package.sh: {made} as should be" + "; no .deb was tried, since dpkg-deb or readelf isn't here" * (not has_deb))


if __name__ == "__main__":
    main()
