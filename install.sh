#!/usr/bin/env bash
# Installs the programs, with their man pages and with completions for bash, zsh and fish.
#
#     ./install.sh [--prefix DIR]           DIR is $PREFIX, or ~/.local, unless it is named
#     ./install.sh [--prefix DIR] --check   runs what is installed there, and compares what it prints
#     ./install.sh --help                   prints this
#
# In a package the programs are in bin/, and nothing else is needed. In the repository a program that isn't built yet is
# proved and built first, which takes the toolchain (rt). Programs go to DIR/bin, and the rest to the folders of DIR/share
# that man and the shells look in.
set -euo pipefail

usage() {
    echo "usage: install.sh [--prefix DIR] [--check | --help]" >&2
    exit 2
}

prefix=${PREFIX:-~/.local}
check=
while [ $# -gt 0 ]; do
    case $1 in
    --prefix) [ $# -ge 2 ] && [ -n "$2" ] || usage; prefix=$2; shift 2 ;;
    --check) check=1; shift ;;
    --help) sed -n '2,/^set/s/^# \{0,1\}//p' "$0"; exit ;;
    *) usage ;;
    esac
done
if [[ $prefix != /* ]]; then prefix=$PWD/$prefix; fi
cd "$(dirname "$0")"

# The programs: those with a man page.
programs=()
for page in docs/man/*.1; do programs+=("$(basename "$page" .1)"); done

# The file of a program.
built() { if [ -d bin ]; then echo "bin/$1"; else echo "crates/$1/out/$1"; fi; }

# A call of a program that needs no files, and what it prints.
call_of() { if [ "$1" = walk ]; then echo "--tree /"; else echo "--version"; fi; }
wanted_of() { if [ "$1" = walk ]; then echo "0 d /"; else echo "$1 *"; fi; }

build() {
    if [ ! -x "$(built "$1")" ]; then
        echo "install.sh: $1 isn't built; to prove and build all programs takes about 30 to 50 minutes on four idle cores," >&2
        echo "install.sh: 60 to 100 on two, and two minutes where the library is proved already" >&2
        (cd "crates/$1" && rt run -- $(call_of "$1") </dev/null >&2)
    fi
}

install_program() {
    install -D "$(built "$1")" "$prefix/bin/$1"
    install -D -m 644 "docs/man/$1.1" "$prefix/share/man/man1/$1.1"
    install -D -m 644 "docs/completions/$1.bash" "$prefix/share/bash-completion/completions/$1"
    install -D -m 644 "docs/completions/_$1" "$prefix/share/zsh/site-functions/_$1"
    install -D -m 644 "docs/completions/$1.fish" "$prefix/share/fish/vendor_completions.d/$1.fish"
}

check_program() {
    local printed
    if [ ! -x "$prefix/bin/$1" ]; then
        echo "install.sh: $1 isn't installed in $prefix/bin" >&2
        exit 1
    fi
    printed=$("$prefix/bin/$1" $(call_of "$1") </dev/null)
    if [[ $printed != $(wanted_of "$1") ]]; then
        echo "install.sh: $prefix/bin/$1 $(call_of "$1") prints '$printed', not '$(wanted_of "$1")'" >&2
        exit 1
    fi
    echo "$1 $(call_of "$1"): $printed"
}

# Whether none of the programs is installed.
none_installed() {
    local name
    for name in "${programs[@]}"; do if [ -e "$prefix/bin/$name" ]; then return 1; fi; done
}

if [ -n "$check" ] && none_installed; then
    echo "install.sh: nothing is installed in $prefix/bin" >&2
    exit 1
fi
for name in "${programs[@]}"; do
    if [ -n "$check" ]; then
        check_program "$name"
    else
        build "$name"
        install_program "$name"
    fi
done
if [ -z "$check" ]; then
    echo "installed in $prefix/bin: ${programs[*]}"
    if [[ ":$PATH:" != *":$prefix/bin:"* ]]; then echo "this folder isn't in PATH"; fi
    echo "zsh finds completions if fpath has $prefix/share/zsh/site-functions"
fi
