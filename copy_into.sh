#!/usr/bin/env bash
# Copies the library into another repository: jwalk, jwalk_contents_first, jwalk_usage, jwalk_subtotals and jwalk_ignore,
# and each crate that they use.
#
#     ./copy_into.sh DIR            a first copy
#     ./copy_into.sh --update DIR   replaces an earlier copy by this one
#
# DIR is the top of the other repository. A crate goes into DIR/crates, without its wrong bodies (must-fail/), and with
# what was proved of it (out/) where that is here, so that it isn't proved again. The licence is DIR/crates/LICENSE-jwalk.
# DIR/HANDLES says what the library may do; where there is one already, the line that it needs is named. Then the lines
# are printed that DIR/crates.txt needs. Nothing is copied if one of the crates is there already.
#
# DIR/crates/jwalk/copied.sha256 lists the files that were copied, with their sums. An update goes by it: a file whose sum
# is still that is replaced, or taken away if it isn't part of the library any more. A file that was changed since then,
# or that isn't listed, is left as it is and named, and the status is 1. Without a list nothing is changed.
set -euo pipefail

usage() {
    echo "usage: copy_into.sh [--update] DIR, a folder that is there" >&2
    exit 2
}

update=
if [ "${1:-}" = --update ]; then
    update=1
    shift
fi
[ $# -eq 1 ] && [ -d "$1" ] || usage
to=$(cd "$1" && pwd)
cd "$(dirname "$0")"
list=crates/jwalk/copied.sha256
licence=crates/LICENSE-jwalk

# What each crate of this repository uses.
declare -A uses=()
while IFS=: read -r name needs; do uses[$name]=$needs; done < <(grep '^[a-z].*:' crates.txt)

# The crates of the library. Those of the toolchain aren't listed.
wanted=(jwalk jwalk_contents_first jwalk_usage jwalk_subtotals jwalk_ignore)
for ((at = 0; at < ${#wanted[@]}; at++)); do
    for name in ${uses[${wanted[at]}]}; do
        if [ -n "${uses[$name]+listed}" ] && [[ " ${wanted[*]} " != *" $name "* ]]; then wanted+=("$name"); fi
    done
done

# The files of the library, but for the licence, one a line.
files_here() {
    find "${wanted[@]/#/crates/}" -regex 'crates/[^/]*/\(out\|must-fail\)' -prune -o -type f ! -path "$list" -print
}

# Of each file that is named on standard input and is there, its sum and its name.
sums() {
    local file
    while IFS= read -r file; do
        if [ -f "$file" ]; then echo "$file"; fi
    done | xargs -d '\n' -r sha256sum
}

# Reads the lines of such a list into an array of sums by names.
read_sums() {
    local -n into=$1
    local sum file
    while read -r sum file; do into[$file]=$sum; done
}

# Copies the files that are named.
copy_files() {
    local file others=()
    for file; do
        if [ "$file" = "$licence" ]; then
            mkdir -p "$to/crates"
            cp -p LICENSE "$to/$licence"
        else
            others+=("$file")
        fi
    done
    if [ ${#others[@]} -gt 0 ]; then printf '%s\n' "${others[@]}" | xargs -d '\n' cp -p --parents -t "$to"; fi
}

copy_proved() {
    local name proved=()
    for name in "${wanted[@]}"; do
        if [ -d "crates/$name/out" ]; then proved+=("crates/$name/out"); fi
    done
    if [ ${#proved[@]} -gt 0 ]; then
        rm -rf "${proved[@]/#/$to/}"
        cp -R --parents -t "$to" "${proved[@]}"
    fi
}

# Writes HANDLES, or says which line is needed, that with the words of both.
write_handles() {
    local word ours theirs lacks= all=
    if [ ! -e "$to/HANDLES" ]; then
        cp HANDLES "$to/HANDLES"
        return
    fi
    ours=" $(tr ',.' '  ' <HANDLES)" theirs=" $(tr ',.' '  ' <"$to/HANDLES")"
    for word in Threads Wait Net Processes; do
        if [[ "$ours$theirs" == *" $word "* ]]; then all+="${all:+, }$word"; fi
        if [[ "$ours" == *" $word "* && "$theirs" != *" $word "* ]]; then lacks=1; fi
    done
    if [ -n "$lacks" ]; then echo "copy_into.sh: the line of $to/HANDLES has to be: Handles allowed: $all." >&2; fi
}

print_lines() {
    local name
    echo "Lines for crates.txt:" >&2
    for name in "${wanted[@]}"; do echo "$name:${uses[$name]}"; done
}

copy_first() {
    local name files
    for name in "${wanted[@]}"; do
        if [ -e "$to/crates/$name" ]; then
            echo "copy_into.sh: $to/crates/$name is there already" >&2
            exit 1
        fi
    done
    mapfile -t files < <(files_here; echo "$licence")
    copy_files "${files[@]}"
    (cd "$to" && printf '%s\n' "${files[@]}" | LC_ALL=C sort | sums >"$list")
}

# Names a file that is left as it is.
leave() {
    echo "copy_into.sh: $to/$1 was changed and is left as it is" >&2
    left=1
}

# Replaces the files of the library, unless they were changed, and lists them.
update_files() {
    local file replaced=()
    for file in "${!ours[@]}"; do
        local now=${theirs[$file]:-} listed=${copied[$file]:-}
        if [ "$now" = "$listed" ]; then
            replaced+=("$file")
            listed=${ours[$file]}
        elif [ "$now" != "${ours[$file]}" ]; then
            leave "$file"
        else
            listed=$now
        fi
        if [ -n "$listed" ]; then lines+=("$listed  $file"); fi
    done
    copy_files "${replaced[@]}"
}

# Takes away files that aren't part of the library any more, unless they were changed.
remove_files() {
    local file gone=()
    for file in "${!copied[@]}"; do
        if [ -n "${ours[$file]:-}" ]; then continue; fi
        if [ "${theirs[$file]:-}" = "${copied[$file]}" ]; then
            gone+=("$file")
        elif [ -e "$to/$file" ]; then
            leave "$file"
            lines+=("${copied[$file]}  $file")
        fi
    done
    if [ ${#gone[@]} -gt 0 ]; then
        cd "$to"
        rm "${gone[@]}"
        # a folder may be gone already with one in it
        printf '%s\n' "${gone[@]%/*}" | sort -ru | xargs -d '\n' rmdir -p --ignore-fail-on-non-empty 2>/dev/null || true
        cd "$OLDPWD"
    fi
}

copy_again() {
    if [ ! -f "$to/$list" ]; then
        echo "copy_into.sh: there is no $to/$list, so it isn't known what was copied; nothing was changed" >&2
        exit 1
    fi
    declare -A ours=() theirs=() copied=()
    local lines=()
    read_sums copied <"$to/$list"
    read_sums ours < <(files_here | sums)
    ours[$licence]=$(sha256sum <LICENSE | cut -d' ' -f1)
    read_sums theirs < <(cd "$to" && printf '%s\n' "${!ours[@]}" "${!copied[@]}" | sums)
    update_files
    remove_files
    printf '%s\n' "${lines[@]}" | LC_ALL=C sort -k2 >"$to/$list"
}

left=
if [ -n "$update" ]; then copy_again; else copy_first; fi
copy_proved
write_handles
print_lines
if [ -n "$left" ]; then exit 1; fi
