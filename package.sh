#!/usr/bin/env bash
# Makes packages of the programs, which have to be built: jwalk_VERSION_amd64.deb, where dpkg-deb is installed, and
# jwalk-VERSION-linux-x86_64.tar.gz, whose install.sh needs no toolchain.
#
#     ./package.sh [DIR]    DIR is out/ here unless it is named
#     ./package.sh --help   prints this
#
# VERSION has the version. The same programs and files make the same bytes: all times in a package are SOURCE_DATE_EPOCH, or
# else the date in the version's heading in CHANGELOG.md, owners are root, and names are sorted.
set -euo pipefail
export LC_ALL=C TZ=UTC
umask 022

stop() {
    echo "package.sh: $1" >&2
    exit 1
}

if [ "${1:-}" = --help ]; then
    sed -n '2,/^set/s/^# \{0,1\}//p' "$0"
    exit
elif [ $# -gt 1 ] || [[ ${1:-} == -* ]]; then
    echo "usage: package.sh [DIR | --help]" >&2
    exit 2
fi
to=${1:-}
if [[ $to != /* ]]; then to=$PWD/$to; fi
cd "$(dirname "$0")"
if [ $# -eq 0 ]; then to=$PWD/out; fi

version=$(cat VERSION)
released=$(sed -n "s/^## ${version//./\\.} (\(.*\))$/\1/p" CHANGELOG.md)
[ -n "$released" ] || stop "CHANGELOG.md has no heading '## $version (DATE)'"
export SOURCE_DATE_EPOCH=${SOURCE_DATE_EPOCH:-$(date -d "$released" +%s)}
if grep -q '^## Unreleased' CHANGELOG.md; then
    echo "package.sh: CHANGELOG.md has changes that are in no version, so this is no release of $version" >&2
fi

programs=()
for page in docs/man/*.1; do
    name=$(basename "$page" .1)
    [ -x "crates/$name/out/$name" ] || stop "$name isn't built: ./install.sh proves and builds the programs"
    programs+=("crates/$name/out/$name")
done
work=$(mktemp -d)
trap 'rm -rf "$work"' EXIT
mkdir -p "$to"

# What the programs need of the system: of the package libc6 alone, at this version or a newer one.
needs() {
    local library least
    command -v readelf >/dev/null || stop "readelf isn't installed, which tells what the programs need"
    for library in $(readelf -d "${programs[@]}" 2>/dev/null | sed -n 's/.*(NEEDED).*\[\(.*\)\]$/\1/p'); do
        case $library in
        libc.so.6 | libm.so.6 | ld-linux-x86-64.so.2) ;;
        *) stop "a program needs $library, which isn't in libc6" ;;
        esac
    done
    least=$(readelf -V "${programs[@]}" 2>/dev/null | grep -o 'GLIBC_[0-9.]*' | sort -V | tail -n 1) || true
    echo "libc6${least:+ (>= ${least#GLIBC_})}"
}

# The size of a folder's files as Debian counts it: each in KiB, rounded up, and one for each folder.
installed_size() { find "$1" -printf '%y %s\n' | awk '{ n += $1 == "f" ? int(($2 + 1023) / 1024) : 1 } END { print n }'; }

control() {
    cat <<TEXT
Package: jwalk
Version: $version
Architecture: amd64
Maintainer: Ruvelimaya maintainers <maintainers@users.noreply.ruvelimaya.example>
Installed-Size: $(installed_size "$1")
Depends: $depends
Section: utils
Priority: optional
Description: find files, add up their sizes, list trees
 seek finds files by their names, as fd and find do; tally prints how much is
 below each directory, as du does; since prints what changed below a root;
 walk prints a line for each entry, in a fixed form for scripts. All read
 directories with several threads, and their output has the same order
 whatever the number of threads.
TEXT
}

make_deb() {
    local root=$work/deb share=$work/deb/usr/share depends
    depends=$(needs)
    ./install.sh --prefix "$root/usr" >/dev/null
    mv "$share/zsh/site-functions" "$share/zsh/vendor-completions"
    install -D -m 644 LICENSE "$share/doc/jwalk/copyright"
    install -m 644 CHANGELOG.md "$share/doc/jwalk/changelog"
    gzip -9n "$share/doc/jwalk/changelog" "$share"/man/man1/*.1
    mkdir "$root/DEBIAN"
    control "$root/usr" >"$root/DEBIAN/control"
    (cd "$root" && find usr -type f | sort | xargs -d '\n' md5sum >DEBIAN/md5sums)
    find "$root" -exec touch -h -d "@$SOURCE_DATE_EPOCH" {} +
    # one thread, since several may cut the text into other blocks
    DPKG_DEB_THREADS_MAX=1 dpkg-deb --root-owner-group -Zxz --build "$root" "$to/jwalk_${version}_amd64.deb" >/dev/null
    echo "$to/jwalk_${version}_amd64.deb"
}

make_tar() {
    local name=jwalk-$version-linux-x86_64
    local top=$work/$name
    mkdir -p "$top/bin" "$top/docs/man" "$top/docs/completions"
    install "${programs[@]}" "$top/bin"
    install -m 644 docs/man/* "$top/docs/man"
    install -m 644 docs/completions/* "$top/docs/completions"
    install -m 644 LICENSE CHANGELOG.md VERSION "$top"
    install install.sh "$top"
    tar -C "$work" --sort=name --mtime="@$SOURCE_DATE_EPOCH" --owner=0 --group=0 --numeric-owner --format=ustar -cf - "$name" |
        gzip -9n >"$to/$name.tar.gz"
    echo "$to/$name.tar.gz"
}

make_tar
if command -v dpkg-deb >/dev/null; then
    make_deb
else
    echo "package.sh: dpkg-deb isn't installed, so no .deb is made" >&2
fi
