#!/usr/bin/env bash
# Makes the archive of a release, kconf-VERSION-x86_64.tar.gz, and kconf-VERSION-x86_64.tar.gz.sha256 beside it.
#
#     tools/release.sh [--unproved] PROGRAM FOLDER
#
# PROGRAM is a kconf that `rt run` has proved and built; it is packed without its table of symbols, as bin/kconf, with
# tools/install.sh and what that installs. FOLDER is where the two files go. The same program and the same checkout give
# the same bytes: files are sorted, and have fixed owners and modes and the time of SOURCE_DATE_EPOCH, or else of the last
# commit.
#
# Refused, with the status 1, is what is no program for x86-64, what needs another library than libc, as each program of
# `rt try`, another version than that of the sources, and a checkout with changes that are not committed. With --unproved
# other libraries and changes are accepted, and the archive has `-unproved` at the end of its name. Printed are the paths
# of both files, and the glibc that the program needs. It needs git, GNU tar, gzip, sha256sum, and GNU binutils.
set -euo pipefail

usage() {
    echo 'usage: tools/release.sh [--unproved] PROGRAM FOLDER' >&2
    exit 2
}

fail() {
    printf 'release.sh: %s\n' "$1" >&2
    exit 1
}

suffix=
if [ "${1:-}" = --unproved ]; then
    suffix=-unproved
    shift
fi
[ $# -eq 2 ] && [ "${1#-}" = "$1" ] && [ "${2#-}" = "$2" ] && [ -n "$1" ] && [ -n "$2" ] || usage
root=$(cd "$(dirname "${BASH_SOURCE[0]}")/.." && pwd)
program=$(realpath "$1")
folder=$(realpath "$2")
export LC_ALL=C

# Stops at what can't be released.
check_program() {
    [ -f "$program" ] && [ -x "$program" ] || fail "$program is no program"
    [ -d "$folder" ] || fail "$folder is no folder"
    [ -n "$suffix" ] || [ -z "$(git -C "$root" status --porcelain)" ] || fail "$root has changes that are not committed"
    readelf -h "$program" 2> /dev/null | grep -q 'Machine:.*X86-64' || fail "$program is no program for x86-64"
    local needed version
    needed=$(readelf -d "$program" | sed -n 's/.*(NEEDED).*\[\(.*\)\]/\1/p' | sort | tr '\n' ' ')
    [ "$needed" = 'libc.so.6 ' ] || [ -n "$suffix" ] || fail "$program needs ${needed}and not libc.so.6 alone"
    version=$("$program" --version)
    [ "$version" = "kconf $1" ] || fail "$program is $version, and the sources are kconf $1"
}

# Copies the program and the files of tools/install.list to a folder, at the paths of the checkout.
copy_files() {
    mkdir -p "$1/bin"
    strip -o "$1/bin/kconf" "$program"
    cd "$root"
    local mode files
    while read -r mode files _; do
        [ -z "$mode" ] || [ "$mode" = '#' ] || cp --parents $files "$1"
    done < tools/install.list
    cp --parents tools/install.sh tools/install.list "$1"
}

version=$(sed -n 's/^pub(crate) const VERSION: &str = "\(.*\)";$/\1/p' "$root/crates/kc_command_line/src/version.rt")
[ -n "$version" ] || fail 'no version in crates/kc_command_line/src/version.rt'
check_program "$version"
epoch=${SOURCE_DATE_EPOCH:-$(git -C "$root" log -1 --format=%ct)}
name=kconf-$version-x86_64$suffix
work=$(mktemp -d)
trap 'rm -rf "$work"' EXIT

copy_files "$work/$name"
cd "$work"
tar --create --format=ustar --sort=name --owner=0 --group=0 --numeric-owner --mtime="@$epoch" \
    --mode='u=rwX,go=rX' "$name" | gzip -9 -n > "$name.tar.gz"
sha256sum "$name.tar.gz" > "$name.tar.gz.sha256"
mv "$name.tar.gz" "$name.tar.gz.sha256" "$folder"
printf '%s\n' "$folder/$name.tar.gz" "$folder/$name.tar.gz.sha256"
readelf -V "$program" | grep -o 'GLIBC_[0-9.]*' | sort -V | tail -n 1 | sed 's/GLIBC_/needs glibc /; s/$/ or later/'
