#!/usr/bin/env bash
# Leaves a build of kconf that is not proved and checks itself as a file, which runs on any tree.
#
#     tools/try_program.sh OUT
#
# It builds with `rt try` in crates/kconf, which takes a minute or two and needs rt on the path and nothing else. The
# program stops, and says where, at an overflow, an index out of bounds or a bad access, and is slower and larger than
# the proved one, which `rt run` builds. It needs the libraries libc, libm and libgcc_s. OUT is replaced at once where
# all went well, and a line says so; otherwise OUT stays as it was, and the status is 1.
#
# `rt try` deletes the program when it has ended. So it is given a Kconfig that is a pipe: the program waits for what is
# written into it, and is copied meanwhile.
set -euo pipefail

if [ $# -ne 1 ] || [ -z "$1" ] || [ "${1#-}" != "$1" ]; then
    echo 'usage: tools/try_program.sh OUT' >&2
    exit 2
fi
root=$(cd "$(dirname "${BASH_SOURCE[0]}")/.." && pwd)
out=$(realpath "$1")
work=$(mktemp -d)
trap 'kill $(jobs -p) 2> /dev/null || true; rm -rf "$work" "$out.new.$$"' EXIT

fail() {
    printf 'try_program.sh: %s\n' "$1" >&2
    exit 1
}

# Waits until the program opens the pipe to read it, copies the program, and lets it go on.
keep_program() {
    exec 3> "$work/Kconfig"
    cp "$(find "$work" -name program -print -quit)" "$work/kept"
    echo 'config KEPT' >&3
    echo '    def_bool y' >&3
}

command -v rt > /dev/null || fail 'rt is not on the path: the Rattle toolchain has it'
[ ! -d "$out" ] || fail "$1 is a folder"
[ -w "$(dirname "$out")" ] || fail "$1 can't be written"
mkfifo "$work/Kconfig"
keep_program &
cd "$root/crates/kconf"
TMPDIR=$work rt try --seconds 900 -- allnoconfig "$work/Kconfig" > "$work/stdout" 2> "$work/stderr" < /dev/null || true
if ! [ -x "$work/kept" ] || ! "$work/kept" --version > "$work/version"; then
    cat "$work/stderr" >&2
    fail 'rt try left no program that runs'
fi
cp "$work/kept" "$out.new.$$"
chmod 755 "$out.new.$$"
mv "$out.new.$$" "$out"
echo "$out: $(cat "$work/version"), not proved, with checks"
