#!/usr/bin/env bash
# Tries the edits outside the gate, which take too long for it: the prover must refuse each.
#
#     tools/try_edits.sh [CRATE | CRATE/NAME]..
#
# CRATE names all edits of edits/CRATE, and CRATE/NAME one edit, there or in crates/CRATE/must-fail. Without words all
# edits of edits/ are tried, crate by crate, which takes some hours. docs/TESTING.md describes the form of an edit.
#
# Nothing of the checkout is changed: it works in a copy, in which `rt check` of the crate begins with what a check of
# the checkout, or of another one on the machine, has kept. The edits are tried 15 at a time, and what `rt must-fail`
# says of them is shown as each 15 end, and added to the log that is named first. A run that was interrupted loses those
# of its last 15 alone: the next run takes from rt what the others came to, where the crate has not changed. The status
# is 0 where each edit was refused, 1 where one was not or a crate is not proved without edits, and 2 where a word names
# no edits.
set -euo pipefail
shopt -s nullglob

root=$(cd "$(dirname "${BASH_SOURCE[0]}")/.." && pwd)
at_once=15

# Writes the paths of the edits that a word names, a line each.
edits_of() {
    local crate=${1%%/*} name=${1#*/}
    if [ "$crate" = "$name" ]; then
        printf '%s\n' "$root/edits/$crate"/*.edit
    elif [ -f "$root/edits/$crate/$name.edit" ]; then
        printf '%s\n' "$root/edits/$crate/$name.edit"
    elif [ -f "$root/crates/$crate/must-fail/$name.edit" ]; then
        printf '%s\n' "$root/crates/$crate/must-fail/$name.edit"
    fi
}

# Tries edits of a crate in the copy, given by the name of the crate and their paths.
try_edits() {
    local crate=$1 tried=crates/$1/must-fail status=0
    shift
    if ! (cd "crates/$crate" && rt check >"$copy/said" 2>&1); then
        tail --lines=20 "$copy/said"
        printf 'try_edits.sh: %s is not proved without edits\n' "$crate" >&2
        return 1
    fi
    while [ $# -gt 0 ]; do
        rm -rf "$tried"
        mkdir "$tried"
        cp "${@:1:at_once}" "$tried"
        rt must-fail "$crate" 2>&1 | tee --append "$log" || status=1
        shift $(($# < at_once ? $# : at_once))
    done
    return "$status"
}

if [ $# -eq 0 ]; then
    crates=("$root"/edits/*/)
    crates=("${crates[@]%/}")
    set -- "${crates[@]##*/}"
fi
declare -A named=()
for word; do
    edits=$(edits_of "$word")
    if [ -z "$edits" ]; then
        printf 'try_edits.sh: %s: no such edits\n' "$word" >&2
        exit 2
    fi
    named[${word%%/*}]+=$edits$'\n'
done

log=$(mktemp --tmpdir kconf-edits.XXXXXX)
printf 'try_edits.sh: the results are kept in %s\n' "$log"
copy=$(mktemp -d)
trap 'rm -rf "$copy"' EXIT
tar --create --directory="$root" --exclude=./.git --exclude=out . | tar --extract --directory="$copy"
cd "$copy"

failed=0
for crate in $(printf '%s\n' "${!named[@]}" | sort); do
    mapfile -t edits < <(printf '%s' "${named[$crate]}" | sort --unique)
    try_edits "$crate" "${edits[@]}" || failed=1
done
exit "$failed"
