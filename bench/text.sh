#!/usr/bin/env bash
# How long the program takes to read a Kconfig of 16,000 symbols and some 5,000,000 bytes, as one file and as 1,500
# files, beside kconfig-conf of Debian's package kconfig-frontends-nox on the one file.
#
#     bench/text.sh [PROGRAM]
#
# Without PROGRAM it builds kconf by rt. It prints the median of seven runs of each and two ratios: the one file
# against kconfig-conf (wanted: at most 0.4), and the 1,500 files against the one (wanted: at most 1.2). The status is
# 0 where both are kept, else 1. Before that, it tests that all three give the same .config but for comments.
#
# When it is timed, kconf is given no commands, so it reads the tree, orders its symbols and ends. kconfig-conf cannot
# be kept from computing the values and writing the .config as well.
set -euo pipefail
shopt -s inherit_errexit

readonly RUNS=7
readonly MOST_OF_CONF=0.4
readonly MOST_OF_ONE=1.2

bench=$(cd "$(dirname "${BASH_SOURCE[0]}")" && pwd)
readonly bench
# shellcheck source=bench/build.sh
source "$bench/build.sh"

# Runs a command in a folder, and prints how many microseconds that took.
microseconds() {
    local folder=$1 begin end
    shift
    cd "$folder"
    rm -f .config
    begin=${EPOCHREALTIME/[.,]/}
    "$@" </dev/null >/dev/null
    end=${EPOCHREALTIME/[.,]/}
    echo $((end - begin))
}

# The lines of a .config on standard input that give values.
values() {
    grep -E '^(CONFIG_|# CONFIG_)'
}

# Fails unless kconf gives the same values for both trees as kconfig-conf.
compare_values() {
    local work=$1 kconf=$2 tree
    (cd "$work/one" && kconfig-conf --olddefconfig Kconfig </dev/null >/dev/null)
    values <"$work/one/.config" >"$work/conf.values"
    for tree in one many; do
        (cd "$work/$tree" && "$kconf" session Kconfig - <<<config) | values >"$work/$tree.values" || true
        if ! cmp -s "$work/conf.values" "$work/$tree.values"; then
            echo "kconf and kconfig-conf give other values: $tree" >&2
            return 1
        fi
    done
}

# The middle one of an odd number of numbers, a line each.
median() {
    sort -n | awk '{ at[NR] = $1 } END { print at[(NR + 1) / 2] }'
}

# What a number of microseconds is in milliseconds.
milliseconds() {
    awk -v time="$1" 'BEGIN { printf "%.1f ms", time / 1000 }'
}

# Prints the ratio of two numbers, and fails where it is more than is wanted.
ratio() {
    awk -v name="$1" -v over="$2" -v under="$3" -v most="$4" 'BEGIN {
        found = over / under
        printf "%s: %.2f (wanted: at most %.1f)\n", name, found, most
        exit found > most
    }'
}

command -v kconfig-conf >/dev/null || install_packages kconfig-frontends-nox
kconf=$(realpath "${1:-$(build_kconf)}")
work=$(mktemp -d)
trap 'rm -rf "$work"' EXIT
mkdir "$work/one" "$work/many"
python3 "$bench/make_tree.py" one "$work/one"
python3 "$bench/make_tree.py" many "$work/many"

compare_values "$work" "$kconf"

# The three take turns, so that what else the machine does falls on all of them. The first turn only warms up.
for turn in $(seq 0 "$RUNS"); do
    one=$(microseconds "$work/one" "$kconf" session Kconfig -)
    many=$(microseconds "$work/many" "$kconf" session Kconfig -)
    conf=$(microseconds "$work/one" kconfig-conf --olddefconfig Kconfig)
    [ "$turn" -gt 0 ] || continue
    echo "$one" >>"$work/one.times"
    echo "$many" >>"$work/many.times"
    echo "$conf" >>"$work/conf.times"
done

one=$(median <"$work/one.times")
many=$(median <"$work/many.times")
conf=$(median <"$work/conf.times")
echo "kconf, one file:          $(milliseconds "$one")"
echo "kconf, 1,500 files:       $(milliseconds "$many")"
echo "kconfig-conf, one file:   $(milliseconds "$conf")"
status=0
ratio "one file against kconfig-conf" "$one" "$conf" "$MOST_OF_CONF" || status=1
ratio "1,500 files against one file" "$many" "$one" "$MOST_OF_ONE" || status=1
exit "$status"
