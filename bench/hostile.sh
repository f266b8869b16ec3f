#!/usr/bin/env bash
# What input costs that is made to cost much, at two sizes, beside `conf` of the kernel (Debian's package
# linux-kbuild-6.1).
#
#     bench/hostile.sh [PROGRAM [WORD..]]
#     bench/hostile.sh --instructions PROGRAM [WORD..]
#
# Without PROGRAM it builds kconf by rt. With words it measures only the shapes whose names have one of them. The shapes
# are those of bench/make_hostile.py. For each of them it prints a row, with medians of five runs, or of one run where
# that takes a second:
#
# - user and system time and memory at its peak at the greater size, and the time for each symbol, line, byte or command;
# - bytes of memory for a byte of input, without what one symbol takes (wanted: at most 100; 1,013 and 728 of texts that
#   references put in place; 40 of symbols in 64 blocks that depend on eight names each);
# - how time and memory for each of them grow from the smaller size (at most 1.3 each);
# - what conf takes, where it ends within 20 seconds, and the time as times of conf's (at most 2).
#
# With --instructions it prints instead how instructions grow from the smaller size to three times that, by callgrind of
# Debian's package valgrind (at most 1.3, too), which does not change with other work on the machine.
#
# The status is 0 where all are kept, else 1.
set -euo pipefail
shopt -s inherit_errexit

readonly CONF=/usr/lib/linux-kbuild-6.1/scripts/kconfig/conf

bench=$(cd "$(dirname "${BASH_SOURCE[0]}")" && pwd)
readonly bench
# shellcheck source=bench/build.sh
source "$bench/build.sh"

counted=
if [ "${1:-}" = --instructions ]; then
    counted=yes
    shift
fi
kconf=$(realpath "${1:-$(build_kconf)}")
if [ -n "$counted" ]; then
    command -v valgrind >/dev/null || install_packages valgrind
else
    { [ -x "$CONF" ] && [ -x /usr/bin/time ]; } || install_packages linux-kbuild-6.1 time
fi
work=$(mktemp -d)
trap 'rm -rf "$work"' EXIT
gcc -O2 -o "$work/colliding_names" "$bench/colliding_names.c"
export COLLIDING_NAMES="$work/colliding_names"
if [ -n "$counted" ]; then
    python3 "$bench/count_hostile.py" "$kconf" "$work" "${@:2}"
    exit
fi
python3 "$bench/time_hostile.py" "$kconf" "$CONF" "$work" "${@:2}"
