#!/usr/bin/env bash
# What edits and queries of a session cost, beside a live session of Kconfiglib (Debian's package python3-kconfiglib).
#
#     bench/sessions.sh [PROGRAM [TREE [WORD..]]]
#
# Without PROGRAM it builds kconf by rt. Without TREE it takes the one file of bench/make_tree.py; else the Kconfig of the
# folder TREE, which tools/expand_kconfig.py wrote, with the words NAME=VALUE that it printed. It compares, each the
# median ratio of nine rounds and behind a `config`, so that each value is kept:
#
# - an edit with the `show` of its symbol, in twenty turns of 400, with the same in Kconfiglib: set the value, then
#   read value, visibility and assignable values (wanted: at most 0.2): of a stream in a file, which is what the program
#   takes, and through pipes, with what the system and the reader of each reply take besides;
# - an edit with the whole `config`, 100 of them, in the same two ways (at most 0.2);
# - of a stream in a file, an edit with the `list` of all symbols, in Kconfiglib with what `show` says of each (at most
#   0.45); with `new`, the visible symbols without a user value (at most 0.45); and with `defconfig` (at most 0.12);
# - of a stream in a file, a `merge` of 10 lines (at most 0.3) and a `load` of 6,000 (at most 0.15), in Kconfiglib from a
#   file;
# - the first `config` of a session with the first evaluation of all in Kconfiglib (at most 0.2).
#
# It then times 10,000 `show` commands of one session, and `config` after an edit on trees of 1,000 and of 60,000 symbols
# that stand side by side, in a chain, or all depend on one (for each symbol at most 1.5 times as much in the greater).
# The status is 0 where all are kept, else 1.
set -euo pipefail
shopt -s inherit_errexit

bench=$(cd "$(dirname "${BASH_SOURCE[0]}")" && pwd)
readonly bench
# shellcheck source=bench/build.sh
source "$bench/build.sh"

kconf=$(realpath "${1:-$(build_kconf)}")
python3 -c "import kconfiglib" 2>/dev/null || install_packages python3-kconfiglib
work=$(mktemp -d)
trap 'rm -rf "$work"' EXIT
if [ $# -ge 2 ]; then
    # Kconfiglib knows `option modules` alone.
    cp -r "$2" "$work/tree"
    find "$work/tree" -type f -exec sed -i 's/^\([[:blank:]]*\)modules$/\1option modules/' {} +
else
    mkdir "$work/tree"
    python3 "$bench/make_tree.py" one "$work/tree"
fi
PYTHONPATH=${PYTHONPATH:-/usr/lib/python3/dist-packages} \
    python3 "$bench/time_sessions.py" "$kconf" "$work" "${@:3}"
