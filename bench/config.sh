#!/usr/bin/env bash
# How long the program takes to read and apply a .config of 16,000 lines, beside loading its tree.
#
#     bench/config.sh [PROGRAM]
#
# Without PROGRAM it builds kconf by rt. The tree is the one file of bench/make_tree.py, and the .config what the target
# allyesconfig gives of it. kconf serves a session without commands, with CONFIG and without, in turns; what CONFIG adds
# to the processor time (user and system) is the time to read and apply it. It prints the medians of eleven runs of each
# and the ratio (wanted: at most 0.15). The status is 0 where that is kept, else 1.
set -euo pipefail
shopt -s inherit_errexit

readonly RUNS=11
readonly LINES_OF_CONFIG=16000
readonly MOST=0.15

bench=$(cd "$(dirname "${BASH_SOURCE[0]}")" && pwd)
readonly bench
# shellcheck source=bench/build.sh
source "$bench/build.sh"

kconf=$(realpath "${1:-$(build_kconf)}")
work=$(mktemp -d)
trap 'rm -rf "$work"' EXIT
python3 "$bench/make_tree.py" one "$work"
cd "$work"
"$kconf" allyesconfig Kconfig | grep -E '^(CONFIG_|# CONFIG_)' | head -n "$LINES_OF_CONFIG" >config
[ "$(wc -l <config)" -eq "$LINES_OF_CONFIG" ]

python3 - "$RUNS" "$kconf" "$MOST" <<'PYTHON'
import os, statistics, subprocess, sys

runs, kconf, most = int(sys.argv[1]), sys.argv[2], float(sys.argv[3])


def seconds(config: str) -> float:
    """The processor time of a session without commands."""
    child = subprocess.Popen([kconf, "session", "Kconfig", config], stdin=subprocess.DEVNULL, stderr=subprocess.PIPE)
    errors = child.stderr.read()
    _, status, usage = os.wait4(child.pid, 0)
    if status or errors:
        sys.exit(f"kconf session Kconfig {config}: {errors.decode()}")
    return usage.ru_utime + usage.ru_stime


times = {"-": [], "config": []}
for turn in range(runs + 1):  # the first turn only warms up
    for config, found in times.items():
        took = seconds(config)
        if turn:
            found.append(took)
tree, both = (statistics.median(times[config]) for config in ("-", "config"))
ratio = (both - tree) / tree
print(f"the tree: {tree * 1000:.1f} ms, with its .config: {both * 1000:.1f} ms")
print(f"the .config against the tree: {ratio:.2f} (wanted: at most {most})")
sys.exit(ratio > most)
PYTHON
