#!/usr/bin/env bash
# What `kconf why`, `check`, `merge` and `menu` cost, beside `kconf olddefconfig` on the same tree and .config.
#
#     bench/reports.sh PROGRAM TREE CONFIG [NAME=VALUE..]
#
# TREE is a folder with a Kconfig of a kernel, as tools/expand_kconfig.py writes it, with the words NAME=VALUE that it
# printed. The fragments are those of tools/fragments. It compares medians of eleven runs, which take turns: user and system
# time of `why` of three symbols, of `check` and of `merge` (wanted: at most 1.3), and of `menu` (at most 2.0); memory at
# its peak is shown beside. The status is 0 where all are kept, else 1.
set -euo pipefail

bench=$(cd "$(dirname "${BASH_SOURCE[0]}")" && pwd)
if [ $# -lt 3 ]; then
    sed -n '3p' "${BASH_SOURCE[0]}" | sed 's/^# *//'
    exit 2
fi

python3 - "$bench/../tools/fragments" "$@" <<'PYTHON'
import os, statistics, subprocess, sys

RUNS = 11
fragments, kconf, tree, config, *words = sys.argv[1:]
kconf, config, fragments = (os.path.realpath(path) for path in (kconf, config, fragments))
inputs = ["Kconfig", config]
merged = [os.path.join(fragments, f"{name}.config") for name in ("net", "debug", "board")]
COMMANDS = {
    "olddefconfig": [kconf, "olddefconfig", *inputs, *words],
    "why": [kconf, "why", *inputs, "CRC32", "DEBUG_INFO_BTF", "LOG_BUF_SHIFT", *words],
    "check": [kconf, "check", *inputs, *words],
    "merge": [kconf, "merge", *inputs, *merged, *words],
    "menu": [kconf, "menu", *inputs, *words],
}
MOST = {"why": 1.3, "check": 1.3, "merge": 1.3, "menu": 2.0}


def usage_of(command):
    """The processor time in seconds, and the memory at its peak in KiB, of a command that must end with status 0."""
    child = subprocess.Popen(command, cwd=tree, stdout=subprocess.DEVNULL, stderr=subprocess.DEVNULL)
    _, status, usage = os.wait4(child.pid, 0)
    if status:
        sys.exit(f"{' '.join(command)}: status {os.waitstatus_to_exitcode(status)}")
    return usage.ru_utime + usage.ru_stime, usage.ru_maxrss


found = {name: [] for name in COMMANDS}
for turn in range(RUNS + 1):  # the first turn only warms up
    for name, command in COMMANDS.items():
        usage = usage_of(command)
        if turn:
            found[name].append(usage)
medians = {name: [statistics.median(usage[at] for usage in usages) for at in (0, 1)] for name, usages in found.items()}
time, memory = medians["olddefconfig"]
print(f"olddefconfig: {time * 1000:.1f} ms, {memory / 1024:.1f} MiB")
kept = True
for name, most in MOST.items():
    ratio = medians[name][0] / time
    kept = kept and ratio <= most
    print(
        f"{name}: {medians[name][0] * 1000:.1f} ms, {ratio:.2f} of olddefconfig (wanted: at most {most}),"
        f" {medians[name][1] / 1024:.1f} MiB"
    )
sys.exit(0 if kept else 1)
PYTHON
