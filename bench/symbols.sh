#!/usr/bin/env bash
# Whether the cost of the program grows as the tree does.
#
#     bench/symbols.sh [PROGRAM]
#
# Without PROGRAM it builds kconf by rt. For trees of 1,000 and of 60,000 symbols (flat, each depending on the one
# before, each with the one before as default, all selecting one, ints with a range between two symbols) it times `kconf
# session` with one `show` of the last symbol, medians of seven runs, and prints the time for each symbol and the ratio of
# both (wanted: at most 1.5). It does the same for one choice of 1,000 and of 10,000 members. Then it compares 10,000
# symbols below one `depends on` of 60,000 bytes with the same symbols below a short one of the same four symbols (wanted:
# at most 1.5 times in time and in memory at its peak). The status is 0 where all is kept, else 1.
set -euo pipefail
shopt -s inherit_errexit

readonly RUNS=7
readonly FEW=1000
readonly MANY=60000
readonly MEMBERS=10000
readonly BELOW=10000
readonly MOST=1.5

bench=$(cd "$(dirname "${BASH_SOURCE[0]}")" && pwd)
readonly bench
# shellcheck source=bench/build.sh
source "$bench/build.sh"

# Prints how many microseconds a `show` of a symbol takes, and how many KiB of memory at its peak, in the middle run.
measure() {
    local kconf=$1 folder=$2 symbol=$3
    python3 - "$RUNS" "$kconf" "$folder" "$symbol" <<'PYTHON'
import os, subprocess, sys, time
runs, kconf, folder, symbol = int(sys.argv[1]), *sys.argv[2:]
found = []
for _ in range(runs):
    begin = time.perf_counter()
    child = subprocess.Popen([kconf, "session", "Kconfig", "-"], cwd=folder,
                             stdin=subprocess.PIPE, stdout=subprocess.PIPE)
    child.stdin.write(f"show {symbol}\n".encode())
    child.stdin.close()
    reply = child.stdout.read()
    _, status, usage = os.wait4(child.pid, 0)
    took = time.perf_counter() - begin
    if status or not reply.startswith(f"{symbol} type=".encode()):
        sys.exit(f"kconf did not show {symbol} in {folder}")
    found.append((took * 1e6, usage.ru_maxrss))
found.sort()
print(*(round(x) for x in found[len(found) // 2]))
PYTHON
}

# Writes the tree of a shape and a count, and prints its folder.
tree() {
    local work=$1 shape=$2 count=$3 folder=$1/$2-$3
    mkdir -p "$folder"
    python3 "$bench/make_symbols.py" "$shape" "$count" >"$folder/Kconfig"
    echo "$folder"
}

# Prints a ratio, and fails where it is more than is wanted.
verdict() {
    awk -v name="$1" -v first="$2" -v second="$3" -v most="$MOST" \
        'BEGIN { ratio = first / second; printf "%s: %.2f (at most %s)\n", name, ratio, most; exit ratio > most }'
}

# Compares the time for each symbol of so many and of few symbols of a shape.
compare_counts() {
    local work=$1 kconf=$2 shape=$3 count=$4 few many
    read -r few _ <<<"$(measure "$kconf" "$(tree "$work" "$shape" "$FEW")" "S$((FEW - 1))")"
    read -r many _ <<<"$(measure "$kconf" "$(tree "$work" "$shape" "$count")" "S$((count - 1))")"
    echo "$shape: $FEW symbols $few us, $count symbols $many us"
    verdict "$shape, for each symbol" "$((many * FEW / count))" "$few"
}

# Compares symbols below a long `depends on` with the same below a short one.
compare_conditions() {
    local work=$1 kconf=$2 last=S$((BELOW - 1)) long short long_memory short_memory failed=0
    read -r long long_memory <<<"$(measure "$kconf" "$(tree "$work" above "$BELOW")" "$last")"
    read -r short short_memory <<<"$(measure "$kconf" "$(tree "$work" under "$BELOW")" "$last")"
    echo "$BELOW symbols: below 60,000 bytes $long us and $long_memory KiB, below 20 bytes $short us and $short_memory KiB"
    verdict "long condition, time" "$long" "$short" || failed=1
    verdict "long condition, memory" "$long_memory" "$short_memory" || failed=1
    return "$failed"
}

main() {
    local kconf work shape failed=0
    kconf=${1:-$(build_kconf)}
    kconf=$(realpath "$kconf")
    work=$(mktemp -d)
    trap "rm -rf '$work'" EXIT
    for shape in flat depends default select range; do
        compare_counts "$work" "$kconf" "$shape" "$MANY" || failed=1
    done
    compare_counts "$work" "$kconf" choice "$MEMBERS" || failed=1
    compare_conditions "$work" "$kconf" || failed=1
    return "$failed"
}

main "$@"
