#!/usr/bin/env bash
# Refuses in turn each request for memory that the calls of crates/kc_refusals make.
#
#     tools/refuse_each_request.sh [PROGRAM [WORD..]]
#
# Without PROGRAM it proves and builds kc_refusals by rt; WORD is one of its words, without which all are taken. For
# each it runs the program with no request refused, and then with the first refused, the second, and so on until none
# is: tools/refuse_allocation.c refuses them (it needs cc and glibc). `rt try --fail-alloc N` does the same for one N,
# and builds the program anew each time. A run must end with the line that the program writes with ample memory, or
# without one where the program was refused memory of its own: a crash, a hang, and an answer that is neither out of
# memory nor the right one are none of these.
#
# It prints for each word how many requests there are, and how many of them were those of the call that was refused.
# Where nodes that are kept are asked before `set S x`, this must be refused at the same request as without. The status
# is 0 where all is so, else 1.
set -euo pipefail
shopt -s inherit_errexit

readonly SECONDS_OF_A_RUN=20
readonly ANSWERED=0
readonly UNPREPARED=3
readonly REFUSED=4
readonly WORDS=(add from_pairs logical_lines lines_from parse empty node read_config read_config_lines new_session open set load merge
    list choices config header defconfig new run fill merged set_after_list set_after_nodes)

root=$(cd "$(dirname "${BASH_SOURCE[0]}")/.." && pwd)
readonly root

# Proves and builds kc_refusals, and prints the path of the program.
build_program() {
    (cd "$root/crates/kc_refusals" && rt run >/dev/null)
    realpath "$root/crates/kc_refusals/out/kc_refusals"
}

# Runs the program for a word with a request that is refused, none for 0. It sets output and status, and makes the file
# mark where a request was refused.
run_refused() {
    local word=$1 number=$2
    rm -f "$work/mark"
    status=0
    output=$(timeout "$SECONDS_OF_A_RUN" env REFUSE_AT="$number" REFUSE_MARK="$work/mark" LD_PRELOAD="$library" \
        "$program" "$word") || status=$?
}

# Whether a run ended as it should.
is_right() {
    local word=$1
    case $status in
        "$ANSWERED" | "$REFUSED") [ "$output" = "$word: as it should be" ] ;;
        "$UNPREPARED") [ -z "$output" ] ;;
        *) return 1 ;;
    esac
}

# Refuses each request of a word in turn. The numbers of those at which the call was refused go to a file of the word.
check_word() {
    local word=$1 number=1
    run_refused "$word" 0
    if [ "$status" -ne "$ANSWERED" ] || ! is_right "$word"; then
        printf '%s: status %d without a refusal: %s\n' "$word" "$status" "$output"
        is_failed=1
    fi
    : >"$work/$word"
    while run_refused "$word" "$number" && [ -e "$work/mark" ]; do
        if ! is_right "$word"; then
            printf '%s: status %d where request %d is refused: %s\n' "$word" "$status" "$number" "$output"
            is_failed=1
        elif [ "$status" -eq "$REFUSED" ]; then
            echo "$number" >>"$work/$word"
        fi
        number=$((number + 1))
    done
    printf '%s: %d requests, %d of the call\n' "$word" "$((number - 1))" "$(wc -l <"$work/$word")"
    if [ ! -s "$work/$word" ]; then
        printf '%s: no request of the call was refused\n' "$word"
        is_failed=1
    fi
}

program=$(realpath "${1:-$(build_program)}")
words=("${@:2}")
[ "${#words[@]}" -ne 0 ] || words=("${WORDS[@]}")
work=$(mktemp -d)
trap 'rm -rf "$work"' EXIT
library=$work/refuse_allocation.so
"${CC:-cc}" -shared -fPIC -O1 -o "$library" "$root/tools/refuse_allocation.c"

is_failed=0
for word in "${words[@]}"; do
    check_word "$word"
done
if [ -f "$work/set_after_list" ] && [ -f "$work/set_after_nodes" ] \
    && ! cmp -s "$work/set_after_list" "$work/set_after_nodes"; then
    echo 'set_after_nodes: set S x is refused at other requests than without the calls of node'
    is_failed=1
fi
exit "$is_failed"
