#!/usr/bin/env bash
# Runs the checks that need Python 3 alone: those that compare the documents with the code, and the tests of scripts; and
# with rattle on the path that of the layout.
#
#     tools/check_all.sh
#
# The gate runs it before anything is proved. It takes half a minute, runs all checks whatever comes out of them, and
# writes nothing into the checkout. Of a check that passes the last line is shown, with the number of tests that were
# skipped, of one that fails all that it wrote. The last line names the checks that failed, and the status is 1 then.
set -u

tools=$(cd "$(dirname "${BASH_SOURCE[0]}")" && pwd) || exit 1
export PYTHONDONTWRITEBYTECODE=1 PYTHONUTF8=1

checks=(
    check_format.py
    check_rules.py
    check_edits.py
    check_whole.py
    check_limits.py
    check_names.py
    check_explanations.py
    check_reach.py
    document_cases.py
    edit_tables.py
    test_bad_edits.py
    test_check_edits.py
    test_check_names.py
    test_compare_trees.py
    test_expand_kconfig.py
    test_fuzz.py
    test_gate_times.py
    test_judge_names.py
    test_tables.py
    test_try_edits.py
)

failed=()
for check in "${checks[@]}"; do
    if said=$(python3 "$tools/$check" 2>&1); then
        printf '%s: %s\n' "$check" "${said##*$'\n'}"
    else
        printf '%s\n%s: FAILED\n' "$said" "$check"
        failed+=("$check")
    fi
done

if [ ${#failed[@]} -gt 0 ]; then
    printf 'check_all.sh: failed: %s\n' "${failed[*]}"
    exit 1
fi
printf 'check_all.sh: all %d checks passed\n' "${#checks[@]}"
