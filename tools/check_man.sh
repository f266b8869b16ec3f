#!/bin/sh
# Checks the manual page docs/kconf.1, the completions and CHANGELOG.md against the program.
#
#     tools/check_man.sh
#
# It is not part of the gate. Run it after a change of the page, of the command line or of the version, and needs groff. A line is
# printed, and the status is 1,
#
# - for what groff warns of;
# - for each target and each option of crates/kc_command_line/src that the page or a completion lacks;
# - where the page, or the newest version in CHANGELOG.md, is another one than crates/kc_command_line/src/version.rt.
set -eu
root=$(dirname "$0")/..
sources=$root/crates/kc_command_line/src
page=$root/docs/kconf.1
status=0

fail() {
    printf '%s\n' "$1"
    status=1
}

warnings=$(groff -ww -z -man -Tutf8 "$page" 2>&1) || status=1
[ -z "$warnings" ] || fail "$warnings"

words=$(sed -n 's/^ *name: "\(.*\)",$/\1/p' "$sources/targets.rt"
    sed -n "s/^ *\.long(\"\(.*\)\")\$/--\1/p; s/^ *\.short('\(.\)')\$/-\1/p" "$sources/arguments.rt"
    echo '--help --version')

# Reports each of the words that a text lacks.
check_words() {
    for word in $words; do
        case $2 in
            *"$word"*) ;;
            *) fail "$1 is missing: $word" ;;
        esac
    done
}

check_words "$page" "$(groff -man -Tascii -P-c "$page" | col -b)"
for completion in "$root"/tools/completions/*; do
    # fish has the options as `-l NAME` and `-s C`.
    check_words "$completion" "$(sed 's/ -l \([a-z]\)/ --\1/g; s/ -s \(.\) / -\1 /g' "$completion")"
done

version=$(sed -n 's/^pub(crate) const VERSION: &str = "\(.*\)";$/\1/p' "$sources/version.rt")
[ -n "$version" ] || fail "no version in $sources/version.rt"
newest=$(sed -n 's/^## \([0-9][^ ]*\).*/\1/p' "$root/CHANGELOG.md" | head -n 1)
[ "$newest" = "$version" ] || fail "CHANGELOG.md has $newest first, the program $version"
grep -q "^\.TH KCONF 1 \"\" \"kconf $version\"\$" "$page" || fail "$page does not name kconf $version"
exit $status
