#!/usr/bin/env bash
# Compares kconf with the `conf` of a source tree: a kernel, U-Boot, Xen, SeaBIOS or busybox.
#
#     tools/compare_trees.sh --kconf PROGRAM --work FOLDER [--conf PROGRAM] [--seeds 1] TREE [WORD]...
#
# TREE is an unpacked source. Its own makefiles give the variables, and build its `conf`, for which flex and bison are
# needed; the words, as ARCH=x86, are theirs. --conf gives another `conf`; busybox needs it, as its own is too old, and
# there it reads the expanded tree. All that is made is below FOLDER: of SeaBIOS and busybox a copy is used, the others
# are built in a folder of their own, for which their source has to be clean (make mrproper; of Xen make distclean).
#
# It expands the tree by tools/expand_kconfig.py, and compares the outputs by tools/compare_conf.py: without a .config,
# and with a random one for each seed. It prints the notes of the expander, the lines of the comparison, and at last the
# files that the expander wrote and the number of symbols. The status is 1 where no kind explains a difference. A kernel
# takes some minutes.
set -euo pipefail

usage() {
    echo "usage: tools/compare_trees.sh --kconf PROGRAM --work FOLDER [--conf PROGRAM] [--seeds N] TREE [WORD]..." >&2
    exit "$1"
}

tools=$(cd "$(dirname "${BASH_SOURCE[0]}")" && pwd)
kconf='' work='' conf='' seeds=1
while [ $# -gt 0 ]; do
    case $1 in
        --help) sed -n '2,/^set/{/^#/s/^# \{0,1\}//p}' "${BASH_SOURCE[0]}"; exit 0 ;;
        --kconf | --work | --conf | --seeds) [ $# -gt 1 ] || usage 2; printf -v "${1#--}" '%s' "$2"; shift 2 ;;
        -*) usage 2 ;;
        *) break ;;
    esac
done
[ -x "$kconf" ] && [ -n "$work" ] && [ $# -gt 0 ] && [ -d "$1" ] && [[ $seeds =~ ^[0-9]+$ ]] || usage 2
kconf=$(realpath "$kconf")
tree=$(realpath "$1")
shift
mkdir -p "$work"
work=$(realpath "$work")
variables=$work/make.words read='' top=Kconfig options=()
: > "$variables"

# Runs a command, whose messages are shown where it fails.
quietly() {
    "$@" > "$work/make.log" 2>&1 || { cat "$work/make.log" >&2; exit 1; }
}

copy_tree() {
    rm -rf "$work/copy"
    cp -r "$tree" "$work/copy"
    tree=$work/copy read=$work/copy
}

# A tree with the makefiles of a kernel: $1 is the folder of its `conf`.
of_kernel() {
    read=$work/built
    mkdir -p "$read"
    MAKEFILES=$tools/kconfig_words.mk make -s -C "$tree" O="$read" "${words[@]}" kconfwordsconfig > "$variables"
    [ -n "$conf" ] || quietly make -s -C "$tree" O="$read" "${words[@]}" alldefconfig
    conf=${conf:-$read/$1/conf}
}

of_seabios() {
    top=src/Kconfig
    copy_tree
    [ -n "$conf" ] || quietly make -s -C "$tree" PYTHON=python3 alldefconfig
    conf=${conf:-$tree/out/scripts/kconfig/conf}
}

of_busybox() {
    top=Config.in
    [ -n "$conf" ] || { echo "compare_trees.sh: busybox needs --conf, since its own is too old" >&2; exit 2; }
    copy_tree
    quietly make -s -C "$tree" gen_build_files
    read=$work/expanded
}

words=("$@")
if [ -d "$tree/xen/tools/kconfig" ]; then
    tree=$tree/xen
    of_kernel tools/kconfig
elif [ -f "$tree/Config.in" ]; then
    of_busybox
elif [ -f "$tree/src/Kconfig" ]; then
    of_seabios
else
    of_kernel scripts/kconfig
fi
conf=$(realpath "$conf")
mapfile -t given < "$variables"

# An older conf has no --syncconfig, and lists new symbols without their values, which a random .config needs.
if ! grep -q syncconfig "$conf"; then
    options=(--targets olddefconfig savedefconfig allnoconfig allyesconfig --)
    seeds=0
fi

python3 "$tools/expand_kconfig.py" --root "$tree" --variables "$variables" --words "$work/words" --notes "$work/notes" \
    "$top" "$work/expanded" 2> "$work/expander.log"
status=0
python3 "$tools/compare_conf.py" --kconf "$kconf" --conf "$conf" --seeds "$seeds" --original "$read" \
    "${options[@]}" "$work/expanded" "$top" "${given[@]}" > "$work/differences" || status=$?
cat "$work/notes" "$work/differences"
tail -n 1 "$work/expander.log"
list=(session -C "$work/expanded" --variables "$work/words" "$top" -)
"$kconf" "${list[@]}" <<< list 2> "$work/errors" | grep -ac '^[A-Za-z0-9_]* type=' | sed 's/$/ symbols/'
exit "$status"
