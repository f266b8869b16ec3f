#!/bin/sh
# Installs kconf below a prefix, as /usr/local or ~/.local, from a checkout or an unpacked release, or removes it.
#
#     tools/install.sh PREFIX [PROGRAM]
#     tools/install.sh --uninstall PREFIX
#
#     PREFIX/bin/kconf               the program
#     PREFIX/share/man               the manual page
#     PREFIX/share/bash-completion   completion for bash; also below share/zsh and share/fish
#     PREFIX/share/kconf             kconf.mk, expand_kconfig.py with its modules, kconfig_words.mk, menuconfig.py
#     PREFIX/share/doc/kconf         the documents
#
# PROGRAM is a built kconf, and otherwise bin/kconf of an unpacked release, or what `rt run` leaves in crates/kconf/out.
# Nothing is built here: where there is no program, nothing is installed, and the status is 1. The other files are those
# of tools/install.list. Each file is noted in PREFIX/share/kconf/installed. --uninstall removes what is noted there, and
# the status is 1 where nothing is. Both print the paths. With DESTDIR in the environment all are below that folder.
set -eu
umask 022

usage() {
    echo 'usage: tools/install.sh PREFIX [PROGRAM]' >&2
    echo '       tools/install.sh --uninstall PREFIX' >&2
    exit 2
}

action=install
if [ "${1:-}" = --uninstall ]; then
    action=uninstall
    shift
fi
[ $# -eq 1 ] || { [ $# -eq 2 ] && [ $action = install ]; } || usage
case $1 in
    '' | -*) usage ;;
esac
root=$(cd "$(dirname "$0")/.." && pwd)
prefix=$1
[ -z "${DESTDIR:-}" ] || prefix=$DESTDIR/${1#/}
noted=$prefix/share/kconf/installed

# Installs a file by its mode, at a path below the prefix, or in a folder there, whose path ends with `/`.
put() {
    case $3 in
        */) path=$3$(basename "$2") ;;
        *) path=$3 ;;
    esac
    mkdir -p "$(dirname "$prefix/$path")"
    install -m "$1" "$2" "$prefix/$path"
    printf '%s\n' "$path" >> "$noted"
    printf '%s\n' "$prefix/$path"
}

# Installs the program, and the files of the list.
install_all() {
    if [ ! -f "$1" ] || [ ! -x "$1" ]; then
        echo "$1 is not there. With the Rattle toolchain on the path, build it by" >&2
        echo "    (cd $root/crates/kconf && rt run -- --help)" >&2
        exit 1
    fi
    mkdir -p "$prefix/share/kconf"
    put 755 "$1" bin/kconf
    while read -r mode files place; do
        case $mode in
            '' | '#') continue ;;
        esac
        for file in "$root"/$files; do
            put "$mode" "$file" "$place"
        done
    done < "$root/tools/install.list"
    LC_ALL=C sort -u -o "$noted" "$noted"
}

# Removes the files that are noted, and those of the folders that are kconf's alone.
uninstall_all() {
    if [ ! -f "$noted" ]; then
        echo "nothing is installed below $prefix: there is no $noted" >&2
        exit 1
    fi
    while read -r path; do
        rm -f "$prefix/$path"
        printf '%s\n' "$prefix/$path"
    done < "$noted"
    rm -rf "$noted" "$prefix/share/kconf/__pycache__"
    for folder in doc/kconf/clients doc/kconf/docs doc/kconf kconf; do
        rmdir "$prefix/share/$folder" 2> /dev/null || true
    done
}

program=$root/bin/kconf
[ -f "$program" ] || program=$root/crates/kconf/out/kconf
if [ $action = install ]; then
    install_all "${2:-$program}"
else
    uninstall_all
fi
