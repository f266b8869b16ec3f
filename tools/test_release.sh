#!/usr/bin/env bash
# Tests try_program.sh, release.sh and install.sh: makes a release, installs it, uses what is installed on a small tree
# with functions and in a makefile, and uninstalls it, in an empty folder and with an environment that has the path alone.
#
#     tools/test_release.sh PROGRAM
#
# PROGRAM is any built kconf; the release of one that is not proved is made with --unproved. It takes half a minute, and
# needs what release.sh needs, Python 3, GNU make, and man or groff. A line is written for each check, with what was
# printed where it failed, and the status is 1 then. `rt` is not run: a script in its place runs PROGRAM.
set -uo pipefail

if [ $# -ne 1 ] || [ "${1#-}" != "$1" ]; then
    echo 'usage: tools/test_release.sh PROGRAM' >&2
    exit 2
fi
script=$(realpath "${BASH_SOURCE[0]}")
program=$(realpath "$1")
[ "${EMPTY:-}" ] || exec env -i EMPTY=y PATH="$PATH" bash "$script" "$program"
tools=$(dirname "$script")
work=$(mktemp -d)
trap 'rm -rf "$work"' EXIT
cd "$work" || exit 1
failed=0

# Runs a line of the shell, and compares its status, and what it prints, with a status and a pattern of the shell.
wants() {
    local printed status
    printed=$(bash -c "$3" 2>&1)
    status=$?
    # shellcheck disable=SC2053
    if [ $status -eq "$1" ] && [[ $printed == $2 ]]; then
        echo "ok: $3"
    else
        printf 'FAILED: %s\nstatus %s, and it printed\n%s\n' "$3" $status "$printed"
        printf 'in place of status %s and\n%s\n' "$1" "$2"
        failed=1
    fi
}

# In the place of rt: runs the program in a folder that it removes, as `rt try` does.
test_try_program() {
    mkdir bin
    cat > bin/rt <<END
#!/usr/bin/env bash
[ "\$1 \$2 \$3 \$4" = 'try --seconds 900 --' ] && [ -z "\${REFUSE:-}" ] || { echo refused >&2; exit 1; }
folder=\$(mktemp -d)
cp "$program" "\$folder/program"
"\$folder/program" "\${@:5}"
rm -r "\$folder"
END
    chmod +x bin/rt
    wants 0 '*/tried: kconf *, not proved, with checks' "PATH=$work/bin:\$PATH $tools/try_program.sh tried"
    wants 0 '' "cmp tried $program"
    wants 1 'refused*no program that runs' "REFUSE=y PATH=$work/bin:\$PATH $tools/try_program.sh untried"
    wants 0 'bin tried' 'echo *'
    local words
    for words in '' --help 'a b'; do
        wants 2 'usage: *' "$tools/try_program.sh $words"
    done
}

# The words that release.sh takes for this program and this checkout.
release_words() {
    local needed
    needed=$(readelf -d "$program" | grep -c '(NEEDED)')
    [ "$needed" -eq 1 ] && [ -z "$(git -C "$tools" status --porcelain)" ] || echo --unproved
}

test_release() {
    local words
    words=$(release_words)
    mkdir one two
    wants 0 '*.tar.gz*.sha256*needs glibc 2.* or later' "$tools/release.sh $words $program one"
    wants 0 '*' "umask 077; cd two; TZ=Asia/Tokyo $tools/release.sh $words $program ."
    wants 0 '' 'diff -r one two'
    wants 0 '*.tar.gz: OK' 'cd one && sha256sum -c *.sha256'
    wants 0 '*' "SOURCE_DATE_EPOCH=86400 $tools/release.sh $words $program two && tar -tvzf two/*.gz | grep 1970-01-02"
    wants 1 '*is no program*' "$tools/release.sh $words $script one"
    wants 1 '*is no program*' "$tools/release.sh $words none one"
    wants 1 '*is no folder*' "$tools/release.sh $words $program none"
    [ -z "$words" ] || wants 1 'release.sh: *' "$tools/release.sh $program one"
    for words in '' --help 'a b c' "--other $program"; do
        wants 2 'usage: *' "$tools/release.sh $words"
    done
}

test_install() {
    mkdir apart root
    wants 0 '' 'cd apart && tar -xzf ../one/*.gz && mv kconf-*/* . && rmdir kconf-*'
    wants 0 '*/bin/kconf*' 'apart/tools/install.sh "$PWD/prefix"'
    wants 0 '*/bin/kconf*' "DESTDIR=$work/root apart/tools/install.sh /usr"
    wants 0 '*/bin/kconf*' "DESTDIR=$work/root apart/tools/install.sh usr/local"
    wants 0 '*/bin/kconf*' "$tools/install.sh other $program"
    wants 0 '' 'diff -r prefix root/usr --exclude=local && diff -r prefix root/usr/local'
    wants 0 '' 'diff -r prefix/share other/share'
    wants 0 '' '! find prefix -type f ! -perm -444 | grep .'
    wants 0 'share/kconf/installed' \
        '(cd prefix && find . -type f -printf "%P\n") | sort | comm -3 - prefix/share/kconf/installed'
    wants 1 '*is not there*' 'apart/tools/install.sh none missing'
    local words
    for words in '' --help '-x y' 'a b c' '""' --uninstall '--uninstall a b' '--uninstall --help'; do
        wants 2 'usage: *' "apart/tools/install.sh $words"
    done
    wants 0 'apart bin one other prefix root tried two' 'echo *'
}

# Writes a tree whose makefiles and functions are those of a kernel in small, and a makefile of a firmware.
write_trees() {
    mkdir -p linux/scripts linux/arch/x86 firmware
    printf 'export ARCH ?= x86\nexport SRCARCH = $(ARCH)\nexport CC ?= gcc\n%%config:\n\t%s\n' \
        '$(MAKE) --no-print-directory -f scripts/Makefile.build obj=scripts/kconfig $@' > linux/Makefile
    printf '%%config:\n\tfalse\n' > linux/scripts/Makefile.build
    printf 'word := $(shell,echo four)\nsource "arch/$(SRCARCH)/Kconfig"\n' > linux/Kconfig
    printf 'config WORD\n\tstring\n\tdefault "$(word)"\nconfig NET\n\tbool "Network"\n' > linux/arch/x86/Kconfig
    echo 'CONFIG_NET=y' > linux/.config
    printf 'config NET\n\tbool "Network"\n\tdefault y\n' > firmware/Kconfig
    echo "include $work/prefix/share/kconf/kconf.mk" > firmware/Makefile
}

test_use() {
    export PATH=$work/prefix/bin:$PATH
    local installed=$work/prefix/share/kconf
    write_trees
    wants 0 'SRCARCH=x86' "cd linux && MAKEFILES=$installed/kconfig_words.mk make -s kconfwordsconfig | tee ../given"
    wants 0 '2 files, 1 command, 0 notes' \
        "cd linux && python3 $installed/expand_kconfig.py --variables ../given --words ../words Kconfig ../expanded"
    wants 0 $'CONFIG_WORD="four"\nCONFIG_NET=y' \
        'kconf olddefconfig -C expanded --variables ../words Kconfig "$PWD/linux/.config"'
    wants 0 '*CONFIG_NET 1' 'cd firmware && make -s olddefconfig && make -s autoconf.h && cat autoconf.h'
    wants 0 'usage: *' "python3 $installed/menuconfig.py --help"
    if command -v man > /dev/null; then
        wants 0 '*olddefconfig*' 'MANPATH=$PWD/prefix/share/man man -P cat kconf'
    else
        wants 0 '*olddefconfig*' 'groff -man -Tascii prefix/share/man/man1/kconf.1'
    fi
}

test_uninstall() {
    touch prefix/bin/mine prefix/share/kconf/mine
    wants 0 '*/bin/kconf*' "$tools/install.sh --uninstall prefix"
    wants 0 $'prefix/bin/mine\nprefix/share/kconf/mine' 'find prefix -type f | sort'
    wants 0 '*' "DESTDIR=$work/root apart/tools/install.sh --uninstall usr/local"
    wants 0 '*' "DESTDIR=root apart/tools/install.sh --uninstall /usr"
    wants 0 '' 'find root -type f; find root -name kconf'
    wants 1 'nothing is installed below root/usr: *' 'apart/tools/install.sh --uninstall root/usr'
}

test_try_program
test_release
test_install
test_use
test_uninstall
exit $failed
