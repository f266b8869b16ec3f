#!/usr/bin/env bash
# Runs the command lines of docs/COMMANDS.md, of the help and of the make fragment, and the completions of bash and fish
# on small trees, and compares what they print. GNU make reads what genmake writes.
#
#     tools/test_program.sh [PROGRAM]
#
# PROGRAM is a built kconf, and otherwise what `rt run` leaves in crates/kconf/out. It needs bash, GNU make and Python 3.
# A line is written for each part, with the difference where there is one, and the status is 1 then.
set -uo pipefail

root=$(cd "$(dirname "${BASH_SOURCE[0]}")/.." && pwd)
program=$(realpath "${1:-$root/crates/kconf/out/kconf}")
work=$(mktemp -d)
trap 'rm -rf "$work"' EXIT
mkdir "$work/bin"
ln -s "$program" "$work/bin/kconf"
export PATH=$work/bin:$PATH LC_ALL=C
failed=0

# Begins a part in a new folder.
part() {
    title=$1
    mkdir "$work/$2"
    cd "$work/$2" || exit 1
}

# Compares what a command printed with the text on standard input.
wants() {
    if diff -u - <("$@" 2>&1; echo "status $?") > "$work/difference"; then
        echo "ok: $title: $*"
    else
        echo "FAILED: $title: $*"
        cat "$work/difference"
        failed=1
    fi
}

# Runs a line of a shell.
shell() {
    bash -c "$1"
}

# A tree whose architecture is a variable.
write_tree() {
    mkdir -p arch/x86
    cat > Kconfig <<'END'
source "arch/$(SRCARCH)/Kconfig"
config NET
    bool "Network"
END
    cat > arch/x86/Kconfig <<'END'
config X86
    def_bool y
END
    echo 'CONFIG_NET=y' > .config
    printf '# words: what the tree is built for\nARCH=x86\nSRCARCH=x86\n' > words
}

part 'the version' version
wants kconf --version <<'END'
kconf 1.2.0
status 0
END
wants kconf -V <<'END'
kconf 1.2.0
status 0
END
wants shell 'kconf --help | grep -c "^  [a-z]"' <<'END'
16
status 0
END
wants shell 'kconf session --help | sed -n "s/^  \([1-7a-z][a-z]*\) .*/\1/p" | tr "\n" " "' <<'END'
set unset reset load merge show list choices 1 2 3 4 5 6 7 printf status 0
END

part 'the command line' line
write_tree
wants shell 'kconf olddefconfig Kconfig .config ARCH=x86 SRCARCH=x86 > new.config && mv new.config .config; cat .config' <<'END'
CONFIG_X86=y
CONFIG_NET=y
status 0
END
wants shell 'kconf olddefconfig Kconfig .config --variables words > new.config; cat new.config' <<'END'
CONFIG_X86=y
CONFIG_NET=y
status 0
END
wants kconf olddefconfig Kconfig .config --variables words SRCARCH=arm <<'END'
kconf: arch/arm/Kconfig: cannot read
status 1
END
printf 'ARCH=x86\n\nSRCARCH x86\n' > bad
wants kconf olddefconfig Kconfig .config --variables bad <<'END'
error: bad:3: not NAME=VALUE, with ASCII letters, digits, '_' and '-' in NAME, and '-' not first
status 2
END
wants shell 'kconf savedefconfig Kconfig .config SRCARCH=x86 > defconfig; cat defconfig' <<'END'
CONFIG_NET=y
status 0
END
wants kconf listnewconfig Kconfig - SRCARCH=x86 <<'END'
CONFIG_NET=n
status 0
END
wants shell 'kconf genheader Kconfig .config SRCARCH=x86 > autoconf.h; cat autoconf.h' <<'END'
#define CONFIG_X86 1
#define CONFIG_NET 1
status 0
END
wants shell 'kconf allnoconfig Kconfig SRCARCH=x86 > tiny.config; cat tiny.config' <<'END'
CONFIG_X86=y
# CONFIG_NET is not set
status 0
END
wants shell 'kconf allyesconfig Kconfig SRCARCH=x86 > full.config; cat full.config' <<'END'
CONFIG_X86=y
CONFIG_NET=y
status 0
END
wants shell "kconf allnoconfig Kconfig .config 2>&1 | tail -n 1" <<'END'
tip: allnoconfig takes no CONFIG: leave out '.config'
status 0
END
wants shell "kconf olddefconfig Kconfig .config net.frag 2>&1 | tail -n 1" <<'END'
tip: 'net.frag' has no '='
status 0
END
wants shell "kconf olddefconfig Kconfig .config A.B=x 2>&1 | tail -n 1" <<'END'
tip: what 'A.B=x' has before its '=' is no NAME
status 0
END
wants shell "printf 'list\nconfig\n' | kconf session Kconfig .config SRCARCH=x86" <<'END'
X86 type=bool value=y vis=n can=- user=y
NET type=bool value=y vis=y can=n,y user=y
ok
CONFIG_X86=y
CONFIG_NET=y
ok
status 0
END

part 'another folder' folder
mkdir linux
(cd linux && write_tree)
wants shell 'kconf olddefconfig -C linux Kconfig .config --variables words > linux/new.config; cat linux/new.config' <<'END'
CONFIG_X86=y
CONFIG_NET=y
status 0
END
wants kconf files -C linux Kconfig SRCARCH=x86 <<'END'
Kconfig
arch/x86/Kconfig
status 0
END
wants kconf olddefconfig -C linux Kconfig .config <<'END'
kconf: arch//Kconfig: cannot read
status 1
END
wants kconf allnoconfig -C linux "$PWD/linux/arch/x86/Kconfig" <<'END'
CONFIG_X86=y
status 0
END

part 'the files of a Kconfig' files
write_tree
wants shell "kconf files Kconfig SRCARCH=x86 | sed 's/^/.config: /' > .config.d; cat .config.d" <<'END'
.config: Kconfig
.config: arch/x86/Kconfig
status 0
END
wants kconf files Kconfig SRCARCH=arm <<'END'
kconf: arch/arm/Kconfig: cannot read: no such file
  Kconfig:1: source "arch/$(SRCARCH)/Kconfig"
status 1
END

part 'values for make' make
for name in PLAIN DOLLAR HASH SLASH LAST TWO FIRST TAB RETURN QUOTE PAREN COLON; do
    printf 'config %s\n\tstring "s"\n' $name
done > Kconfig
printf 'config N\n\tbool "n"\nconfig Y\n\tbool "y"\nconfig I\n\tint "i"\n' >> Kconfig
cat > .config <<'END'
CONFIG_PLAIN="a b\\c"
CONFIG_DOLLAR="costs $5 $(shell echo no) $$ ${X} $"
CONFIG_HASH="# each #"
CONFIG_SLASH="a\\#b\\\\#c"
CONFIG_LAST="c:\\"
CONFIG_TWO="c:\\\\"
CONFIG_FIRST="  a  "
CONFIG_QUOTE="say \"hi\" 'to' `all`"
CONFIG_PAREN="a) (b, ] {"
CONFIG_COLON="a: b := c = d ?= e"
CONFIG_Y=y
CONFIG_I=-3
END
printf 'CONFIG_TAB="\ta\t"\nCONFIG_RETURN="a\r"\n' >> .config
cat > Makefile <<'END'
include auto.conf
$(foreach name,$(sort $(filter CONFIG_%,$(.VARIABLES))),$(info $(name)=[$($(name))]))
all: ;
END
wants shell 'kconf genmake Kconfig .config > auto.conf && make -s | tr "\t\r" "TR"' <<'END'
CONFIG_COLON=[a: b := c = d ?= e]
CONFIG_DOLLAR=[costs $5 $(shell echo no) $$ ${X} $]
CONFIG_FIRST=[  a  ]
CONFIG_HASH=[# each #]
CONFIG_I=[-3]
CONFIG_LAST=[c:\]
CONFIG_PAREN=[a) (b, ] {]
CONFIG_PLAIN=[a b\c]
CONFIG_QUOTE=[say "hi" 'to' `all`]
CONFIG_RETURN=[aR]
CONFIG_SLASH=[a\#b\\#c]
CONFIG_TAB=[TaT]
CONFIG_TWO=[c:\\]
CONFIG_Y=[y]
status 0
END
printf 'config NET\n\tbool "n"\nconfig PROMPT\n\tstring "p"\n' > Kconfig
printf 'CONFIG_NET=y\nCONFIG_PROMPT="costs $5 # each"\n' > .config
wants kconf genmake Kconfig .config <<'END'
CONFIG_NET=y
CONFIG_PROMPT=costs $$5 \# each
status 0
END

part 'a session' session
cat > Kconfig <<'END'
config A
    bool "a"
    default y
config B
    bool "b"
    depends on A
END
cat > commands <<'END'
load 2
CONFIG_U=y
CONFIG_B=y
set A n
show B
config
unset A
defconfig
set A m
header
END
wants shell 'kconf session Kconfig - < commands' <<'END'
warning 1 1
ok
ok
B type=bool value=n vis=n can=- user=y
ok
# CONFIG_A is not set
ok
ok
CONFIG_B=y
ok
refused 3
#define CONFIG_A 1
#define CONFIG_B 1
ok
status 0
END

part 'the make fragment' fragment
write_tree
cp "$root/tools/kconf.mk" .
cat > Makefile <<'END'
all: show
KCONFIG_WORDS := --variables words
include kconf.mk
ifeq ($(filter %config,$(MAKECMDGOALS)),)
include auto.conf
endif
show: auto.conf autoconf.h
	@echo net=$(CONFIG_NET) && cat autoconf.h
END
rm .config
wants make -s <<'END'
net=
#define CONFIG_X86 1
status 0
END
wants make -s listnewconfig <<'END'
status 0
END
echo 'CONFIG_NET=y' > defconfig
wants shell 'make -s defconfig && make -s && cat .config .config.d' <<'END'
net=y
#define CONFIG_X86 1
#define CONFIG_NET 1
CONFIG_X86=y
CONFIG_NET=y
.config: Kconfig
Kconfig:
.config: arch/x86/Kconfig
arch/x86/Kconfig:
status 0
END
printf 'config NEW\n    bool "New"\n    default y\n' >> arch/x86/Kconfig
touch -d '1 minute ago' .config auto.conf autoconf.h
wants shell 'make -s && make -s listnewconfig && make -s savedefconfig && cat defconfig' <<'END'
net=y
#define CONFIG_X86 1
#define CONFIG_NEW 1
#define CONFIG_NET 1
CONFIG_NET=y
status 0
END
echo 'frob' >> arch/x86/Kconfig
wants shell 'make -s olddefconfig 2>&1 | sed "s/.*Error/Error/"; cat .config; ls -A | tr "\n" " "' <<'END'
kconf: arch/x86/Kconfig:6: K04: `frob` begins no statement
  arch/x86/Kconfig:6: frob
Error 1
CONFIG_X86=y
CONFIG_NEW=y
CONFIG_NET=y
.config .config.d Kconfig Makefile arch auto.conf autoconf.h defconfig kconf.mk words status 0
END

# A project whose makefile begins with the fragment, in a folder of its own.
write_project() {
    mkdir -p board/net
    printf 'config NET\n\tbool "Network"\n\tdefault y\nsource "net/Kconfig"\n' > board/Kconfig
    printf 'config WIFI\n\tbool "Wireless"\n\tdepends on NET\n' > board/net/Kconfig
    echo 'CONFIG_WIFI=y' > board/wifi.config
    echo '# CONFIG_NET is not set' > board/small.config
    {
        echo "include $root/tools/kconf.mk"
        printf '%s\n' 'ifeq ($(filter clean %config,$(MAKECMDGOALS)),)' 'include auto.conf' 'endif'
        printf '%s\n\t%s\n' 'main: autoconf.h' '@echo net=$(CONFIG_NET); cat autoconf.h; touch main' 'clean:' '@rm -f main'
    } > board/Makefile
}

# Runs make in a folder, with its own messages as `Error 1` or what they say. Of a finding the place and the name are
# shown, and the counts of a merge are not.
make_in() {
    make -s -C "$@" 2>&1 | sed 's/^make: .*Error/Error/; s/.*[*][*][*] //; / asked: /d; s/^\([^ ]*:[0-9]*: [A-Z]*\): .*/\1/'
}

part 'the make fragment at the head of a makefile' head
write_project
wants make_in board <<'END'
net=y
#define CONFIG_NET 1
status 0
END
touch -d '1 minute ago' board/.config.d board/.config board/auto.conf board/autoconf.h board/main
echo 'CONFIG_WIFY=y' >> board/.config
wants make_in board <<'END'
kconf: .config:3: warning 1: no symbol is named WIFY; did you mean WIFI?
net=y
#define CONFIG_NET 1
status 0
END
wants make_in board <<'END'
status 0
END
echo 'frob' >> board/net/Kconfig
touch -d '1 minute ago' board/.config
wants make_in board <<'END'
kconf: net/Kconfig:4: K04: `frob` begins no statement
  net/Kconfig:4: frob
Error 1
status 2
END
wants cat board/.config <<'END'
CONFIG_NET=y
# CONFIG_WIFI is not set
CONFIG_WIFY=y
status 0
END
wants make_in board clean KCONFIG=none <<'END'
status 0
END
wants make_in board KCONFIG=none KCONFIG_CONFIG=new <<'END'
kconf: none: cannot read: no such file
Error 1
status 2
END

part 'the make fragment: fragments, check and why' fragments
write_project
wants make_in board defconfig KCONFIG_FRAGMENTS=wifi.config <<'END'
status 0
END
rm board/.config
wants make_in board -j4 defconfig autoconf.h KCONFIG_DEFCONFIG=wifi.config <<'END'
status 0
END
wants cat board/autoconf.h <<'END'
#define CONFIG_NET 1
#define CONFIG_WIFI 1
status 0
END
wants make_in board mergeconfig KCONFIG_FRAGMENTS='wifi.config small.config' KCONFIG_STRICT=y <<'END'
wifi.config:1: WIFI
Error 1
status 2
END
wants cat board/.config <<'END'
CONFIG_NET=y
CONFIG_WIFI=y
status 0
END
wants make_in board mergeconfig KCONFIG_FRAGMENTS=small.config <<'END'
.config:2: WIFI
status 0
END
wants make_in board mergeconfig <<'END'
KCONFIG_FRAGMENTS is empty: make mergeconfig KCONFIG_FRAGMENTS="FILE ..".  Stop.
status 2
END
echo 'CONFIG_WIFI=y' >> board/.config
wants make_in board checkconfig KCONFIG_STRICT=y <<'END'
.config:2: WIFI
1 finding in .config, none in the tree
Error 1
status 2
END
wants shell 'make -s -C board whyconfig SYMBOL="CONFIG_NET WIFI" | grep "^[A-Z]"' <<'END'
NET = n (bool, visible y, user n)
WIFI = n (bool, visible n, user y)
status 0
END
wants make_in board whyconfig <<'END'
SYMBOL is empty: make whyconfig SYMBOL="NAME ..".  Stop.
status 2
END

part 'the make fragment in a makefile with other settings' settings
write_project
cat - board/Makefile > settings.mk <<'END'
SHELL := bash
.SHELLFLAGS := -euo pipefail -c
.ONESHELL:
.DELETE_ON_ERROR:
.SECONDEXPANSION:
MAKEFLAGS += -rR
own: ; @echo own
END
mv settings.mk board/Makefile
wants make_in board -j4 <<'END'
own
status 0
END
wants make_in board defconfig main KCONFIG_FRAGMENTS=wifi.config <<'END'
net=
#define CONFIG_NET 1
#define CONFIG_WIFI 1
status 0
END
wants make_in board savedefconfig mergeconfig KCONFIG_FRAGMENTS=small.config <<'END'
.config:2: WIFI
status 0
END
wants shell 'make -s -C board savedefconfig KCONFIG_DEFCONFIG=one; sed -i /NET/d board/.config; cat board/one
    make -s -C board olddefconfig savedefconfig; wc -c < board/defconfig; make -s -C board whyconfig SYMBOL=WIFI | head -n 1' <<'END'
# CONFIG_NET is not set
0
WIFI = n (bool, visible y, user n)
status 0
END
wants make_in board -k checkconfig listnewconfig whyconfig <<'END'
no findings
SYMBOL is empty: make whyconfig SYMBOL="NAME ..".  Stop.
status 2
END
wants make_in board olddefconfig KCONFIG=wifi.config <<'END'
kconf: wifi.config: defines no symbol: is it a .config?
kconf: .config:1: warning 1: no symbol is named NET
kconf: .config:2: warning 1: no symbol is named WIFI
kconf: wifi.config: defines no symbol: is it a .config?
kconf.mk: wifi.config defines no symbol (is it a Kconfig?), so .config is not written
Error 1
status 2
END

part 'the make fragment: a .config in place of the Kconfig' exchanged
write_project
echo 'CONFIG_NET=y' > board/.config
wants make_in board olddefconfig KCONFIG=.config KCONFIG_CONFIG=net/Kconfig <<'END'
kconf: .config: defines no symbol: is it a .config?
kconf: net/Kconfig:1: warning 4: not a line of a .config
kconf: net/Kconfig:2: warning 4: not a line of a .config
kconf: net/Kconfig:3: warning 4: not a line of a .config
kconf: .config: defines no symbol: is it a .config?
kconf.mk: .config defines no symbol (is it a Kconfig?), so net/Kconfig is not written
Error 1
status 2
END
wants shell 'head -n 1 board/net/Kconfig; ls -A board/net' <<'END'
config WIFI
Kconfig
status 0
END

part 'the make fragment: a Kconfig in another folder, and the menu' elsewhere
write_project
mkdir build
echo 'SIZE=a b' > words
printf 'config BIG\n\tdef_bool y if "$(SIZE)$(B)" = "a bc"\n' >> board/Kconfig
{
    printf '%s\n' 'KCONFIG_FOLDER := ../board' 'KCONFIG_WORDS := --variables ../words B=c' 'KCONFIG_MENU := echo menu'
    printf '%s\n' "include $root/tools/kconf.mk" 'all: autoconf.h ; @cat autoconf.h'
} > build/Makefile
wants make_in build <<'END'
#define CONFIG_NET 1
#define CONFIG_BIG 1
status 0
END
wants cat build/.config.d <<'END'
.config: ../board/Kconfig
../board/Kconfig:
.config: ../board/net/Kconfig
../board/net/Kconfig:
status 0
END
sed -i 's/y if/n if/' board/Kconfig
touch -d '1 minute ago' build/.config build/auto.conf build/autoconf.h
wants make_in build <<'END'
#define CONFIG_NET 1
status 0
END
wants shell "make -s -C build menuconfig | sed 's|$PWD/||'" <<'END'
menu --kconf kconf Kconfig build/.config --variables ../words B=c -C ../board
status 0
END
wants shell "python3 $root/clients/menuconfig.py Kconfig .config --variables ../words B=c < /dev/null 2>&1 | tail -n 1" <<'END'
menuconfig.py: error: its input and output have to be a terminal
status 0
END
wants make_in build KCONFIG_WORDS='-C ../board' <<'END'
KCONFIG_WORDS has -C: set KCONFIG_FOLDER in its place.  Stop.
status 2
END

# Prints what bash completes the last of some words to.
completed() {
    COMP_WORDS=("$@")
    COMP_CWORD=$(($# - 1))
    compopt() { :; }
    _kconf
    printf '%s\n' "${COMPREPLY[@]}"
}

part 'completion' completion
source "$root/tools/completions/kconf.bash"
mkdir linux
touch Kconfig .config
wants completed kconf gen <<'END'
genheader
genmake
status 0
END
wants completed kconf files K <<'END'
Kconfig
status 0
END
wants completed kconf files Kconfig --e <<'END'
--explain
status 0
END
wants completed kconf files -C l <<'END'
linux
status 0
END
wants completed kconf help se <<'END'
session
status 0
END

# Prints what fish completes some words to, without the descriptions.
completed_by_fish() {
    HOME=$work fish --no-config -c "source '$root/tools/completions/kconf.fish'; complete -C '$1'" | cut -f 1
}

if command -v fish > /dev/null; then
    part 'completion of fish' fish
    mkdir linux
    touch Kconfig .config
    wants completed_by_fish 'kconf gen' <<'END'
genheader
genmake
status 0
END
    wants completed_by_fish 'kconf files K' <<'END'
Kconfig
status 0
END
    wants completed_by_fish 'kconf check Kconfig --' <<'END'
--explain
--help
--prefix
--strict
--undefined
--variables
status 0
END
    wants completed_by_fish 'kconf files -C ' <<'END'
linux/
status 0
END
    wants completed_by_fish 'kconf help se' <<'END'
session
status 0
END
    wants completed_by_fish 'kconf help session ' <<'END'
status 0
END
else
    echo 'not tested: the completion of fish, which is not there'
fi

exit $failed
