# Prints the variables that a tree's own Makefile gives its Kconfig, as NAME=VALUE, one a line.
#
# At the top of the tree of a kernel, of U-Boot or of another project with the kernel's makefiles:
#
#     MAKEFILES=~/kconf/tools/kconfig_words.mk make -s ARCH=x86 kconfwordsconfig > ../make.words
#
# GNU make reads this file before the tree's makefiles, which stay as they are. The rule takes the place of `conf` in
# scripts/kconfig (of Xen tools/kconfig), so it sees the variables that `conf` would see: those that the tree's makefiles
# export. It prints those that a file named Kconfig* or *.Kconfig names as $(NAME), ${NAME} or $NAME. Nothing is
# configured, but make builds scripts/basic first, as before each configuration. The name of the target has to end with
# `config`.

ifneq ($(filter scripts/kconfig tools/kconfig,$(obj)),)
.PHONY: kconfwordsconfig
kconfwordsconfig:
	@LC_ALL=C grep -rhoE --include='Kconfig*' --include='*.Kconfig' \
	    '[$$][({]?[A-Za-z_][A-Za-z0-9_]*' $(or $(srctree),.) | sed 's/^[$$][({]*//' | sort -u \
	    | while read -r name; do value=$$(printenv "$$name") && printf '%s=%s\n' "$$name" "$$value"; done; :
endif
