# A fragment for the makefile of a project with a Kconfig: make olddefconfig and others call kconf.
#
#     KCONFIG_WORDS := --variables words
#     include kconf.mk
#
# It can be included anywhere, also at the head: plain `make` still builds the project's own first target. What may be
# set before that line, with what it is otherwise:
#
#     KCONF              the program (kconf)
#     KCONFIG            the top file (Kconfig)
#     KCONFIG_CONFIG     the .config (.config)
#     KCONFIG_DEFCONFIG  the defconfig, which has only what differs from the defaults (defconfig)
#     KCONFIG_FRAGMENTS  the fragments: files with some lines of a .config, the most specific last (none)
#     KCONFIG_FOLDER     the directory of KCONFIG and of the files that it sources, as kconf's -C (that of the makefile)
#     KCONFIG_WORDS      words and options of kconf, as ARCH=x86, --variables FILE, --prefix P (none)
#     KCONFIG_STRICT     y: checkconfig fails on a finding of the .config, mergeconfig and defconfig on a line without
#                        effect (none)
#     KCONFIG_MENU       the menu (menuconfig.py in the directory of this file, or in clients of a checkout of kconf)
#
# Targets that a user calls:
#
#     make olddefconfig   brings the .config up to date with the Kconfig, and makes one if there is none
#     make defconfig      makes the .config from the defconfig, and from the fragments where there are some
#     make mergeconfig    merges the fragments into the .config, and reports each line that has no effect
#     make menuconfig     edits the .config in a menu
#     make savedefconfig  makes the defconfig from the .config
#     make listnewconfig  lists the symbols that can be set and that the .config does not set
#     make checkconfig    lists what is doubtful in the Kconfig and in the .config
#     make whyconfig SYMBOL="NET WIFI"    says why symbols have their values
#
# Files, which are made anew when one that they depend on is newer:
#
#     $(KCONFIG_CONFIG)    by the files of the Kconfig; if there is none, from the defconfig, or from defaults alone
#     $(KCONFIG_CONFIG).d  which files these are, with each .config that is made
#     auto.conf            the values for make, by the .config
#     autoconf.h           the values for C, by the .config, after auto.conf, so that a warning is printed once
#
# A makefile that uses the values has these lines. With `-include` make goes on after a mistake in the Kconfig, and ends
# with "No rule to make target", which is not what is wrong:
#
#     ifeq ($(filter clean %config,$(MAKECMDGOALS)),)
#     include auto.conf
#     endif
#
# Each file is written beside its place and moved there, so that after an error it is as it was; so it is where kconf
# writes nothing because the Kconfig defines no symbol, as a .config in its place. Errors and warnings come with their
# words (--explain). With KCONFIG_FOLDER, a path in KCONFIG_WORDS is one from there. This file is installed as
# PREFIX/share/kconf/kconf.mk. It is tested with GNU make 4.3. Paths with blanks are unsupported.

ifndef kconf-is-included
kconf-is-included := y
kconf-first-target := $(.DEFAULT_GOAL)
kconf-here := $(dir $(lastword $(MAKEFILE_LIST)))

KCONF ?= kconf
KCONFIG ?= Kconfig
KCONFIG_CONFIG ?= .config
KCONFIG_DEFCONFIG ?= defconfig
KCONFIG_FRAGMENTS ?=
KCONFIG_FOLDER ?=
KCONFIG_WORDS ?=
KCONFIG_STRICT ?=
KCONFIG_MENU ?= $(firstword $(wildcard $(kconf-here)menuconfig.py $(kconf-here)../clients/menuconfig.py))
SYMBOL ?=

$(if $(filter -C%,$(KCONFIG_WORDS)),$(error KCONFIG_WORDS has -C: set KCONFIG_FOLDER in its place))

kconf-options = $(KCONFIG_WORDS) $(if $(KCONFIG_FOLDER),-C $(KCONFIG_FOLDER))
kconf-top = $(addprefix $(addsuffix /,$(KCONFIG_FOLDER)),$(KCONFIG))
kconf-strict = $(if $(KCONFIG_STRICT),--strict)

# $(call kconf-run,TARGET,WORDS)
kconf-run = $(KCONF) $(1) $(KCONFIG) $(2) $(kconf-options) $(if $(filter --explain,$(KCONFIG_WORDS)),,--explain)

# $(call kconf-require,NAME,VALUE): stops where a variable is empty.
kconf-require = $(if $(strip $($(1))),,$(error $(1) is empty: make $@ $(1)="$(2)"))

# $(call kconf-path,FILES): files as kconf is given them.
kconf-path = $(if $(KCONFIG_FOLDER),$(abspath $(1)),$(1))

# $(call kconf-or-none,FILE): a file, or the word for none, which the shell decides: make remembers what is there.
kconf-or-none = $$(test -e $(1) && echo $(call kconf-path,$(1)) || echo -)

# The .config; if there is none, the defconfig, so that no target takes defaults in its place; or the word for none.
kconf-present = $$(if test -e $(KCONFIG_CONFIG); then echo $(call kconf-path,$(KCONFIG_CONFIG)); \
    elif test -e $(KCONFIG_DEFCONFIG); then echo $(call kconf-path,$(KCONFIG_DEFCONFIG)); else echo -; fi)

# $(call kconf-write,TARGET,WORDS,FILE): writes what a target gives to a file.
kconf-write = { $(call kconf-run,$(1),$(2)) > $(3).tmp && $(call kconf-has-symbols,$(3)) && mv $(3).tmp $(3); } || \
    { rm -f $(3).tmp; exit 1; }

# $(call kconf-has-symbols,FILE): whether there is something in what was written, or the Kconfig defines a symbol.
kconf-has-symbols = { test -s $(1).tmp || test -n "$$($(call kconf-run,allyesconfig) | tail -n 1)" || \
    { echo "kconf.mk: $(KCONFIG) defines no symbol (is it a Kconfig?), so $(1) is not written" >&2; false; }; }

# $(call kconf-update,TARGET,WORDS): makes the .config by a target, and notes the files that it depends on.
kconf-update = $(call kconf-write,$(1),$(2),$(KCONFIG_CONFIG)) && \
    $(call kconf-write,files,,$(KCONFIG_CONFIG).list) && \
    sed '$(if $(KCONFIG_FOLDER),s|^[^/]|$(KCONFIG_FOLDER)/&|;) s|.*|$(KCONFIG_CONFIG): &|; p; s|^[^:]*: \(.*\)|\1:|' \
        $(KCONFIG_CONFIG).list > $(KCONFIG_CONFIG).d && rm -f $(KCONFIG_CONFIG).list

# $(call kconf-merge,WORD): makes the .config from a file, or from the word for none, and the fragments.
kconf-merge = $(call kconf-update,merge,$(1) $(call kconf-path,$(KCONFIG_FRAGMENTS)) $(kconf-strict))

kconf-of-defconfig = $(call kconf-update,olddefconfig,$(call kconf-path,$(KCONFIG_DEFCONFIG)))

.PHONY: olddefconfig defconfig mergeconfig menuconfig savedefconfig listnewconfig checkconfig whyconfig kconf-always

olddefconfig:
	@$(call kconf-update,olddefconfig,$(kconf-present))

defconfig:
	@$(if $(strip $(KCONFIG_FRAGMENTS)),$(call kconf-merge,$(call kconf-or-none,$(KCONFIG_DEFCONFIG))),$(kconf-of-defconfig))

mergeconfig:
	@$(call kconf-require,KCONFIG_FRAGMENTS,FILE ..)$(call kconf-merge,$(kconf-present))

# The list of files goes, so that the next `make` reads it again: the menu writes none.
menuconfig:
	@$(call kconf-require,KCONFIG_MENU,FOLDER/menuconfig.py)$(KCONFIG_MENU) --kconf $(KCONF) $(KCONFIG) \
	    $(call kconf-path,$(KCONFIG_CONFIG)) $(filter-out --explain,$(kconf-options)) && rm -f $(KCONFIG_CONFIG).d

savedefconfig: $(KCONFIG_CONFIG)
	@$(call kconf-write,savedefconfig,$(call kconf-path,$(KCONFIG_CONFIG)),$(KCONFIG_DEFCONFIG))

listnewconfig:
	@$(call kconf-run,listnewconfig,$(kconf-present))

checkconfig:
	@$(call kconf-run,check,$$(test -e $(KCONFIG_CONFIG) && echo $(call kconf-path,$(KCONFIG_CONFIG))) $(kconf-strict))

whyconfig:
	@$(call kconf-require,SYMBOL,NAME ..)$(call kconf-run,why,$(kconf-present) $(SYMBOL))

# A goal that makes the .config goes first, also with -j. A .config whose files are not listed is brought up to date.
# Where the top file is missing, kconf says so.
$(KCONFIG_CONFIG): $(kconf-top) $(if $(wildcard $(KCONFIG_CONFIG).d),,kconf-always) \
    | $(filter olddefconfig defconfig mergeconfig,$(MAKECMDGOALS))
	@$(call kconf-update,olddefconfig,$(kconf-present))

auto.conf: $(KCONFIG_CONFIG)
	@$(call kconf-write,genmake,$(call kconf-path,$(KCONFIG_CONFIG)),$@)

autoconf.h: $(KCONFIG_CONFIG) auto.conf
	@said=$$(exec 2>&1; $(call kconf-write,genheader,$(call kconf-path,$(KCONFIG_CONFIG)),$@)) || \
	    { printf '%s\n' "$$said" >&2; exit 1; }

$(kconf-top):

-include $(KCONFIG_CONFIG).d
.DEFAULT_GOAL := $(kconf-first-target)
endif
