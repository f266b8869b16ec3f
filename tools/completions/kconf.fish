# Completion of kconf for fish: targets, options and files. tools/install.sh installs it as
# PREFIX/share/fish/vendor_completions.d/kconf.fish, where fish finds it; `source` reads it without that.

# Whether the target, which is the first word, is one of the arguments. Without arguments: whether there is none yet.
function __kconf_target
    set -l words (commandline -opc)
    if not set -q argv[1]
        test (count $words) -eq 1
    else if set -q words[2]
        contains -- $words[2] $argv
    else
        false
    end
end

# Whether the word after `help` is being written.
function __kconf_helped
    __kconf_target help; and test (count (commandline -opc)) -eq 2
end

set -l targets \
    olddefconfig\t'write the whole .config' \
    savedefconfig\t'write the defconfig, which has only what differs from the defaults' \
    listnewconfig\t'list the symbols that CONFIG does not set' \
    genheader\t'write the C header' \
    genmake\t'write the values as make reads them' \
    allnoconfig\t'write a .config with n wherever that can be' \
    allyesconfig\t'write a .config with y wherever that can be' \
    files\t'list the files that KCONFIG is read from' \
    why\t'say why symbols have their values' \
    check\t'list what is doubtful' \
    merge\t'write the .config of CONFIG and fragments, and report on their lines' \
    how\t'write a fragment that gives symbols wanted values' \
    menu\t'write the menu tree as JSON' \
    session\t'answer commands from standard input'
set -l named (string replace -r '\t.*' '' $targets)

complete -c kconf -e
complete -c kconf -n __kconf_target -f -a "$(string escape -- $targets)"
complete -c kconf -n __kconf_target -f -a help -d 'print the help of a target'
complete -c kconf -n __kconf_target -s V -l version -d 'print the version'
complete -c kconf -n __kconf_helped -f -a "$(string escape -- $targets)"
complete -c kconf -n '__kconf_target help' -f
complete -c kconf -s h -l help -d 'print help'

complete -c kconf -n "__kconf_target $named" -l variables -r -F -d 'read NAME=VALUE from a file'
complete -c kconf -n "__kconf_target $named" -s C -x -a '(__fish_complete_directories)' \
    -d 'take all paths from a folder'
complete -c kconf -n "__kconf_target $named" -l prefix -x -d 'what precedes the names of symbols in files'
complete -c kconf -n "__kconf_target $named" -l explain -d 'explain each warning and error'
complete -c kconf -n '__kconf_target why' -l all -d 'show the whole of each list'
complete -c kconf -n '__kconf_target check' -l undefined -d 'list all undefined names'
complete -c kconf -n '__kconf_target check' -l strict -d 'make the status 1 where there is a finding of CONFIG'
complete -c kconf -n '__kconf_target check' -l tree -d 'judge the Kconfig, too'
complete -c kconf -n '__kconf_target merge' -l strict -d 'make the status 1 where a line has no effect'
complete -c kconf -n '__kconf_target how' -l keep -d 'keep the values of CONFIG, as far as they can be'
complete -c kconf -n '__kconf_target how' -l strict -d 'make the status 1 where a line of CONFIG is lost'
complete -c kconf -n '__kconf_target menu' -l no-help -d 'write no help texts'
