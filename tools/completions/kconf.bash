# Completion of kconf for bash: targets, options and files. tools/install.sh installs it as
# PREFIX/share/bash-completion/completions/kconf, where bash-completion finds it; `source` reads it without that.

_kconf() {
    local word=${COMP_WORDS[COMP_CWORD]} before=${COMP_WORDS[COMP_CWORD - 1]}
    local targets="olddefconfig savedefconfig listnewconfig genheader genmake allnoconfig allyesconfig files why check merge how menu session"
    local options="--variables -C --prefix --explain --help"
    case ${COMP_WORDS[1]} in
        why) options+=" --all" ;;
        check) options+=" --undefined --strict --tree" ;;
        merge) options+=" --strict" ;;
        how) options+=" --keep --strict" ;;
        menu) options+=" --no-help" ;;
    esac
    COMPREPLY=()
    if ((COMP_CWORD == 1)); then
        mapfile -t COMPREPLY < <(compgen -W "$targets help --help --version" -- "$word")
        return
    fi
    case $before in
        help)
            ((COMP_CWORD == 2)) && mapfile -t COMPREPLY < <(compgen -W "$targets" -- "$word")
            return
            ;;
        -C)
            compopt -o filenames
            mapfile -t COMPREPLY < <(compgen -d -- "$word")
            return
            ;;
        --prefix) return ;;
    esac
    if [[ $word == -* && $before != --variables ]]; then
        mapfile -t COMPREPLY < <(compgen -W "$options" -- "$word")
    else
        compopt -o filenames
        mapfile -t COMPREPLY < <(compgen -f -- "$word")
    fi
}

complete -F _kconf kconf
