# Completions of stc for bash: its commands, options and files, and behind --program the names of the programs in the text.
_stc() {
    local word=${COMP_WORDS[COMP_CWORD]} before=${COMP_WORDS[COMP_CWORD - 1]} text=
    COMPREPLY=()
    if ((COMP_CWORD == 1)); then
        local first='check layout run help --help --version'
        [[ ${COMP_WORDS[0]} == */* ]] && first+=' build' # of a checkout
        mapfile -t COMPREPLY < <(compgen -W "$first" -- "$word")
        return
    fi
    if [[ ${COMP_WORDS[1]} == help ]]; then
        ((COMP_CWORD == 2)) && mapfile -t COMPREPLY < <(compgen -W 'check layout run' -- "$word")
        return
    fi
    case $before in
    --steps) return ;;
    --program)
        for text in "${COMP_WORDS[@]:2}"; do
            [[ -f $text && $text != -* ]] && break
        done
        [[ -f $text ]] && mapfile -t COMPREPLY < <(compgen -W "$(grep -ioE '\bPROGRAM[[:space:]]+[A-Za-z_][A-Za-z0-9_]*' "$text" | awk '{ print $2 }')" -- "$word")
        return
        ;;
    esac
    if [[ $word == -* ]]; then
        local options='--program --quiet --help'
        [[ ${COMP_WORDS[1]} == check ]] && options+=' --all'
        [[ ${COMP_WORDS[1]} == run ]] && options+=' --steps'
        mapfile -t COMPREPLY < <(compgen -W "$options" -- "$word")
    else
        compopt -o filenames 2>/dev/null
        mapfile -t COMPREPLY < <(compgen -f -X '!*.st' -- "$word"; compgen -d -- "$word")
    fi
}
complete -F _stc stc ./stc
