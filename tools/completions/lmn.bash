# Completes the words of the command lmn, for bash: source this file, or put it into
# ~/.local/share/bash-completion/completions/ under the name lmn.
_lmn() {
    local word=${COMP_WORDS[COMP_CWORD]} before=${COMP_WORDS[COMP_CWORD - 1]} command=${COMP_WORDS[1]} option each used
    COMPREPLY=()
    # bash takes the = of --order=turn for a word of its own.
    [ "$before" = '=' ] && before=${COMP_WORDS[COMP_CWORD - 2]}
    if [ "$word" = '=' ]; then
        before=${COMP_WORDS[COMP_CWORD - 1]}
        word=
    fi
    if [ "$COMP_CWORD" -eq 1 ]; then
        COMPREPLY=($(compgen -W 'run compile demo check debug exec bound --help --version --build --unproved' -- "$word"))
        return
    fi
    case $command in
        run)
            case $before in
                --order) COMPREPLY=($(compgen -W 'first turn seed' -- "$word")); return ;;
                --budget | --size | --seed) return ;;
            esac
            if [[ $word == -* ]]; then
                for option in --trace --folded --budget --size --order --seed; do
                    used=
                    for each in "${COMP_WORDS[@]:2:COMP_CWORD-2}"; do [ "${each%%=*}" = "$option" ] && used=yes; done
                    [ -n "$used" ] || COMPREPLY+=($(compgen -W "$option" -- "$word"))
                done
                return
            fi
            ;;
        compile) [ "$COMP_CWORD" -eq 2 ] || return ;;
        check | debug | exec | bound) [ "$COMP_CWORD" -le 3 ] || return ;;
        *) return ;;
    esac
    compopt -o filenames 2> /dev/null
    COMPREPLY=($(compgen -f -- "$word"))
}
complete -F _lmn lmn ./lmn
