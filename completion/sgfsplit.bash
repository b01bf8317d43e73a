# Completes the words of sgfsplit in bash: subcommands, options, forms and files.
_sgfsplit() {
    local word=${COMP_WORDS[COMP_CWORD]} before=${COMP_WORDS[COMP_CWORD - 1]} at
    COMPREPLY=()
    if [ "$COMP_CWORD" -eq 1 ]; then
        mapfile -t COMPREPLY < <(compgen -W 'split count --help' -- "$word")
        return
    fi
    for ((at = 2; at < COMP_CWORD; at++)); do
        case ${COMP_WORDS[at]} in
            --form | --after | --limit) ((at += 1)) ;; # its value, or the `=` before it
            --)
                compopt -o default
                return
                ;;
        esac
    done
    # bash hands `--form=sgf` over as three words
    if [ "$word" = = ]; then
        word=
    elif [ "$before" = = ]; then
        before=${COMP_WORDS[COMP_CWORD - 2]}
    fi
    if [ "${COMP_WORDS[1]}" = split ]; then
        case $before in
            --form)
                mapfile -t COMPREPLY < <(compgen -W 'list sgf gtp' -- "$word")
                return
                ;;
            --after | --limit) return ;;
        esac
        if [[ $word == -* ]]; then
            mapfile -t COMPREPLY < <(compgen -W '--form --after --limit --help' -- "$word")
            return
        fi
    elif [[ $word == -* ]]; then
        mapfile -t COMPREPLY < <(compgen -W '--help' -- "$word")
        return
    fi
    compopt -o default # bash itself completes files: it keeps a name with a line feed whole
}
complete -F _sgfsplit sgfsplit
