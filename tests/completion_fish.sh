#!/usr/bin/env bash
# The completions that fish offers for the words of the program.
. "$(dirname "$0")/lib.sh"
needs fish
touch game.sgf

# wants WANTED LINE: these are the completions of the last word of the line.
wants() {
    local want=$1 line=$2 got
    got=$(HOME=$work fish --no-config -c "source '$top/completion/sgfsplit.fish'; complete -C '$line'" | cut -f 1 | sort | tr '\n' ' ')
    [ "$got" = "${want:+$want }" ] || failed "offered for '$line': $got"
}

wants "$(sorted $(words command))" 'sgfsplit '
wants "$(sorted --help $(words option --))" 'sgfsplit split --'
wants "$(sorted $(words form))" 'sgfsplit split --form '
wants "$(sorted $(words form --form=))" 'sgfsplit split --form='
wants '' 'sgfsplit split --limit '
wants 'game.sgf' 'sgfsplit split --form sgf g'
wants 'game.sgf' 'sgfsplit count g'
