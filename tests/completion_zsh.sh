#!/usr/bin/env bash
# The completions that zsh offers for the words of the program, in its own terminal.
. "$(dirname "$0")/lib.sh"
needs zsh
touch game.sgf
cat > .zshrc <<'ZSH'
PROMPT='' RPROMPT=''
fpath=($COMPLETIONS $fpath)
autoload -Uz compinit
compinit -u -D
zstyle ':completion:*' menu no
bindkey '^I' list-choices
unset zle_bracketed_paste
print ready
ZSH
cat > offered.zsh <<'ZSH'
zmodload zsh/zpty
zpty shell "ZDOTDIR=$PWD TERM=dumb zsh -i"
zpty -r shell out $'*ready*'
sleep 0.3
zpty -w -n shell "$1"$'\t'
sleep 0.7
while zpty -r -t shell out; do print -rn -- "$out"; done
ZSH

# wants WANTED LINE: these are the choices that a tab lists after the line: the first word of each row, or all words of one row.
wants() {
    local want=$1 line=$2 got
    COMPLETIONS=$top/completion timeout 30 zsh -f offered.zsh "$line" | tr -d '\a\r' > shown
    got=$(grep -v sgfsplit shown | sed 's/  *-- .*//' | tr -s ' \n' '\n\n' | grep . | sort | tr '\n' ' ') || true
    [ "$got" = "$want " ] || failed "offered for '$line': $got"
}

wants "$(sorted $(words command))" 'sgfsplit '
wants "$(sorted --help $(words option --))" 'sgfsplit split --'
wants "$(sorted $(words form))" 'sgfsplit split --form '
wants "$(sorted $(words form))" 'sgfsplit split --form='
wants 'game.sgf' 'sgfsplit split --form sgf g'
wants 'game.sgf' 'sgfsplit count g'
