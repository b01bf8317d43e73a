#!/usr/bin/env bash
# Games in a mail. They are refused as they are, and split after the prose became spaces, with the places of the mail. A game that is cut off or
# damaged is named at its true byte. Comments aren't prose.
. "$(dirname "$0")/lib.sh"
needs python3
tool=$top/recipes/prose.py
{
    printf 'From: a player (somewhere) <a@b>\nSubject: our games [the ones on Sunday]\n\nHello, here (as I said): '
    cat "$top/examples/corner.sgf"
    printf 'And another, (a ko):\r\n\xe4\xb8\xad\xe6\x96\x87 \\] '
    cat "$top/examples/ko.sgf"
    printf -- '-- \nGreetings (again)\n'
} > mail.txt
if "$SGFSPLIT" split mail.txt > got 2> fault; then failed "prose was accepted"; fi
"$tool" < mail.txt > clean
[ "$(wc -c < clean)" = "$(wc -c < mail.txt)" ] && [ "$(wc -l < clean)" = "$(wc -l < mail.txt)" ] || failed "places moved"
"$SGFSPLIT" split --form sgf clean > got
{ "$SGFSPLIT" split --form sgf "$top/examples/corner.sgf"; "$SGFSPLIT" split --form sgf "$top/examples/ko.sgf"; } > want
same want got
"$SGFSPLIT" split clean | while read -r place rest; do
    [ "$(tail -c +$((place + 1)) mail.txt | head -c 1)" = ';' ] || failed "no node of the mail at $place"
done

# again TEXT: the text has no prose, so every byte stays.
again() {
    printf "$1" > text
    "$tool" < text > got
    cmp text got >&2 || failed "changed: $1"
}
again '(;C[) ( \\] (;B[aa\\]) Greetings]\n;B[bb])'
again '\xef\xbb\xbf(;)'
again ''
for file in "$top"/examples/*.sgf; do
    "$tool" < "$file" > got
    cmp "$file" got >&2 || failed "changed: $file"
done

# fault TEXT ROW: after the prose around the game is removed, the program names this fault.
fault() {
    printf "$1" | "$tool" > got
    if "$SGFSPLIT" split got > rows 2> row; then failed "accepted: $1"; fi
    [ "$(cat row)" = "sgfsplit: $2" ] || failed "$1: $(cat row)"
}
fault 'Hello\n(;SZ[9];B[aa]' 'byte 19: input ends too early'
fault 'Hello\n(;SZ[9];B[aa])\n(;SZ[9];B[b' 'byte 32: input ends too early'
fault 'Hello (;SZ[9];B[aa](;W[bb])\nBye\n' 'byte 28: not SGF'
fault 'Hello (;SZ[9];B[aa]1)(;)' 'byte 19: not SGF'
fault 'Hello (;1SZ[9];B[aa])(;)' 'byte 8: not SGF'
fault 'nothing\n' 'byte 8: input ends too early'

# Files and folders: each text is below OUT, and the other tools can read it.
mkdir -p mails/x
cp mail.txt mails/x/mail.txt
cp mail.txt mails/x/mail.sgf
"$tool" out mails mails/x/mail.txt
same clean out/mails/x/mail.sgf
same clean out/mails/x/mail.txt.sgf
if "$tool" . mails/x/mail.sgf 2> fault; then failed "a mail was written over"; fi
same mail.txt mails/x/mail.sgf
[ "$("$top/recipes/verdicts.py" --csv out | wc -l)" = 13 ] || failed "the table of the mails"
