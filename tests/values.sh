#!/usr/bin/env bash
# Tries raw values on the built program: where they end, and the text of a comment. There are 0 to 200 plain bytes before each special byte. So
# bytes that are scanned together must give the same answer as bytes that are scanned one by one.
# The last line is `N passed, N failed, N skipped`.
. "$(dirname "$0")/lib.sh"
set +e
passed=0 failed=0

# check NAME WANTED GOT: the two files have the same bytes.
check() {
    if cmp -s "$2" "$3"; then
        passed=$((passed + 1))
    else
        failed=$((failed + 1))
        printf 'FAILED: %s\n' "$1"
        diff -a "$2" "$3" | head -n 5
    fi
}

# plain COUNT BYTE
plain() { head -c "$1" /dev/zero | tr '\0' "$2"; }

few='0 1 2 3 13 15 16 17 100 127 128 129 200'

# ---- a value ends at its first `]` that isn't escaped: each game is written as it was
for count in $few; do
    before=$(plain "$count" a)
    for value in '' '\]' '\\' '\\\]' '\\\\' '\]\]' '\]\\' '\]\\\]' '\]a\]b' '\:\\:' '\]01234567890123456789\]'; do
        printf '(;C[%s%s])\n(;C[%s%s]W[aa];B[bb])\n' "$before" "$value" "$before" "$value"
    done
done > input.sgf
"$SGFSPLIT" split --form sgf input.sgf > out 2> err
check 'values come back as they stood' input.sgf out
check 'values that end: nothing is said' /dev/null err

# ---- if each `]` is escaped, or there is none, the text ends too early
for count in $few; do
    before=$(plain "$count" a)
    for value in '' '\' '\]' '\\' '\]\' '\]a\\' '\\\]'; do
        printf '(;C[%s%s' "$before" "$value" > input.sgf
        echo "sgfsplit: byte $((4 + count + ${#value})): input ends too early" > wanted
        "$SGFSPLIT" split input.sgf > out 2> err
        check "no end: $value after $count" wanted err
        check "no end: $value after $count: nothing is written" /dev/null out
    done
done

# ---- long values, whose ends the reader keeps, and one that is just too short for that
short=$(plain 4095 a)
long=$(plain 2048 x | sed 's/x/\\]/g')
printf '(;C[%s]N[%s] [%s]W[aa];C[%s]B[bb])' "$short" "$long" "$long" "$long" > input.sgf
printf '(;C[%s]N[%s][%s]W[aa];C[%s]B[bb])\n' "$short" "$long" "$long" "$long" > wanted
"$SGFSPLIT" split --form sgf input.sgf > out 2> err
check 'long values' wanted out

# ---- the text of a comment: escapes are removed, a line break becomes one line feed, other white space becomes a space
# text RAW ROW..: a comment of this value is written as these rows.
text() {
    printf '(;SZ[1]C[%s])' "$1" > input.sgf
    shift
    {
        printf '# 1 1 1 score 0 0 open\nboardsize 1\nclear_board\n'
        printf '# %s\n' "$@"
        printf '\n'
    } > wanted
    "$SGFSPLIT" split --form gtp input.sgf > out 2> err
    check "the text of $1" wanted out
}
text $'a\\\nb' ab
text $'a\\\r\nb' ab
text $'a\\\n\rb' ab
text $'a\tb\r\nc\\:d' 'a b' c:d
text $'a\r\n\n\rb' a '' b
text $'\n\r\n' '' '' ''
text '\\\]' '\]'
text $'\\\t.' ' .'
for count in $(seq 0 39); do
    before=$(plain "$count" a) after=$(plain 20 c)
    text "$before$after" "$before$after"
    text "$before\\]b$after" "$before]b$after"
    text "$before"$'\x01'"b$after" "$before"$'\x01'"b$after"
    text "$before"$'\t'"b$after" "$before b$after"
    text "$before"$'\r\n'"b$after" "$before" "b$after"
done

echo "$passed passed, $failed failed, 0 skipped"
[ "$failed" = 0 ]
