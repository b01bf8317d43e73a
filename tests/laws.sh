#!/usr/bin/env bash
# Laws of the program on the examples. Splitting the sgf output again gives the same bytes. Appending a collection keeps the rows of the first
# and raises those of the second. Pages join to the whole, places rise, and counts agree.
. "$(dirname "$0")/lib.sh"
for file in "$top"/examples/*.sgf; do
    "$SGFSPLIT" split --form sgf "$file" > once
    "$SGFSPLIT" split --form sgf once > twice
    same once twice "the lines of $file, split again,"
    "$SGFSPLIT" split "$file" > rows
    cut -d ' ' -f 1 rows > places
    sort -nu places > risen
    same risen places "the places of $file in order"
    : > pages
    place=
    while "$SGFSPLIT" split ${place:+--after "$place"} --limit 1 "$file" > page && [ -s page ]; do
        cat page >> pages
        place=$(cut -d ' ' -f 1 page)
    done
    same rows pages "the pages of $file"
    [ "$("$SGFSPLIT" count "$file" | cut -d ' ' -f 3)" = "$(wc -l < rows)" ] || failed "count and rows differ on $file"
    for other in "$top"/examples/*.sgf; do
        cat "$file" "$other" > both.sgf
        "$SGFSPLIT" split "$other" > others
        {
            cat rows
            awk -v bytes="$(wc -c < "$file")" -v games="$("$SGFSPLIT" count "$file" | cut -d ' ' -f 1)" '
                { $1 += bytes; $2 += games; if ($4 == "illegal") $6 += bytes; print }' others
        } > want
        "$SGFSPLIT" split both.sgf > got
        same want got "$file with $other appended"
    done
done
# Texts with white space, lower case and escapes, and how they are written the first and the second time.
again() {
    printf '%s' "$1" | "$SGFSPLIT" split --form sgf > once
    printf '%s\n' "${@:2}" > want
    same want once "the lines of $1"
    "$SGFSPLIT" split --form sgf once > twice
    same once twice "the lines of $1, split again,"
}
again '(;SZ[3](;B[aa])(;B[bb];W[aa]))' '(;SZ[3];B[aa])' '(;SZ[3];B[bb];W[aa])'
again '(;GaMe[1]C[a\]b] ;B[aa])' '(;GM[1]C[a\]b];B[aa])'
again ' ( ; SZ [3] ; B [bb] ) ' '(;SZ[3];B[bb])'
# One game after another: its rows are those of the game alone, with raised places.
[ "$(printf '(;SZ[1];B[aa])' | "$SGFSPLIT" split)" = '7 1 2 illegal 1 7 repeat' ] || failed 'the game alone'
printf '(;SZ[1])(;SZ[1];B[aa])' | "$SGFSPLIT" split > got
printf '1 1 1 score 0 0 open\n15 2 2 illegal 1 15 repeat\n' > want
same want got 'the game after another'
