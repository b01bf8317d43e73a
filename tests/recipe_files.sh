#!/usr/bin/env bash
# Each line of play in each form has a file with the record's bytes, named by its place. A comment may contain text that looks like the end of a
# record. A run that was stopped goes on, and a changed game is written anew.
. "$(dirname "$0")/lib.sh"
needs python3
tool=$top/recipes/files.py
cp -R "$top/examples" games
cat > games/comments.sgf <<'SGF'
(;SZ[9]C[a \] )
(;B[aa\])

boardsize 9
# 1 2 3 \\](;B[aa]C[[[)
]
)(;B[bb];W[cc]C[\\\])
\\\]
)
(;\])
](;B[dd])))
SGF
for form in $(words form); do
    "$tool" --form "$form" "out.$form" games
    for file in games/*.sgf; do
        name=${file%.sgf}
        "$SGFSPLIT" split "$file" | cut -d ' ' -f 1 > places
        : > joined
        for place in $(cat places); do cat "out.$form/$name/$place.$form" >> joined; done
        "$SGFSPLIT" split --form "$form" "$file" > want
        same want joined "the files of $file in the form $form"
        [ "$(ls "out.$form/$name" | wc -l)" = "$(wc -l < places)" ] || failed "other files of $file"
    done
done
[ "$("$SGFSPLIT" count games/comments.sgf)" = '1 5 2' ] || failed "the comments end a record"
for place in $("$SGFSPLIT" split games/comments.sgf | cut -d ' ' -f 1); do
    "$SGFSPLIT" count "out.sgf/games/comments/$place.sgf" > counts
    [ "$(cut -d ' ' -f 1,3 counts)" = '1 1' ] || failed "$place.sgf isn't one line of one game"
done
"$tool" default games
diff -r default out.sgf >&2 || failed "without --form it isn't sgf"

# Files that are missing or cut off are written again, and the others aren't.
touch mark
sleep 0.05
rm out.sgf/games/corner/95.sgf
truncate -s 20 out.sgf/games/ko/123.sgf
sed -i 's/W\[ee\]/W[dd]/' games/corner.sgf
"$tool" out.sgf games
find out.sgf -type f -newer mark | sort > got
printf 'out.sgf/games/corner/237.sgf\nout.sgf/games/corner/95.sgf\nout.sgf/games/ko/123.sgf\n' > want
same want got
rm -r default
"$tool" default games
diff -r default out.sgf >&2 || failed "a stopped run wasn't gone on with"
# An output never overwrites a game.
mkdir games/corner
cp games/ko.sgf games/corner/95.sgf
cp -R games before
if "$tool" . games 2> faults; then failed "games were written over"; fi
diff -r before games >&2 || failed "games were changed"
echo 'files.py: games/comments.sgf stands below the folder ., in which files are written (files.py -h says what it takes)' > want
same want faults
rm -r games/corner
printf '(;B[aa]' > games/bad.sgf
if "$tool" out.sgf games 2> faults; then failed "a refused file isn't in the status"; fi
echo 'games/bad.sgf:1:8: input ends too early' > want
same want faults
[ ! -e out.sgf/games/bad ] || failed "a refused file has lines"
