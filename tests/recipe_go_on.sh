#!/usr/bin/env bash
# Rows that grow with a collection equal those of one run, and so do rows that were cut off at any byte. A collection that was changed
# before the last place is refused, and then nothing is written.
. "$(dirname "$0")/lib.sh"
needs python3
go_on=$top/recipes/go_on.py
cat "$top/examples/corner.sgf" > library.sgf
"$go_on" rows library.sgf
cat "$top/examples/two_games.sgf" >> library.sgf
"$go_on" rows library.sgf
"$go_on" rows library.sgf
"$SGFSPLIT" split library.sgf > want
same want rows

# Rows cut off at each byte, for a collection that has grown since and for one that hasn't.
size=$(wc -c < want)
for ((byte = 0; byte <= size; byte++)); do
    head -c "$byte" want > rows
    "$go_on" rows library.sgf
    cmp want rows >&2 || failed "rows that were cut off at byte $byte"
done
cat "$top/examples/illegal.sgf" >> library.sgf
"$SGFSPLIT" split library.sgf > more
for ((byte = 0; byte <= size; byte += 9)); do
    head -c "$byte" want > rows
    "$go_on" rows library.sgf
    cmp more rows >&2 || failed "rows that were cut off at byte $byte, and then grew"
done

# A collection that changed before the last place, a refused one, and ROWS that has no rows: nothing is written.
refused() {
    cp rows before
    if "$go_on" rows "$1" 2> fault; then failed "$1 was accepted"; fi
    [ "$(cat fault)" = "$2" ] || failed "the fault row is $(cat fault)"
    same before rows
}
{ printf ' '; cat library.sgf; } > changed.sgf
refused changed.sgf "changed.sgf: no line ends at $(tail -n 1 rows | cut -d ' ' -f 1)"
{ cat library.sgf; printf 'x'; } > broken.sgf
refused broken.sgf "broken.sgf:$(($(wc -l < broken.sgf) + 1)):1: not SGF"
printf '12 1 4 sco' > rows
refused broken.sgf "broken.sgf:$(($(wc -l < broken.sgf) + 1)):1: not SGF"
printf 'Dear Sir,\n' > rows
refused library.sgf "rows: its last row isn't one of sgfsplit"

cp "$top/examples/corner.sgf" rows
cp rows other.sgf
refused other.sgf "rows: its last row isn't one of sgfsplit"
printf '(;SZ[9];B[aa])' > rows
refused other.sgf "rows: its last row isn't one of sgfsplit"

# A file can't be its own rows, by whatever name, and not even if it is empty.
ln -s rows rows.sgf
for file in rows ./rows rows.sgf; do
    for text in '(;SZ[9];B[aa])' ''; do
        printf %s "$text" > rows
        status=0
        "$go_on" rows "$file" 2> fault || status=$?
        echo "go_on.py: $file is both ROWS and FILE (go_on.py -h says what it takes)" > said
        same said fault "after status $status, what is said of $file"
        [ "$status" = 2 ] && [ "$(cat rows)" = "$text" ] || failed "go_on.py rows $file: status $status"
    done
done

# ROWS keeps its mode, and a link to it stays a link.
"$SGFSPLIT" split library.sgf > want
head -c 40 want > kept
chmod 640 kept
ln -sf kept rows
"$go_on" rows library.sgf
[ -L rows ] && [ "$(stat -c %a kept)" = 640 ] || failed "it is now $(ls -l rows kept)"
same want kept
rm rows
# As root, so do its owner and its group. Any other user is told that they can't be kept. Then the members of the new group may read it no
# more than all others may.
if [ "$(id -u)" = 0 ] && can setpriv 'the owner of rows'; then
    head -c 40 want > rows
    chown 1234:2345 rows
    chmod 640 rows
    "$go_on" rows library.sgf
    [ "$(stat -c %u:%g:%a rows)" = 1234:2345:640 ] || failed "it is now $(stat -c %u:%g:%a rows)"
    same want rows
    head -c 40 want > rows
    chmod 755 .
    cp -R "$top/recipes" .
    cp "$SGFSPLIT" program
    chmod 755 program
    chown 2222:2222 .
    chmod -R a+rX library.sgf recipes
    as_other() { SGFSPLIT=$work/program setpriv --reuid 2222 --regid 2222 --clear-groups env PYTHONDONTWRITEBYTECODE=1 recipes/go_on.py "$@"; }
    chmod 644 rows
    as_other rows library.sgf 2> fault || failed "status $? of another user, $(cat fault)"
    echo "rows: the system doesn't allow to keep the group and the owner of the rows" > said
    same said fault "what another user is told"
    same want rows
    head -c 40 want > rows
    chown 2222:2345 rows
    chmod 660 rows
    as_other rows library.sgf 2> fault
    echo "rows: the system doesn't allow to keep the group of the rows" > said
    same said fault "what a user of another group is told"
    [ "$(stat -c %u:%g:%a rows)" = 2222:2222:600 ] || failed "it is now $(stat -c %u:%g:%a rows)"
    rm rows
fi
# A gigabyte without a line feed isn't read as a whole.
truncate -s 1G rows
status=0
timeout 20 "$go_on" rows library.sgf 2> fault || status=$?
echo "rows: its last row isn't one of sgfsplit" > want
same want fault "after status $status, what is said of a gigabyte of zeros"
rm rows

# Rows that were cut off since their length was read don't stop the tool for ever.
PYTHONPATH=$top/recipes timeout 20 python3 -c '
import io, go_on, sgfsplit
try:
    go_on.copy(io.BytesIO(b"1 1 1"), io.BytesIO(), 20, "rows")
except sgfsplit.Failed as failed:
    print(failed)' > fault || failed "the copy of rows ends with status $?"
echo 'rows: it was cut off while it was read' > want
same want fault

# A folder of rows, as library.py writes it.
mkdir games
cp "$top"/examples/*.sgf games
"$top/recipes/library.py" out games
for file in games/*.sgf; do cat "$top/examples/ko.sgf" >> "$file"; done
"$go_on" out games
for file in games/*.sgf; do
    "$SGFSPLIT" split "$file" > want
    same want "out/${file%.sgf}.rows"
done
# The row about an earlier fault is removed. A file of others that stands there stays, and the rows too.
echo 'games/ko.sgf:1:1: not SGF' > out/games/ko.fault
rm out/games/ko.rows
"$go_on" out games
[ ! -e out/games/ko.fault ] || failed "a fault stands beside new rows"
"$SGFSPLIT" split games/ko.sgf > want
same want out/games/ko.rows
echo 'Dear Sir,' > out/games/ko.fault
rm out/games/ko.rows
if "$go_on" out games 2> fault; then failed "a letter was taken for a fault"; fi
echo "out/games/ko.fault: library.py didn't write this file, so it stays as it is" > said
same said fault
[ ! -e out/games/ko.rows ] && [ "$(cat out/games/ko.fault)" = 'Dear Sir,' ] || failed "files of others were changed"
