#!/usr/bin/env bash
# No tool overwrites or removes a game that it reads, or a file that it didn't write. It says so before it writes anything.
. "$(dirname "$0")/lib.sh"
needs python3
recipes=$top/recipes

# refuses STATUS ROW TOOL WORDS..: the tool ends with this status and row, and no file is changed, removed or added.
refuses() {
    local wanted=$1 row=$2 status=0
    rm -rf "$work/before"
    cp -R "$work/here" "$work/before"
    "$recipes/$3" "${@:4}" 2> "$work/faults" || status=$?
    diff -r "$work/before" "$work/here" >&2 || failed "${*:3}: files were changed"
    [ "$status" = "$wanted" ] || failed "${*:3}: status $status, not $wanted"
    echo "$row" > "$work/want"
    same "$work/want" "$work/faults" "what ${*:3} says"
}

# below TOOL NAME: the row about a game that stands among the outputs.
below() { echo "$1: $2 stands below the folder ${3:-.}, in which files are written ($1 -h says what it takes)"; }

mkdir -p here/a here/games here/out
cd here
cp "$top/examples/corner.sgf" a.sgf
for copy in a.rows a.fault a/95.svg a/95.gtp games/a.rows; do cp "$top/examples/ko.sgf" "$copy"; done
ln -s games/a.rows link.sgf
: > e.sgf
cp e.sgf games/e.sgf
refuses 2 "$(below library.py a.rows)" library.py . a.sgf a.rows
refuses 2 "$(below library.py a.fault)" library.py . a.sgf a.fault
refuses 2 "$(below library.py link.sgf)" library.py . games/a link.sgf
refuses 2 "$(below go_on.py a.rows)" go_on.py . a.sgf a.rows
refuses 2 "$(below picture.py a/95.svg)" picture.py --out . a.sgf a/95.svg
refuses 2 "$(below files.py a/95.gtp)" files.py --form gtp . a.sgf a/95.gtp
refuses 2 "$(below files.py e.sgf)" files.py . e.sgf a.sgf
refuses 2 "$(below prose.py games/e.sgf)" prose.py . games
for base in e.sgf ./e.sgf; do
    refuses 2 'verdicts.py: e.sgf is a file of the database (verdicts.py -h says what it takes)' verdicts.py --sqlite "$base" a.sgf e.sgf
done
refuses 2 'verdicts.py: games/e.sgf is a file of the database (verdicts.py -h says what it takes)' verdicts.py --sqlite games/e.sgf games
mv a.rows new-journal
refuses 2 'verdicts.py: new-journal is a file of the database (verdicts.py -h says what it takes)' \
    verdicts.py --sqlite new a.sgf new-journal
for base in '' :memory:; do
    refuses 2 'verdicts.py: --sqlite wants the path of a file (verdicts.py -h says what it takes)' verdicts.py --sqlite="$base" a.sgf
done

# Files of others that stand at the place of an output, but aren't read. The tool's own files at these places are replaced.
echo '["a", null]' > out/.done.jsonl
for foreign in out/a.fault out/a.rows; do
    cp "$top/examples/ko.sgf" "$foreign"
    refuses 1 "$foreign: library.py didn't write this file, so it stays as it is" library.py out a.sgf
    rm "$foreign"
done
echo 'x' > bad.sgf
cp a.sgf good
cp bad.sgf a.sgf
if "$recipes/library.py" out a.sgf 2> /dev/null || [ ! -s out/a.fault ]; then failed "no fault"; fi
cp good a.sgf
"$recipes/library.py" out a.sgf
[ -s out/a.rows ] && [ ! -e out/a.fault ] || failed "the tool doesn't remove its own fault"
cp bad.sgf a.sgf
if "$recipes/library.py" out a.sgf 2> /dev/null || [ ! -s out/a.fault ]; then failed "no fault"; fi
[ ! -e out/a.rows ] || failed "the tool doesn't remove its own rows"

# A second name of a game, where the tool keeps its journal or writes what it renames later.
mkdir linked
ln a.sgf linked/.done.jsonl
refuses 3 'library.py: linked/.done.jsonl: not a file with one name' library.py linked good
beside=linked/.$(python3 -c 'import hashlib; print(hashlib.blake2b(b"good.rows", digest_size=8).hexdigest())').part
rm linked/.done.jsonl
ln a.sgf "$beside"
refuses 1 'linked/good.rows: not a file with one name' go_on.py linked/ good
rm -r linked

# Links among the outputs that lead back to the games: a folder, and the file of an output.
mkdir linked
ln -s ../games linked/games
cp good games/e.sgf
"$recipes/library.py" linked good
out_of() { echo "games/e.sgf: left out, since links lead from $1 out of the folder linked"; }
refuses 1 "$(out_of linked/games/e.sgf)" prose.py linked games/e.sgf
refuses 1 "$(out_of linked/games/e)" files.py linked games/e.sgf
refuses 1 "$(out_of linked/games/e)" picture.py --out linked games/e.sgf
refuses 1 "$(out_of linked/games/e)" library.py linked games/e.sgf
rm linked/games
mkdir linked/games
: > empty
ln -s ../../empty linked/games/e.rows
refuses 1 "$(out_of linked/games/e.rows)" go_on.py linked games/e.sgf
rm -r linked

# A pipe at the place of an output isn't a file.
mkfifo pipe
for words in 'go_on.py pipe good' 'library.py pipes good'; do
    mkdir -p pipes
    [ -e pipes/good.rows ] || mkfifo pipes/good.rows
    status=0
    timeout 20 "$recipes"/$words 2> "$work/faults" || status=$?
    [ "$status" = 1 ] && grep -q ': not a file$' "$work/faults" || failed "$words: status $status, $(cat "$work/faults")"
    [ -p pipe ] && [ -p pipes/good.rows ] || failed "$words: a pipe was replaced"
done
