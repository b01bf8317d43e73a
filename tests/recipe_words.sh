#!/usr/bin/env bash
# The behaviour of each tool with its words, with missing files, with a reader that closes the pipe, with a full device, and without our program.
. "$(dirname "$0")/lib.sh"
needs python3
cp "$top/examples/ko.sgf" ko.sgf
mkdir folder
cp "$top"/examples/*.sgf folder
echo 'this is no database' > want.txt
declare -A first=([library]=out [go_on]=rows [files]=lines [openings]=2 [prose]=clean)

# ends STATUS NAME COMMAND..: the command ends with this status, and writes at most one row to standard error, which isn't a traceback.
ends() {
    local wanted=$1 name=$2 status=0
    shift 2
    "$@" > out.txt 2> err.txt || status=$?
    [ "$status" = "$wanted" ] || failed "$name: status $status, not $wanted: $(cat err.txt)"
    [ "$(wc -l < err.txt)" -le 1 ] && ! grep -q Traceback err.txt || failed "$name: $(cat err.txt)"
}

long=$(printf '%05000d' 0 | tr 0 9)
tools=0
for path in "$top"/recipes/*.py; do
    [ -x "$path" ] || continue
    tool=$(basename "$path" .py)
    tools=$((tools + 1))
    [ "$tool" != replay ] || can gnugo replay.py || continue
    words=(${first[$tool]-})
    ends 0 "$tool -h" "$path" -h
    grep -q "^  $tool.py " out.txt && head -n 1 out.txt | grep -q "^$tool.py " || failed "$tool -h has no example"
    [ "$tool" = prose ] || ends 2 "$tool without words" "$path"
    ends 2 "$tool with a wrong option" "$path" --nix "${words[@]}" ko.sgf
    grep -q "^$tool.py: no option --nix" err.txt || failed "$tool says $(cat err.txt)"
    case $tool in
        picture) ends 2 'picture of two files' "$path" ko.sgf ko.sgf; ends 2 'a long place' "$path" --line "$long" ko.sgf ;;
        openings) ends 2 'no number' "$path" ko.sgf folder; ends 2 'no move' "$path" 0 ko.sgf ;;
        files) ends 2 'a wrong form' "$path" --form=list,sgf lines ko.sgf; ends 2 'no form' "$path" --form ;;
        parts) ends 2 'a wrong number' "$path" --most 67108865 ko.sgf ;;
        verdicts) ends 2 'two forms' "$path" --csv --json ko.sgf; ends 3 'no table' "$path" --sqlite want.txt ko.sgf ;;
        go_on) ends 2 'rows of a folder' "$path" rows folder; rm -f rows ;;
    esac
    ends 1 "$tool without its file" "$path" "${words[@]}" nix.sgf
    [ "$(cat err.txt)" = 'nix.sgf: No such file or directory' ] || failed "$tool says $(cat err.txt)"
    if [ "$tool" != prose ]; then
        SGFSPLIT=./nix ends 3 "$tool without its program" "$path" "${words[@]}" ko.sgf
        grep -q "no program ./nix" err.txt || failed "$tool says $(cat err.txt)"
        SGFSPLIT=/bin/true ends 3 "$tool with another program" "$path" "${words[@]}" ko.sgf
        grep -q "/bin/true: this is another sgfsplit, perhaps that of Debian's sgf2dg$" err.txt || failed "$tool says $(cat err.txt)"
    fi
    # A pipe can be read once, and is a file like any other. library.py refuses it, because other processes split its files.
    mkfifo kp.sgf
    cat ko.sgf > kp.sgf &
    case $tool in
        library) ends 1 'library of a pipe' "$path" out kp.sgf; cat kp.sgf > out.txt ;;
        *)
            ends 0 "$tool of a pipe" "$path" "${words[@]}" kp.sgf
            sed 's/kp/ko/g' out.txt > want
            rm -rf rows
            ends 0 "$tool of a file" "$path" "${words[@]}" ko.sgf
            same want out.txt "what $tool says of a pipe"
            ;;
    esac
    wait
    rm -rf kp.sgf out rows
    # A reader that closes the pipe after a byte, with more output than a pipe holds; and a full device.
    for _ in $(seq 60); do echo folder; done | tr '\n' '\0' > many
    case $tool in
        library | files | go_on) ;;
        prose) head -c 1000000 /dev/zero | { "$path" 2> err.txt; echo $? > status; } | head -c 1 > out.txt ;;
        picture) { "$path" folder/corner.sgf 2> err.txt; echo $? > status; } | head -c 1 > out.txt ;;
        *) { "$path" -0 "${words[@]}" < many 2> err.txt; echo $? > status; } | head -c 1 > out.txt ;;
    esac
    [ ! -s err.txt ] || case $tool in library | files | go_on) ;; *) failed "$tool | head: $(cat err.txt)" ;; esac
    [ ! -e status ] || [ "$(cat status)" = 0 ] || failed "$tool | head: status $(cat status)"
    case $tool in
        library | files | go_on) ;;
        openings) ends 3 "$tool on a full device" bash -c '"$0" 2 folder/corner.sgf > /dev/full' "$path" ;;
        prose) ends 3 'prose on a full device' bash -c '"$0" < ko.sgf > /dev/full' "$path" ;;
        *) ends 3 "$tool on a full device" bash -c '"$0" "$@" > /dev/full' "$path" "${words[@]}" folder/ko.sgf ;;
    esac
    rm -rf out rows lines clean status
done
[ "$tools" = 10 ] || failed "$tools tools"

# The program by its name in PATH, at a path with a space, and after a folder that doesn't exist.
mkdir 'bin with a space'
ln -s "$SGFSPLIT" 'bin with a space/sgfsplit'
"$SGFSPLIT" split ko.sgf > want
env -u SGFSPLIT PATH="$work/nix:$work/bin with a space:$PATH" "$top/recipes/parts.py" ko.sgf > got
same want got
SGFSPLIT='bin with a space/sgfsplit' "$top/recipes/parts.py" ko.sgf > got
same want got

# A file without an end, and one that can be opened but not read: each is named, and the tool goes on.
cat > want <<'WANT'
/dev/zero: input is longer than 67108864 bytes
/proc/self/mem: Input/output error
WANT
for words in 'verdicts.py --csv' illegal_lines.py parts.py 'openings.py 2' 'go_on.py rows/' 'files.py lines' 'picture.py --out pictures' \
    'prose.py clean'; do
    [ "$words" != 'prose.py clean' ] || sed -i 's/: input.*/: it is longer than 268435456 bytes/' want
    if (ulimit -v 2000000; "$top"/recipes/$words /dev/zero /proc/self/mem ko.sgf > got 2> faults); then failed "$words: status 0"; fi
    same want faults "what $words says"
done
[ -s clean/ko.sgf ] && [ -s rows/ko.rows ] || failed "the file after these isn't there"
if (ulimit -v 2000000; head -c 268435457 /dev/zero | "$top/recipes/prose.py" > got 2> faults); then
    failed "a mail without an end is accepted"
fi
echo 'standard input: it is longer than 268435456 bytes' > want
same want faults
ends 2 'names without an end' bash -c 'ulimit -v 2000000; "$0" -0 < /dev/zero' "$top/recipes/verdicts.py"

# Folders in one another, more than Python calls functions in one another.
python3 - <<'PYTHON'
import os

for _ in range(1200):
    os.mkdir("d")
    os.chdir("d")
with open("last.sgf", "w") as file:
    file.write("(;SZ[9];B[aa])")
PYTHON
deep=$(printf 'd/%.0s' $(seq 1200))
ends 0 'deep folders' "$top/recipes/verdicts.py" --csv d
[ "$(tail -n 1 out.txt)" = "${deep}last.sgf,7,1,2,score,81,0,open,,," ] || failed "the game in the last folder has no row"
ends 0 'rows of deep folders' "$top/recipes/library.py" out d
[ "$(cat "out/${deep}last.rows")" = '7 1 2 score 81 0 open' ] || failed "no rows of the game in the last folder"
rm -r d out

# Files that can't be read are named, and the tool goes on with the others.
printf 'x' > bad.sgf
mkfifo folder/pipe.sgf
ln -s nix folder/gone.sgf
cat > want <<'WANT'
bad.sgf:1:1: not SGF
folder/gone.sgf: No such file or directory
folder/pipe.sgf: not a file
WANT
if "$top/recipes/illegal_lines.py" bad.sgf folder > got 2> faults; then failed "the refused files aren't in the status"; fi
same want faults
[ "$(wc -l < got)" = 9 ] || failed "the other files have $(wc -l < got) rows"
