#!/usr/bin/env bash
# A library on all cores. The rows or the fault of each file are in its own folder. Later calls do only what was added, changed or repaired, or
# had failed. A removed folder is made again with the same bytes. Killed runs and runs on other machines also end with the same bytes.
. "$(dirname "$0")/lib.sh"
needs python3
library=$top/recipes/library.py
mkdir -p games/x/y games/z
cp "$top"/examples/*.sgf games/x
cp "$top/examples/corner.sgf" games/x/y/g.sgf
cp "$top/examples/ko.sgf" games/z/g.sgf
printf '(;SZ[9]' > games/z/broken.sgf
printf '(;SZ[9])x' > games/a.sgf

# Each file has the rows that the program writes, or its fault with line and column. There is no other file.
whole() {
    local folder=$1 name file count=0
    while IFS= read -r file; do
        name=$folder/${file%.sgf}
        if "$SGFSPLIT" split "$file" > want 2> want.fault; then
            same want "$name.rows"
            [ ! -e "$name.fault" ] || failed "$name.fault stands beside the rows"
        else
            [ -s "$name.fault" ] && [ ! -e "$name.rows" ] || failed "no fault of $file alone"
        fi
        count=$((count + 1))
    done < <(find games -type f)
    [ "$(find "$folder" -type f ! -name .done.jsonl | wc -l)" = "$count" ] || failed "other files in $folder: $(find "$folder" -type f)"
}

# The files of the folder that a run wrote anew.
anew() { find "$1" -type f -newer mark ! -name .done.jsonl | sort | tr '\n' ' '; }

call() { touch mark; sleep 0.05; status=0; "$library" "$@" 2> faults || status=$?; }

call out games
[ "$status" = 1 ] || failed "status $status with two refused files"
whole out
printf 'games/a.sgf:1:9: not SGF\ngames/z/broken.sgf:1:8: input ends too early\n' > want
same want faults
cp -R out first

# Another call: the two files that failed are tried and named again, and nothing else is written.
call out games
[ "$(anew out)" = 'out/games/a.fault out/games/z/broken.fault ' ] || failed "written again: $(anew out)"
same want faults

# Files that were repaired, broken or added, and one that changed but kept its size and time.
printf '(;SZ[9])' > games/a.sgf
rm games/z/broken.sgf
cp -p games/x/y/g.sgf was
printf ')' >> games/z/g.sgf
printf '(;SZ[3];B[aa])' > games/b.sgf
sed 's/B\[cc\]/B[dd]/' was > games/x/y/g.sgf
touch -r was games/x/y/g.sgf
rm out/games/z/broken.fault out/games/x/corner.rows
call out games
[ "$status" = 1 ] || failed "status $status with a refused file"
[ "$(anew out)" = 'out/games/a.rows out/games/b.rows out/games/x/corner.rows out/games/x/y/g.rows out/games/z/g.fault ' ] ||
    failed "written: $(anew out)"
whole out
cp "$top/examples/ko.sgf" games/z/g.sgf
call out games
[ "$status" = 0 ] && [ ! -s faults ] || failed "status $status once all are repaired: $(cat faults)"
whole out

# The same files as words in another order, and only some of them: nothing is done again, and nothing is removed.
call out $(find games -name '*.sgf' | sort -r)
[ "$status" = 0 ] && [ -z "$(anew out)" ] || failed "done again: $(anew out)"
call out ./games/x games//b.sgf games/z/../b.sgf
[ "$status" = 0 ] && [ -z "$(anew out)" ] || failed "done again: $(anew out)"
whole out

# A folder that was removed and made again, from names on standard input and by GNU Parallel, has the same bytes.
cp -R out want.out
rm -r out
find games -name '*.sgf' -print0 | sort -rz | "$library" -0 out
call there games/x games/z games --sshlogin
[ "$status" = 1 ] && grep -q '^--sshlogin: No such file' faults || failed "an option after the files was taken for one"
rm -r there
folders=out
if can parallel 'library.py by GNU Parallel'; then
    call --sshlogin=: there games
    [ "$status" = 0 ] || failed "by GNU Parallel: $(cat faults)"
    folders='out there'
else
    call --sshlogin=: there games
    echo "library.py: --sshlogin needs GNU Parallel, which isn't installed" > want
    same want faults "after status $status, what is said without GNU Parallel"
fi
for folder in $folders; do
    sed -i '/broken/d' want.out/.done.jsonl
    diff -r want.out "$folder" >&2 || failed "$folder isn't the folder that later calls made"
done

# A journal with rows of another kind is as good as none.
printf '%s\n' '[1, "x"]' '[["x"], null]' '["x/ko.sgf", 5]' '{}' '"x"' "$(head -c 100000 /dev/zero | tr '\0' '[')" > odd
printf '\xff\n[' >> odd
cp out/.done.jsonl journal
cat odd >> out/.done.jsonl
call out games
[ "$status" = 0 ] && [ -z "$(anew out)" ] || failed "with an odd journal: status $status, $(cat faults)"
same journal out/.done.jsonl "an odd journal"

# A machine that doesn't exist: each file is named, and the next call does them.
cat > ssh <<'SSH'
#!/bin/sh
exit 255
SSH
chmod +x ssh
if can parallel "a machine that doesn't exist"; then
    PARALLEL_SSH=$work/ssh call --sshlogin=1/nowhere late games
    [ "$status" = 1 ] && [ "$(grep -c 'not done$' faults)" = "$(find games -name '*.sgf' | wc -l)" ] || failed "a lost machine: $(cat faults)"
    call late games
    whole late
fi

# A call that was killed at some moment, and another call. The journal of finished files may end in the middle of a row.
mkdir many
for number in $(seq 300); do cp "$top/examples/corner.sgf" "many/$number.sgf"; done
"$library" all many
mkdir killed
for count in 1 20 40; do
    "$library" killed many 2> /dev/null &
    until [ "$(find killed -name '*.rows' | wc -l)" -ge "$count" ]; do sleep 0.01; done
    kill -KILL $!
    wait $! 2> /dev/null || true
    find killed -name '*.rows' | while read -r file; do same "all/${file#killed/}" "$file" "a file of a killed run"; done
    [ ! -e killed/.done.jsonl ] || truncate -s -7 killed/.done.jsonl 2> /dev/null || true
done
"$library" killed many
diff -r all killed >&2 || failed "a killed run wasn't mended"

# A call is stopped while it replaces rows, by whatever. The earlier games are put back, and so are their rows: none of the other games stays.
mkdir some
cat > stops <<'STOPS'
#!/bin/sh
if [ "$1" = split ]; then
    echo >> splits
    echo $PPID > worker
    [ "$(wc -l < splits)" != 30 ] || kill -"$SIGNAL" "$(cat tool)"
fi
exec "$TRUE_SGFSPLIT" "$@"
STOPS
chmod +x stops
for signal in KILL TERM INT; do
    for number in $(seq 60); do cp "$top/examples/corner.sgf" "some/$number.sgf"; done
    rm -rf put
    "$library" put some
    cp -R put want.put
    for number in $(seq 60); do cp "$top/examples/ko.sgf" "some/$number.sgf"; done
    : > splits
    status=0
    TRUE_SGFSPLIT=$SGFSPLIT SGFSPLIT=$work/stops SIGNAL=$signal bash -c 'echo $$ > tool; exec "$@"' bash "$library" put some 2> faults || status=$?
    while kill -0 "$(cat worker)" 2> /dev/null; do sleep 0.05; done
    [ "$status" != 0 ] && [ "$(wc -l < splits)" -ge 30 ] || failed "$signal: status $status after $(wc -l < splits) files"
    diff -r want.put put > /dev/null && failed "$signal: the call was stopped before it replaced any rows"
    for number in $(seq 60); do cp "$top/examples/corner.sgf" "some/$number.sgf"; done
    "$library" put some
    diff -r want.put put >&2 || failed "$signal: rows of other games stay"
    rm -r want.put
done
# The same if rows were changed in another way, or a run was stopped between the fault of a file and the removal of its rows.
cp -R put want.put
cat "$top/examples/ko.sgf" >> some/1.sgf
"$top/recipes/go_on.py" put some/1.sgf
cp "$top/examples/corner.sgf" some/1.sgf
cmp -s want.put/some/1.rows put/some/1.rows && failed "go_on.py added no rows"
: > put/some/2.rows
echo 'some/3.sgf:1:1: not SGF' > put/some/3.fault
call put some
[ "$status" = 0 ] && [ "$(anew put)" = 'put/some/1.rows put/some/2.rows put/some/3.rows ' ] || failed "status $status, written again: $(anew put)"
diff -r want.put put >&2 || failed "changed rows stay"
# A journal without the checksums of rows, as earlier versions wrote it, doesn't know which rows stand.
sed -i 's/, "[0-9a-f]*"\]$/]/' put/.done.jsonl
: > put/some/2.rows
"$library" put some
diff -r want.put put >&2 || failed "rows of an earlier version stay"

# Two calls at once, and a call that gets a signal to end.
"$library" both many &
"$library" both many
wait
diff -r all both >&2 || failed "two calls at once came in each other's way"
for signal in INT TERM; do
    rm -rf ended
    python3 - "$signal" "$library" ended many 2> faults <<'PYTHON'
import os
import signal
import subprocess
import sys
import time

tool = subprocess.Popen(sys.argv[2:])
while tool.poll() is None and not os.path.exists("ended"):
    time.sleep(0.01)
tool.send_signal(getattr(signal, "SIG" + sys.argv[1]))
tool.wait()
PYTHON
    if grep -q Traceback faults; then failed "$signal: $(cat faults)"; fi
done
"$library" ended many
diff -r all ended >&2 || failed "a run that was asked to end wasn't mended"

# OUT below the library isn't part of it. Also two names of one place, and a progress bar on a terminal.
cp "$top/examples/ko.sgf" many/out.sgf
(cd many && "$library" out . && "$library" out .)
[ "$(find many/out -name '*.rows' | wc -l)" = 301 ] || failed "OUT was taken for a part of the library"
mkdir two
cp "$top/examples/ko.sgf" two/g.sgf
cp "$top/examples/corner.sgf" two/g
if "$library" pair two/g.sgf two/g two/g.sgf 2> faults; then failed "two files were kept at one place"; fi
echo 'two/g: left out, since what two/g.sgf gives is kept at pair/two/g' > want
same want faults
python3 - "$library" <<'PYTHON'
import os
import pty
import sys

seen = []
def read(end):
    seen.append(os.read(end, 1024))
    return seen[-1]
pty.spawn([sys.argv[1], "bar", "many"], read)
text = b"".join(seen)
sys.exit(0 if b"301/301 files" in text and b"[####" in text and text.count(b"\r[") > 3 else f"no bar: {text}")
PYTHON
