#!/usr/bin/env bash
# Each tool reads a file once, but parts.py, which reads it piece by piece as it goes. If the file is replaced, changed or cut off while the
# tool works on it, all that the tool writes is about the bytes that it read. Of an endless pipe it takes no more than it can use.
. "$(dirname "$0")/lib.sh"
needs python3
recipes=$top/recipes
export TRUE_SGFSPLIT=$SGFSPLIT

# A program that runs the commands in the file `before` the first time that it is to split, and then does what sgfsplit does.
cat > between <<'BETWEEN'
#!/bin/sh
if [ "$1" = split ] && mv before now 2> /dev/null; then . ./now; fi
exec "$TRUE_SGFSPLIT" "$@"
BETWEEN
chmod +x between

# while_doing COMMANDS TOOL WORDS..: runs the tool on game.sgf, on which these commands are run in between.
while_doing() {
    cp "$top/examples/corner.sgf" game.sgf
    cp "$top/examples/two_games.sgf" other
    echo "$1" > before
    SGFSPLIT=$work/between "$recipes/$2" "${@:3}" 2> faults || failed "$2: status $?, $(cat faults)"
    [ ! -e before ] || failed "$2: the program wasn't asked to split"
}

# Another file takes the place of the first one.
cp "$top/examples/corner.sgf" game.sgf
for form in $(words form); do
    cp "$top/examples/corner.sgf" game.sgf
    "$recipes/files.py" --form "$form" "want.$form" game.sgf
    while_doing 'mv other game.sgf' files.py --form "$form" "got.$form" game.sgf
    diff -r "want.$form" "got.$form" >&2 || failed "files.py takes records of another file"
done
for words in 'picture.py' 'picture.py --line 170' 'openings.py 2'; do
    cp "$top/examples/corner.sgf" game.sgf
    "$recipes"/$words game.sgf > want
    while_doing 'mv other game.sgf' $words game.sgf > got
    same want got "what $words makes of a file that was replaced"
done
if can gnugo replay.py; then
    while_doing 'mv other game.sgf' replay.py game.sgf > got
    echo '4 lines agree, 0 differ, 0 left out' > want
    same want got
fi

# The bytes change after the checksum was made. When the earlier bytes are back, the rows are theirs.
while_doing 'cat other > game.sgf' library.py out game.sgf
cp "$top/examples/corner.sgf" game.sgf
"$recipes/library.py" out game.sgf
"$SGFSPLIT" split game.sgf > want
same want out/game.rows

# A file is cut off between its parts, between its rows, and before its prose is written.
for number in $(seq 100); do cat "$top/examples/corner.sgf"; done > long.sgf
"$SGFSPLIT" split long.sgf > want
if (while_doing ': > long.sgf' parts.py --most 1 long.sgf > got) 2> said; then failed "parts.py accepts a file that was cut off"; fi
grep -q 'parts.py: status 1, long.sgf: cut off while it was read' said || failed "parts.py says of a file that was cut off: $(cat said)"
head -c "$(wc -c < got)" want | cmp - got || failed "parts.py writes other rows of a file that was cut off"
for number in $(seq 100); do cat "$top/examples/corner.sgf"; done > long.sgf
while_doing 'mv other long.sgf' parts.py --most 1 long.sgf > got
same want got "what parts.py writes of a file that was replaced"
cp "$top/examples/illegal.sgf" illegal.sgf
"$recipes/illegal_lines.py" illegal.sgf > want
while_doing '"$TRUE_SGFSPLIT" "$@" > rows; : > illegal.sgf; cat rows; exit' illegal_lines.py illegal.sgf > got
same want got "what illegal_lines.py writes of a file that was cut off"
for number in $(seq 100); do cat "$top/examples/corner.sgf"; done > long.sgf
cp long.sgf want
python3 - "$recipes/prose.py" <<'PYTHON' || failed "prose.py doesn't survive a file that was cut off"
import fcntl
import hashlib
import os
import subprocess
import sys
import time

# The tool waits for the lock of the file that it writes. It has opened its input by then.
os.mkdir("clean")
lock = open(f"clean/.{hashlib.blake2b(b'long.sgf', digest_size=8).hexdigest()}.part", "w")
fcntl.flock(lock, fcntl.LOCK_EX)
tool = subprocess.Popen([sys.argv[1], "clean", "long.sgf"])
while tool.poll() is None and not any("->" in row and str(tool.pid) in row.split() for row in open("/proc/locks")):
    time.sleep(0.01)
open("long.sgf", "w").close()
lock.close()
sys.exit(tool.wait())
PYTHON
same want clean/long.sgf "what prose.py writes of a file that was cut off"

# A pipe without an end: the program takes 64 MiB, and a byte more shows that there is more.
mkfifo pipe.sgf
cat > pours.py <<'PYTHON'
import os

pipe, taken = os.open("pipe.sgf", os.O_WRONLY), 0
try:
    while taken < 200 << 20:
        taken += os.write(pipe, b" " * 65536)
except BrokenPipeError:
    pass
print(taken)
PYTHON
for words in files.py\ out go_on.py\ rows illegal_lines.py openings.py\ 2 parts.py picture.py verdicts.py; do
    python3 pours.py > taken &
    if "$recipes"/$words pipe.sgf > got 2> faults; then failed "$words accepts 64 MiB of spaces"; fi
    wait
    echo 'pipe.sgf: input is longer than 67108864 bytes' > want
    same want faults "what $words says"
    [ "$(cat taken)" -le $(((64 << 20) + (1 << 18))) ] || failed "$words takes $(cat taken) bytes of a pipe"
done
