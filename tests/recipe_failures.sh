#!/usr/bin/env bash
# Whatever fails or is killed while a tool works, what earlier calls wrote stays until its replacement is whole. A killed worker of
# library.py costs its own batch. A tool that is asked to end leaves no file half written.
. "$(dirname "$0")/lib.sh"
needs python3
recipes=$top/recipes
export TRUE_SGFSPLIT=$SGFSPLIT
mkdir games
cp "$top/examples/ko.sgf" "$top/examples/corner.sgf" games

# program NAME COMMANDS: a program that runs these commands when it is to split, and else does what sgfsplit does.
program() {
    printf '#!/bin/sh\nif [ "$1" = split ]; then\n%s\nfi\nexec "$TRUE_SGFSPLIT" "$@"\n' "$2" > "$1"
    chmod +x "$1"
}
program killed 'kill -9 $$'
program cut_off '"$TRUE_SGFSPLIT" "$@" | head -c 30; kill -9 $$'

# The rows stay, if the program is killed or the disk is full. (A limit of the size of files does what a full disk does.)
"$recipes/library.py" out games
cp -R out rows
for way in killed cut_off full; do
    rm out/.done.jsonl
    case $way in
        full) (ulimit -f 0; "$recipes/library.py" out games 2>&1 || echo "status $?") | cat > said ;;
        *) { SGFSPLIT=$work/$way "$recipes/library.py" out games 2>&1 || echo "status $?"; } > said ;;
    esac
    grep -q 'status [13]' said || failed "library.py, $way: $(cat said)"
    for file in corner ko; do same "rows/games/$file.rows" "out/games/$file.rows" "after a program that was $way, $file.rows"; done
    [ "$(find out -type f ! -name .done.jsonl | wc -l)" = 2 ] || failed "library.py, $way: $(find out)"
    touch out/.done.jsonl
done
"$recipes/library.py" out games
diff -r rows out >&2 || failed "another call didn't mend it"

# So do the rows in a database, and the other tools say what happened and go on.
"$recipes/verdicts.py" --sqlite games.db games
asked games.db 'SELECT * FROM lines' > want
printf 'games/%s.sgf: the program was ended by signal 9\n' corner ko > want.faults
for way in killed cut_off; do
    for words in "verdicts.py --sqlite games.db" verdicts.py openings.py\ 2 illegal_lines.py files.py\ lines parts.py \
        "picture.py --out pictures"; do
        status=0
        SGFSPLIT=$work/$way "$recipes"/$words games > got 2> faults || status=$?
        [ "$status" = 1 ] || failed "$words with a program that was $way: status $status"
        same want.faults faults "what $words says of a program that was $way"
    done
    asked games.db 'SELECT * FROM lines' > got
    same want got "after a program that was $way, the table"
done

# One worker is killed at its first file. With one core there is no other that could do the rest.
mkdir many
for number in $(seq 300); do cp "$top/examples/ko.sgf" "many/$number.sgf"; done
program kills_worker 'if rm now 2> /dev/null; then kill -9 $PPID; fi'
touch now
status=0
SGFSPLIT=$work/kills_worker python3 - "$recipes/library.py" all many 2> faults <<'PYTHON' || status=$?
import os
import sys

os.sched_setaffinity(0, {min(os.sched_getaffinity(0))})
os.execv(sys.argv[1], sys.argv[1:])
PYTHON
[ "$status" = 1 ] && [ "$(grep -c '^many/[0-9]*.sgf: not done$' faults)" = 64 ] || failed "$(grep -c 'not done$' faults) files weren't done"
"$recipes/library.py" all many
[ "$(find all -name '*.rows' | wc -l)" = 300 ] || failed "another call doesn't do the files of the killed worker"

# Signals to the group of a tool while it writes: Ctrl-C, the end of a terminal, and a request to end.
program waits 'touch begun; exec sleep 60'
cat > signals.py <<'PYTHON'
import os
import signal
import subprocess
import sys
import time

tool = subprocess.Popen(sys.argv[2:], start_new_session=True)
while tool.poll() is None and not os.path.exists("begun"):
    time.sleep(0.01)
os.remove("begun")
os.killpg(tool.pid, getattr(signal, "SIG" + sys.argv[1]))
tool.wait(30)
PYTHON
for signal in INT HUP TERM; do
    for words in library.py go_on.py; do
        rm -rf ended
        SGFSPLIT=$work/waits timeout 50 python3 signals.py "$signal" "$recipes/$words" ended/ games/ko.sgf 2> faults ||
            failed "$words, $signal: $(cat faults)"
        [ -d ended ] || failed "$words didn't begin"
        [ -z "$(find ended -name '.*.part')" ] || failed "$words, $signal: left $(find ended -name '.*.part')"
        if grep Traceback faults; then failed "$words, $signal: $(cat faults)"; fi
    done
done
