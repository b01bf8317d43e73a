#!/usr/bin/env bash
# The tools where links go on for longer than the system follows them, with PYTHONSAFEPATH and PYTHONOPTIMIZE, in each locale, where no thread
# can be started, and with Ctrl-C while their modules are loaded.
. "$(dirname "$0")/lib.sh"
needs python3
recipes=$top/recipes
declare -A first=([library]=out [go_on]=out/ [files]=out [openings]=--setup\ 2 [prose]=out [picture]=--out\ out [verdicts]=--csv)

all=
for path in "$recipes"/*.py; do
    [ ! -x "$path" ] || { [ "${path##*/}" = replay.py ] && ! can gnugo replay.py; } || all+=" $(basename "$path" .py)"
done

# A chain of 1500 links in a folder. Each link that the system follows is a file like others, and the tool names each of the others.
mkdir games
cp "$top/examples/ko.sgf" games/0.sgf
for ((number = 1; number <= 1500; number++)); do ln -s "$((number - 1)).sgf" "games/$number.sgf"; done
good=$(grep -l SZ games/*.sgf 2> /dev/null | wc -l) || true
[ "$good" -gt 5 ] && [ "$good" -lt 100 ] || failed "the system follows $good links"
for tool in $all; do
    [ "$tool" != replay ] || continue
    rm -rf out
    status=0
    "$recipes/$tool.py" ${first[$tool]-} games > got 2> faults || status=$?
    [ "$status" = 1 ] || failed "$tool: status $status, $(tail -n 1 faults)"
    [ "$(grep -c '^games/[0-9]*.sgf: Too many levels of symbolic links$' faults)" = $((1501 - good)) ] &&
        [ "$(wc -l < faults)" = $((1501 - good)) ] || failed "$tool says $(tail -n 1 faults)"
    case $tool in
        library | go_on) [ "$(find out -name '*.rows' | wc -l)" = "$good" ] || failed "$tool: $(find out -name '*.rows' | wc -l) files" ;;
        files | picture | prose) [ "$(find out -name '*.s[gv]?' | wc -l)" -ge "$good" ] || failed "$tool: too few files" ;;
        *) grep -q . got || failed "$tool does nothing for the other files" ;;
    esac
done
# Such links among the outputs, in place of the folder of outputs, and in place of the rows.
rm -rf out
mkdir -p out/games
for ((number = 1; number <= 60; number++)); do ln -s "$((number - 1)).rows" "out/games/$number.rows"; done
ln -s 60.rows out/games/0.rows
status=0
"$recipes/go_on.py" out games/0.sgf 2> faults || status=$?
echo 'out/games/0.rows: Too many levels of symbolic links' > want
same want faults "after status $status, what go_on.py says of links without an end"
ln -s loop loop
status=0
"$recipes/library.py" loop games/0.sgf 2> faults || status=$?
echo 'library.py: loop: Too many levels of symbolic links' > want
same want faults "after status $status, what library.py says of a loop"
status=0
"$recipes/go_on.py" loop games/0.sgf 2> faults || status=$?
echo 'go_on.py: loop: Too many levels of symbolic links' > want
same want faults "after status $status, what go_on.py says of a loop"
rm -r games out loop

# An empty name of a folder for outputs.
mkdir games empty
cp "$top/examples/ko.sgf" games/ko.sgf
for tool in library files prose; do
    status=0
    (cd empty && "$recipes/$tool.py" '' ../games 2> ../faults) || status=$?
    echo "$tool.py: the folder for outputs has an empty name ($tool.py -h says what it takes)" > want
    same want faults "after status $status, what $tool.py says of an empty name"
    [ "$status" = 2 ] && [ -z "$(ls -A empty)" ] || failed "$tool '': status $status"
done

# Python's variables. Each tool shows its help, and does what it does without them.
for tool in $all; do
    rm -rf out plain
    "$recipes/$tool.py" ${first[$tool]-} games > want
    [ ! -e out ] || mv out plain
    for variable in PYTHONSAFEPATH=1 PYTHONOPTIMIZE=2; do
        env "$variable" "$recipes/$tool.py" -h > help && grep -q "^  $tool.py " help || failed "$variable $tool -h"
        env "$variable" "$recipes/$tool.py" ${first[$tool]-} games > got || failed "$variable $tool: status $?"
        same want got "what $tool writes with $variable"
        [ ! -e plain ] || diff -r plain out >&2 || failed "$variable $tool: other outputs"
        rm -rf out
    done
done

# A name with letters and one that isn't UTF-8, in a locale with UTF-8 and in one without: what is stored and shown has the same bytes.
mkdir names
cp "$top/examples/ko.sgf" $'names/caf\xc3\xa9 \xc3\x89.sgf'
cp "$top/examples/ko.sgf" $'names/\xff\xc3\xa9.sgf'
cp "$top/examples/ko.sgf" $'names/\xc2\x9b1m.sgf'
echo x > $'names/\xc3\x89.sgf'
everything() {
    local path=$work/$1
    mkdir "$path"
    shift
    for words in verdicts.py verdicts.py\ --csv verdicts.py\ --json illegal_lines.py "verdicts.py --sqlite $path/base"; do
        env "$@" "$recipes"/$words names >> "$path/said" 2>&1 || [ $? = 1 ] || failed "$words: $(tail -n 1 "$path/said")"
    done
    for _ in 1 2; do env "$@" "$recipes/library.py" "$path/out" names >> "$path/said" 2>&1 || [ $? = 1 ] || failed "library.py: $(cat "$path/said")"; done
    python3 -c 'import sqlite3, sys; print(*sqlite3.connect(sys.argv[1]).execute("SELECT file, place FROM lines"))' "$path/base" > "$path/base.rows"
    rm "$path/base"
}
everything with PYTHONUTF8=1
everything without PYTHONUTF8=0 PYTHONCOERCECLOCALE=0 LC_ALL=C
diff -r with without >&2 || failed "names differ between locales"
grep -q 'café' with/base.rows || failed "a name that is UTF-8 isn't stored as text: $(cat with/base.rows)"
# A library that was split in one locale is known in the other.
touch mark
sleep 0.05
env PYTHONUTF8=0 PYTHONCOERCECLOCALE=0 LC_ALL=C "$recipes/library.py" with/out names 2> /dev/null || true
[ "$(find with/out -name '*.rows' -newer mark | wc -l)" = 0 ] || failed "files are split again in another locale"

# No thread can be started: a module that Python loads first sees to that.
mkdir no_threads
cat > no_threads/sitecustomize.py <<'PYTHON'
import threading


def refused(thread):
    raise RuntimeError("can't start new thread")


threading.Thread.start = refused
PYTHON
for tool in $all; do
    rm -rf out
    status=0
    PYTHONPATH=$work/no_threads timeout 60 "$recipes/$tool.py" ${first[$tool]-} games > got 2> faults || status=$?
    case $status in
        0) [ ! -s faults ] || failed "$tool without threads: $(cat faults)" ;;
        3) echo "$tool.py: the system starts no more threads" > want; same want faults "what $tool says without threads" ;;
        *) failed "$tool without threads: status $status, $(tail -n 1 faults)" ;;
    esac
done
rm -rf out
status=0
PYTHONPATH=$work/no_threads "$recipes/library.py" out games 2> faults || status=$?
[ "$status" = 3 ] || failed "library.py without threads: status $status"

# Ctrl-C while a module is loaded that takes long: one that each tool needs, in place of Python's own.
mkdir slow
cat > slow/hashlib.py <<'PYTHON'
import time

open("loading", "w").close()
time.sleep(60)
PYTHON
cat > interrupts.py <<'PYTHON'
import os
import signal
import subprocess
import sys
import time

signal.signal(signal.SIGINT, signal.default_int_handler)
tool = subprocess.Popen(sys.argv[1:], stderr=subprocess.PIPE)
while tool.poll() is None and not os.path.exists("loading"):
    time.sleep(0.01)
tool.send_signal(signal.SIGINT)
_, said = tool.communicate(timeout=30)
os.remove("loading")
if said or tool.returncode not in (-signal.SIGINT, 130):
    sys.exit(f"{sys.argv[1]}: status {tool.returncode}, {said.decode()}")
PYTHON
for tool in $all; do
    PYTHONPATH=$work/slow python3 interrupts.py "$recipes/$tool.py" ${first[$tool]-} games > faults 2>&1 || failed "$(cat faults)"
done
