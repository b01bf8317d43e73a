#!/usr/bin/env bash
# If a message of a tool can't be written, because its reader is gone or the device is full, that costs no result and no status. Status 0 for
# an early end is for the reader of the output alone. A wait for a lock is said after a second.
. "$(dirname "$0")/lib.sh"
needs python3
recipes=$top/recipes
mkdir games
for number in $(seq -w 20); do cp "$top/examples/ko.sgf" "games/$number.sgf"; done
echo x > games/00.sgf
echo '(' > games/10.sgf
tools='verdicts.py:--csv illegal_lines.py openings.py:--setup:2 parts.py files.py:out picture.py:--out:out prose.py:out library.py:out go_on.py:out/'
if can gnugo replay.py; then tools="$tools replay.py"; fi

# closed COMMAND..: runs the command with a standard error whose reader is gone.
cat > closed.py <<'PYTHON'
import os
import subprocess
import sys

reads, writes = os.pipe()
os.close(reads)
sys.exit(subprocess.run(sys.argv[1:], stderr=writes).returncode)
PYTHON
for words in $tools; do
    name=${words%%:*}
    words=(${words//:/ })
    [ "$name" != prose.py ] || words=(prose.py out)
    status=0
    rm -rf out
    "$recipes/${words[0]}" "${words[@]:1}" games > want 2> faults || status=$?
    [ "$name" = prose.py ] || [ "$(wc -l < faults)" = 2 ] || failed "$name says $(cat faults)"
    rm -rf want.out
    [ ! -e out ] || mv out want.out
    for way in closed full; do
        got=0
        case $way in
            closed) python3 closed.py "$recipes/${words[0]}" "${words[@]:1}" games > got || got=$? ;;
            full) "$recipes/${words[0]}" "${words[@]:1}" games > got 2> /dev/full || got=$? ;;
        esac
        [ "$got" = "$status" ] || failed "$name, standard error $way: status $got, not $status"
        same want got "what $name writes, standard error $way"
        [ ! -e want.out ] || diff -r want.out out >&2 || failed "$name, standard error $way: other outputs"
        rm -rf out
    done
done
# So does the message about the failure of a whole call, and a wrong command line.
for words in 'verdicts.py --nix:2' 'openings.py 0 games:2' 'verdicts.py --sqlite games games:3'; do
    status=0
    python3 closed.py "$recipes"/${words%:*} || status=$?
    [ "$status" = "${words#*:}" ] || failed "${words%:*}, standard error closed: status $status"
done

# Another process has an output locked. The tool says so after a second, and goes on when the lock is gone.
cat > locks.py <<'PYTHON'
import fcntl
import hashlib
import os
import select
import subprocess
import sys
import time

path, seconds, *words = sys.argv[1:]
os.makedirs(os.path.dirname(path), exist_ok=True)
lock = open(path, "w")
fcntl.flock(lock, fcntl.LOCK_EX)
begin = time.monotonic()
tool = subprocess.Popen(words, stderr=subprocess.PIPE)
ready, _, _ = select.select([tool.stderr], [], [], float(seconds))
waited = time.monotonic() - begin
said = tool.stderr.readline().decode() if ready else "nothing"
lock.close()
if tool.wait() or waited < 0.9 and ready or seconds == "20" and said != f"{path}: another process has it locked; waiting\n":
    sys.exit(f"{words}: status {tool.returncode}, after {waited:.2f} seconds it says {said}")
print(said.strip())
PYTHON
name=$(python3 -c 'import hashlib; print(hashlib.blake2b(b"01.rows", digest_size=8).hexdigest())')
python3 locks.py "rows/.$name.part" 20 "$recipes/go_on.py" rows/01.rows games/01.sgf > said || failed "$(cat said)"
python3 locks.py library/.done.jsonl 20 "$recipes/library.py" library games/01.sgf > said || failed "$(cat said)"
[ "$(python3 locks.py library/.done.jsonl 0.3 "$recipes/library.py" library games/01.sgf)" = nothing ] || failed "a short wait is said"
