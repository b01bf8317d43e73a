#!/usr/bin/env bash
# Engines that don't answer, that answer late, or that leave a process which holds the pipe. replay.py waits no longer than its time limit, and
# leaves no engine, also if a signal comes while the first question is open.
. "$(dirname "$0")/lib.sh"
needs python3
tool=$top/recipes/replay.py
printf '(;SZ[3];B[bb])' > one.sgf

# engine COMMANDS: an engine that runs these commands of the shell first, and then accepts all commands and lists the stone at B2.
engine() {
    { echo '#!/bin/sh'; echo "echo \$\$ >> started"; echo "$1"; cat <<'ENGINE'; } > engine
while read -r command colour; do
    case "$command $colour" in
        known_command*) printf '= true\n\n' ;;
        'list_stones black') printf '= B2\n\n' ;;
        *) printf '=\n\n' ;;
    esac
done
ENGINE
    chmod +x engine
    : > started
}

# None of the processes in the file still runs.
gone() {
    local process
    for process in $(cat started); do
        for _ in $(seq 50); do
            [ -e "/proc/$process" ] && ! grep -q '^State:.Z' "/proc/$process/status" 2> /dev/null || continue 2
            sleep 0.1
        done
        failed "$1: the engine still runs"
    done
}

# replays STATUS SECONDS WORDS..: the tool ends with this status, in fewer seconds.
replays() {
    local wanted=$1 most=$2 status=0 begin=$SECONDS
    shift 2
    ENGINE=./engine timeout 60 "$tool" "$@" one.sgf > got 2> faults || status=$?
    [ "$status" = "$wanted" ] || failed "$*: status $status, not $wanted: $(cat faults)"
    [ $((SECONDS - begin)) -le "$most" ] || failed "$* took $((SECONDS - begin)) seconds"
    gone "$*"
}

engine ''
replays 0 20
echo '1 lines agree, 0 differ, 0 left out' > want
same want got
for commands in 'exec sleep 60' 'read -r line; exec sleep 60' 'cat > /dev/null' 'read -r line; printf "= true\n\n= half"; exec sleep 60'; do
    engine "$commands"
    replays 3 20 --timeout 1
    echo 'replay.py: the engine gave no answer in 1 s (--timeout sets another limit)' > want
    same want faults "what is said of an engine that runs $commands"
done
# There is a limit without the option, too.
engine 'exec sleep 60'
status=0
PYTHONPATH=$top/recipes ENGINE=./engine timeout 30 python3 -c '
import sys
import tool, replay
replay.SECONDS, sys.argv = 1, ["replay.py", "one.sgf"]
tool.start(replay.main, replay.USAGE, values=("--timeout",))' 2> faults || status=$?
[ "$status" = 3 ] || failed "without --timeout: status $status, $(cat faults)"
same want faults "what is said without --timeout"
gone 'without --timeout'
# Each answer has this time for itself.
engine 'printf() { sleep 0.4; command printf "$@"; }'
replays 0 30 --timeout 1
for word in 0 x 86401 ''; do replays 2 20 --timeout="$word"; done
grep -q '^replay.py: --timeout wants how many seconds, from 1 to 86400' faults || failed "it says $(cat faults)"

# An engine that ends, and leaves a process in another session that holds its output.
for commands in 'setsid sleep 40 < /dev/null & :' 'setsid sleep 40 & :' 'sleep 40 & echo $! >> started'; do
    engine "$commands"
    replays 0 20
done
engine '(setsid sh -c "echo \$\$ > holder; exec sleep 40") & exit'
replays 3 20 --timeout 2
kill "$(cat holder)" 2> /dev/null || true

# Signals while the first question is open.
cat > signals.py <<'PYTHON'
import os
import signal
import subprocess
import sys
import time

signal.signal(signal.SIGINT, signal.default_int_handler)
tool = subprocess.Popen(sys.argv[2:], stderr=subprocess.PIPE)
while tool.poll() is None and not os.path.exists("asked"):
    time.sleep(0.01)
os.remove("asked")
tool.send_signal(getattr(signal, "SIG" + sys.argv[1]))
_, said = tool.communicate(timeout=30)
print(tool.returncode, said.decode().strip())
PYTHON
for signal in INT TERM HUP; do
    engine 'read -r line; : > asked; exec sleep 60'
    ENGINE=./engine python3 signals.py "$signal" "$tool" one.sgf > got || failed "$signal: $(cat got)"
    echo "$((128 + $(kill -l "$signal"))) " > want
    same want got "the status and what is said after $signal"
    gone "$signal"
done
