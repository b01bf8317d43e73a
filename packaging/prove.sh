#!/usr/bin/env bash
# Proves and builds the program of a crate, and runs the program once with these words: packaging/prove.sh CRATE WORDS..
# One row shows the progress: a crate, and how many of its functions are proved. All messages go to out/CRATE.log.
set -uo pipefail
cd "$(dirname "$0")/.."
crate=$1
shift
log=out/$crate.log
mkdir -p out
[ -x "crates/$crate/out/$crate" ] || echo "proving and building $crate; from nothing this takes many minutes"
row=$'\n'
[ ! -t 1 ] || row=$'\r'
(cd "crates/$crate" && rt run -- "$@" < /dev/null 2>&1 > "../../out/$crate.txt") | tee "$log" | awk -v row="$row" '
    /^rt: chose --jobs/ { name = $NF }
    /^so far: / && row == "\r" { printf "\r%-60s", name ": " $3 " of " $5 " functions"; fflush() }
    /^logic=proved/ && name { split($2, functions, "="); printf "%s%-60s", row, name ": proved, " functions[2] " functions"; if (row == "\r") print ""; name = ""; fflush() }
    END { if (row == "\n") print "" }'
status=${PIPESTATUS[0]}
if [ "$status" != 0 ]; then
    tail -n 20 "$log" >&2
    echo "not built: $log has all messages" >&2
    exit 1
fi
echo "built crates/$crate/out/$crate"
