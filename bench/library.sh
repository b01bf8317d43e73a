#!/usr/bin/env bash
# Compares recipes/library.py with a plain loop of the shell on 1,767 small files, made of the examples. Prints the seconds of each, and the
# ratio of the medians of five runs, on all cores and on one.
set -euo pipefail
top=$(cd "$(dirname "$0")/.." && pwd)
export SGFSPLIT=${SGFSPLIT:-$top/crates/sgfsplit/out/sgfsplit}
work=$(mktemp -d)
trap 'rm -rf "$work"' EXIT
cd "$work"
examples=("$top"/examples/*.sgf)
for number in $(seq 1767); do
    mkdir -p "games/$((number % 40))"
    cp "${examples[number % ${#examples[@]}]}" "games/$((number % 40))/$number.sgf"
done

# The seconds of a command.
seconds() {
    local begin=$EPOCHREALTIME
    "$@"
    awk -v begin="$begin" -v end="$EPOCHREALTIME" 'BEGIN { printf "%.2f\n", end - begin }'
}

# Five runs of each, by turns. The rows of both are compared once.
compare() {
    local name=$1 run
    shift
    : > loop.seconds
    : > library.seconds
    for run in 1 2 3 4 5; do
        rm -rf plain out
        mkdir plain
        seconds "$@" bash -c 'for file in games/*/*.sgf; do "$SGFSPLIT" split "$file" > "plain/${file//\//-}"; done' >> loop.seconds
        seconds "$@" "$top/recipes/library.py" out games >> library.seconds
    done
    [ "$(cat plain/* | sort | cksum)" = "$(find out -name '*.rows' -exec cat {} + | sort | cksum)" ] || { echo 'other rows' >&2; exit 1; }
    paste <(sort -n loop.seconds) <(sort -n library.seconds) |
        awk -v name="$name" 'NR == 3 { printf "%s: loop %s s, library.py %s s, ratio %.2f\n", name, $1, $2, $2 / $1 }'
}

compare 'all cores' env
compare 'one core' taskset -c 0
