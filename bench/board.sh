#!/bin/sh
# Prints nanoseconds on sides 9, 19 and 52, by bench/board/main.rt.in: of a referee's turn, undo and score over both pasts, in games of
# random points, and of a flood of the empty board. A turn's time is the time of all tries, refused ones included, divided by the turns
# taken. Then it prints bytes of memory, by bench/board/memory.rt.in: what a placed stone takes over both pasts, with what the referee
# keeps of it, and the peak of one long game. If the variable TURNS names a program that prints the same times of another referee, the
# two run by turns. The least time of ROUNDS runs (5) is printed for each.
# The programs aren't crates of this repository, so that the gate doesn't prove them. They are built in the folder that BENCH_FOLDER
# names, beside copies of go_board and the crates below it. The first run proves all of them, which takes minutes. A later run in the same
# folder takes seconds.
# Numbers from a busy machine are worth little.
set -eu
top=$(cd "$(dirname "$0")/.." && pwd)
folder=${BENCH_FOLDER:-${TMPDIR:-/tmp}/sgfsplit-bench-board}
for name in board memory; do
    mkdir -p "$folder/crates/bench_$name/src" "$folder/crates/bench_$name/specs"
    cp "$top/bench/board/$([ $name = board ] && echo main || echo memory).rt.in" "$folder/crates/bench_$name/src/main.rt"
    : > "$folder/crates/bench_$name/specs/Lib.antt"
done
cp "$top/HANDLES" "$folder/HANDLES"
printf 'board_points:\nkey_trie:\nboard_stones: board_points\nboard_past: board_points board_stones key_trie sha2\ngo_board: board_points board_stones board_past\nbench_board: board_points go_board\nbench_memory: board_points go_board\n' > "$folder/crates.txt"
for library in board_points key_trie board_stones board_past go_board; do
    mkdir -p "$folder/crates/$library"
    for part in src specs proofs; do
        rm -rf "$folder/crates/$library/$part"
        cp -R "$top/crates/$library/$part" "$folder/crates/$library/$part"
    done
done
for name in board memory; do
    cd "$folder/crates/bench_$name"
    if ! rt run > run.log 2>&1; then
        tail -20 run.log >&2
        exit 1
    fi
done
exec python3 "$top/bench/board/table.py" "$folder/crates/bench_board/out/bench_board" \
    "$folder/crates/bench_memory/out/bench_memory" "${TURNS:-}" "${ROUNDS:-5}"
