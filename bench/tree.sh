#!/bin/sh
# Builds bench/tree/main.rt.in, and prints the program's path. The program reads a collection and steps over it as its word says.
# It isn't a crate of this repository, so that the gate doesn't prove it. It is built in the folder that BENCH_FOLDER names, beside a copy
# of sgf_tree and of the crates below it. The first run proves all of them, which takes minutes. `bench/tree.py` measures it.
set -eu
top=$(cd "$(dirname "$0")/.." && pwd)
folder=${BENCH_FOLDER:-${TMPDIR:-/tmp}/sgfsplit-bench-tree}
mkdir -p "$folder/crates/bench_tree/src" "$folder/crates/bench_tree/specs"
cp "$top/HANDLES" "$folder/HANDLES"
grep -E '^sgf_(properties|outline|tree):' "$top/crates.txt" > "$folder/crates.txt"
echo 'bench_tree: sgf_tree' >> "$folder/crates.txt"
for library in sgf_properties sgf_outline sgf_tree; do
    mkdir -p "$folder/crates/$library"
    for part in src specs proofs; do
        rm -rf "$folder/crates/$library/$part"
        cp -R "$top/crates/$library/$part" "$folder/crates/$library/$part"
    done
done
cp "$top/bench/tree/main.rt.in" "$folder/crates/bench_tree/src/main.rt"
: > "$folder/crates/bench_tree/specs/Lib.antt"
: > "$folder/crates/bench_tree/stdin"
cd "$folder/crates/bench_tree"
if ! rt run < /dev/null > run.log 2>&1; then
    tail -20 run.log >&2
    exit 1
fi
echo "$folder/crates/bench_tree/out/bench_tree"
