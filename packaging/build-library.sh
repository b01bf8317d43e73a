#!/usr/bin/env bash
# Proves and builds the static library of crates/sgf_lines_c, and makes the shared library out/libsgflines.so.0 from it. The shared library also
# has the kit's functions that allocate memory with the C library's malloc. All messages of the prover go to out/sgf_lines_c.log.
set -uo pipefail
cd "$(dirname "$0")/.."
top=$PWD
crate=crates/sgf_lines_c
archive=$crate/out/libsgf_lines_c.a
below=(sgf_properties sgf_outline sgf_tree tree_lines board_points key_trie board_stones board_past go_board judged_lines byte_streams sgf_lines)
kit=$(dirname "$(dirname "$(readlink -f "$(command -v rt)")")")
log=out/sgf_lines_c.log
mkdir -p out "$crate/out"

# Whether the merge gate has just proved the libraries `below`. `rt lib` doesn't accept those libraries, because they name no sources, and would
# prove them all once more.
just_proved() {
    local name
    for name in "${below[@]}"; do
        local built=crates/$name/out/rlib
        [ -d "$built/$name.rlib" ] && [ ! -e "$built/stamp" ] || return 1
        [ -z "$(find "crates/$name/src" "crates/$name/specs" "crates/$name/proofs" crates.txt -newer "$built/$name.rlib" -print -quit)" ] || return 1
    done
}

# Proves and builds as `rt lib` does, but over these libraries.
build_over() {
    local name words=(-L "dependency=$kit/rlibs")
    for name in "${below[@]}"; do words+=(-L "dependency=$top/crates/$name/out/rlib"); done
    for name in "${below[@]}"; do words+=(--extern "$name=$top/crates/$name/out/rlib/$name.rlib"); done
    (cd "$crate" && "$kit/bin/rattle" build --crate-name sgf_lines_c src/lib.rt --extern "std=$kit/rlibs/std.rlib" "${words[@]}" \
        --antt-project "$kit/rattle/logic/antt-project.json" --logic-built "$kit/logic_built" --links sgf_lines_c= --jobs 2 \
        --crate-type staticlib --toolchain "$kit/toolchain" --backend llvm -o out/libsgf_lines_c.a)
}

if just_proved; then build_over; else (cd "$crate" && rt lib); fi > "$log" 2>&1 < /dev/null
if [ $? != 0 ] || [ ! -s "$archive" ]; then
    tail -n 20 "$log" >&2
    echo "not built: $log has all messages" >&2
    exit 1
fi
"${CC:-cc}" -shared -o out/libsgflines.so.0 -Wl,-soname,libsgflines.so.0 -Wl,--version-script,packaging/libsgflines.map \
    -Wl,--no-undefined -Wl,-z,relro -Wl,-z,now -Wl,--whole-archive "$archive" -Wl,--no-whole-archive "$kit/c/liblibc_c.a" || exit 1
ln -sf libsgflines.so.0 out/libsgflines.so
echo "built out/libsgflines.so.0"
