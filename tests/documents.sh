#!/usr/bin/env bash
# examples.py runs the examples of README, docs/ and the manual page as they stand. The folder has the examples and recipes, and the program is
# on the path. recipe_examples.sh runs the examples of docs/RECIPES.md, which need more programs.
# Each link to a file or a heading leads somewhere. README is short. CONTRIBUTING.md names the table of rules of each crate that has one.
. "$(dirname "$0")/lib.sh"
needs python3 perl
[ "$(wc -l < "$top/README.md")" -le 120 ] || failed "README.md has more than 120 lines"
for table in $(cd "$top" && grep -l '^//! | Rule (' crates/*/src/lib.rt); do
    grep -qF "]($table)" "$top/CONTRIBUTING.md" || failed "CONTRIBUTING.md names no $table"
done
python3 "$top/tests/links.py" "$top"/*.md "$top"/docs/*.md
mkdir bin
ln -s "$SGFSPLIT" bin/sgfsplit
PATH=$work/bin:$PATH
cp -R "$top/examples" "$top/recipes" .
cp examples/* .
shopt -s extglob
python3 "$top/tests/examples.py" "$top/README.md" "$top"/docs/!(RECIPES).md "$top/man/sgfsplit.1"
cp -R "$top/docs/figures" .
figures/draw.py
for figure in figures/*.svg; do
    same "$top/docs/figures/$(basename "$figure")" "$figure" "what draw.py draws"
done
recipes/picture.py examples/corner.sgf > corner.svg
same "$top/docs/figures/corner.svg" corner.svg "what recipes/picture.py draws"
