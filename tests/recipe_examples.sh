#!/usr/bin/env bash
# Runs every command of docs/RECIPES.md as it stands, and checks that it leaves out none but those that need a missing program.
. "$(dirname "$0")/lib.sh"
needs python3
mkdir bin
ln -s "$SGFSPLIT" bin/sgfsplit
PATH=$work/bin:$PATH
cp -R "$top/examples" "$top/recipes" .
words=()  # those by which the commands are known that need a missing program
can parallel 'examples of library.py' || words+=(--without=--sshlogin --without=elsewhere)
can gnugo 'examples of replay.py' || words+=(--without=gnugo --without=replay.py)
can sqlite3 'examples of a database' || words+=('--without=sqlite3 ')
can iconv 'examples of other character sets' || words+=(--without=iconv)
python3 "$top/tests/examples.py" ${words[@]+"${words[@]}"} "$top/docs/RECIPES.md" > ran || failed "$(cat ran)"
if grep -n '^    recipes/' "$top/docs/RECIPES.md"; then failed "a command without a dollar sign isn't run"; fi
missing=$(for word in ${words[@]+"${words[@]}"}; do grep '^    \$ ' "$top/docs/RECIPES.md" | grep -n -F -- "${word#--without=}"; done | sort -u | wc -l)
[ "$(cat ran)" = "$(($(grep -c '^    \$ ' "$top/docs/RECIPES.md") - missing)) examples, 0 wrong" ] || failed "not every example was run: $(cat ran)"
