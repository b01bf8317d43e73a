#!/usr/bin/env bash
# On a machine without the programs that only some cases need, a script leaves out these cases and counts them, and runs the others.
. "$(dirname "$0")/lib.sh"
needs python3
missing='parallel sqlite3 iconv'
mkdir bin
IFS=: read -r -a folders <<< "$PATH"
for folder in "${folders[@]}"; do
    for program in "$folder"/*; do
        case " $missing " in
            *" ${program##*/} "*) ;;
            # PATH may name folders that aren't there, and programs that are links to nothing
            *) [ ! -e "$program" ] || [ -e "bin/${program##*/}" ] || ln -s "$program" "bin/${program##*/}" ;;
        esac
    done
done
python3 -c 'import sys; print(sys.executable)' > python
[ ! -e bin/python3 ] || ln -sf "$(cat python)" bin/python3

# With a shell of its own, since lib.sh adds a folder to PATH.
PATH=$work/bin SGFSPLIT=$SGFSPLIT "$top/tests/all.sh" recipe_examples recipe_hostile_names > said || failed "$(cat said)"
grep -q '^passed: recipe_examples$' said && grep -q '^passed: recipe_hostile_names$' said || failed "$(cat said)"
for program in $missing; do grep -q "^    left out: .*, since $program isn't installed$" said || failed "nothing is said of $program: $(cat said)"; done
skipped=$(grep -c '^    left out: ' said)
[ "$skipped" -ge 4 ] && [ "$(tail -n 1 said)" = "2 passed, 0 failed, $skipped skipped" ] || failed "$(cat said)"
# No other script for the tools needs one of them for all that it tests.
if grep -E "^needs.* (${missing// /|})( |\$)" "$top"/tests/recipe_*.sh; then failed "a script is skipped whole"; fi
