#!/usr/bin/env bash
# The table of docs/COMPARED.md is the one that docs/compared.py prints with the installed programs.
. "$(dirname "$0")/lib.sh"
needs python3 gnugo
[ -x /usr/bin/sgfsplit ] && dpkg -S /usr/bin/sgfsplit 2> /dev/null | grep -q '^sgf2dg:' || skipped "sgf2dg isn't installed"
"$top/docs/compared.py" > got
grep '^|' "$top/docs/COMPARED.md" > want
same want got
