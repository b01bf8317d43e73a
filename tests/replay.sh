#!/usr/bin/env bash
# A small separate referee reads the bytes of scripts. Each stone is played on an empty point. The area score of the last board is the score in the
# script's row, if the row has one. The scripts are those of the examples, and of a line whose setup is drawn anew.
. "$(dirname "$0")/lib.sh"
needs python3
printf '(;SZ[5]AB[ab][ba]AW[cc]C[one\ntwo];W[];B[ee])' > setup.sgf
[ "$("$SGFSPLIT" split setup.sgf)" = '37 1 3 score 4 1 open' ] || failed 'the row of the setup'
for file in setup.sgf "$top"/examples/*.sgf; do
    "$SGFSPLIT" split --form gtp "$file" > script
    python3 "$top/tests/referee.py" < script > compared || failed "a script of $file"
    [ "$file" != setup.sgf ] || [ "$(cat compared)" = '1 positions compared' ] || failed 'the position of the setup was not compared'
done
