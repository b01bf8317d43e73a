#!/usr/bin/env bash
# Illegal lines with place, turn, move and reason. The places are those of the nodes, and the contents of a file can't forge a row.
. "$(dirname "$0")/lib.sh"
needs python3
tool=$top/recipes/illegal_lines.py
printf '(;SZ[9];B[aa](;W[bb])(\n ;W[aa]))\n(;SZ[9]\n\n;W[aa])' > some.sgf
printf '(;SZ[9]' > broken.sgf
cat > want <<'WANT'
some.sgf:2:2: turn 2: W[aa]: occupied
some.sgf:5:1: turn 1: W[aa]: turn
WANT
if "$tool" broken.sgf some.sgf > got 2> faults; then failed "a refused file isn't in the status"; fi
same want got
echo 'broken.sgf:1:8: input ends too early' > want
same want faults

cat > want <<'WANT'
illegal.sgf:2:9: turn 1: B[bb]PL[W]: mixed
illegal.sgf:3:2: turn 1: B[aa]W[bb]: two-moves
illegal.sgf:4:2: turn 1: AB[dd]: bad-setup
illegal.sgf:5:2: turn 1: B[dd]: bad-point
illegal.sgf:6:10: turn 3: B[aa]: over
illegal.sgf:7:2: turn 1: W[aa]: turn
illegal.sgf:8:8: turn 2: W[aa]: occupied
illegal.sgf:9:18: turn 1: B[aa]: repeat
WANT
(cd "$top/examples" && "$tool" illegal.sgf) > got
same want got

# A server's third pass, as the 334th turn, at column 19 of row 37: Black plays stones from the top, and White passes.
python3 - > F <<'PYTHON'
points = [column + row for row in "abcdefghijklmnopqrs" for column in "abcdefghijklmnopqrs"]
turns = [f";B[{points[turn // 2]}]" if turn % 2 == 0 else ";W[]" for turn in range(330)]
rows = ["".join(turns[first:first + 10]) for first in range(0, 330, 10)]
print("\n".join(["(;SZ[19]", "", "", *rows, ";B[ss];W[tt];B[tt];B[tt])"]))
PYTHON
"$tool" F > got
echo 'F:37:19: turn 334: B[tt]: over' > want
same want got

# A value may contain line feeds, terminal escapes and much more: it stays in its row.
printf '(;SZ[3];B[x:\n%s.sgf:1:1: turn 1: B[aa\\]\e[31m: over%s])' forged "$(head -c 100 /dev/zero | tr '\0' y)" > forged.sgf
"$tool" forged.sgf > got
[ "$(wc -l < got)" = 1 ] || failed "a value made a row: $(cat got)"
printf '%s\n' 'forged.sgf:1:8: turn 1: B[x:\nforged.sgf:1:1: turn 1: B[aa\\]\x1b[31m: overyyyyyyyyyyyyyy..: bad-point' > want
same want got
