#!/usr/bin/env bash
# Opening tables by lines and by games, with the eight views of a board as one, as CSV, of lines with setup, and on sides over 25.
. "$(dirname "$0")/lib.sh"
needs python3
tool=$top/recipes/openings.py

# A stone that is set up isn't a move. An illegal move doesn't count as a move, and a pass does.
cp -R "$top/examples" games
printf '(;SZ[9];W[cc];B[dd])(;SZ[9];B[cc]AW[dd])(;SZ[9];B[cc];W[gc];AW[ee];B[ef])(;SZ[9]C[no move])(;SZ[5];B[];W[tt])' > games/more.sgf
cat > want <<'WANT'
2 9 B-C7 W-C3
2 9 B-C7 W-G7
1 3 B-A3
1 3 B-B2 W-A3
1 3 B-B2 W-pass
1 3 B-pass W-pass
1 5 B-pass W-pass
1 9 B-C7 W-E5
WANT
"$tool" 2 games > got
same want got
"$tool" --games 2 games > got
sed 's/^2 9 B-C7 W-C3$/1 9 B-C7 W-C3/' want | sort -k 1,1nr -k 2 > by.games
same by.games got "the table by games"
{ echo 'count,side,move 1,move 2'; sed 's/ /,/g; s/B-A3/&,/' want; } > want.csv
"$tool" --csv 2 games > got
same want.csv got "the table as CSV"
cat > want <<'WANT'
4 9 B-C7
3 3 B-B2
2 13 setup
1 2 setup
1 3 B-A3
1 3 B-pass
2 3 setup
2 4 setup
WANT
"$tool" --setup 1 games | sort > got
{ sed -e '/4 9/s/4/5/' -e '/3 3/s/3/2/' want; echo '1 5 B-pass'; } | sort > sorted
same sorted got "the table with setup"

# One game, mirrored and turned: eight views of a game whose first moves are at R16, Q3 and C4. R16 is furthest right, and then furthest up.
python3 - <<'PYTHON'
letters = "abcdefghijklmnopqrstuvwxyz"
moves = [("B", 16, 3), ("W", 15, 16), ("B", 2, 15), ("W", None, None), ("B", 9, 9)]
views = [lambda c, r: (c, r), lambda c, r: (18 - c, r), lambda c, r: (c, 18 - r), lambda c, r: (18 - c, 18 - r),
         lambda c, r: (r, c), lambda c, r: (18 - r, c), lambda c, r: (r, 18 - c), lambda c, r: (18 - r, 18 - c)]
with open("views.sgf", "w") as file:
    for view in views:
        points = [(colour, "" if col is None else letters[view(col, row)[0]] + letters[view(col, row)[1]]) for colour, col, row in moves]
        file.write("(;" + "".join(f";{colour}[{point}]" for colour, point in points) + ")\n")
PYTHON
echo '8 19 B-R16 W-Q3 B-C4 W-pass B-K10' > want
"$tool" --symmetry 5 views.sgf > got
same want got "eight views as one"
"$tool" 5 views.sgf > got
[ "$(wc -l < got)" = 8 ] || failed "without --symmetry the views aren't eight"
# The first move is the same in two views, and the second one tells them apart.
printf '(;SZ[9];B[cc];W[gc])(;SZ[9];B[cc];W[cg])(;SZ[9];B[gg];W[cg])' > turned.sgf
printf '(;SZ[9];B[ee];W[ec])(;SZ[9];B[ee];W[ce])(;SZ[9];B[ee];W[cd])' >> turned.sgf
printf '3 9 B-G7 W-G3\n2 9 B-E5 W-G5\n1 9 B-E5 W-G6\n' > want
"$tool" --symmetry 2 turned.sgf > got
same want got "views told apart by the second move"

# Sides without vertices, refused files, and games that count once for each of their openings.
printf '(;SZ[52];B[zZ](;W[Aa])(;W[aa]))' > large.sgf
printf '(;SZ[9];B[cc]' > broken.sgf
printf '1 52 B-zZ W-Aa\n1 52 B-zZ W-aa\n' > want
if "$tool" --games 2 broken.sgf large.sgf > got 2> faults; then failed "a refused file isn't in the status"; fi
same want got
echo '1 52 B-zZ' > want
"$tool" --games 1 large.sgf > got
same want got
