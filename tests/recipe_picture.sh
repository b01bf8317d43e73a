#!/usr/bin/env bash
# Pictures of every line of the examples, and of each side from 1 to 52. The stones are those of the replayed board. Each stone has the number of
# its move, and an illegal point has its mark. Then come files of lines, wrong places and files without a board.
. "$(dirname "$0")/lib.sh"
needs python3
cat > stones.py <<'PYTHON'
import subprocess
import sys
import xml.etree.ElementTree as xml

sys.path.insert(0, sys.argv[1] + "/tests")
import referee

TOOL, SGFSPLIT = sys.argv[1] + "/recipes/picture.py", sys.argv[2]
STEP, FIRST = 24, 42
SPACE = "{http://www.w3.org/2000/svg}"


def pictures(file, *words):
    """Of each board of a file its row, its stones, its marks and the numbers on its stones, by point, and its side."""
    text = subprocess.run([TOOL, *words, file], stdout=subprocess.PIPE, check=True).stdout
    for board in xml.fromstring(text).iter(SPACE + "g"):
        index = lambda x: (int(x) - FIRST) // STEP
        stones, numbers, marks = {}, {}, 0
        for part in board:
            what = part.get("class")
            if what in ("black", "white"):
                stones[index(part.get("cx")), index(part.get("cy"))] = what[0].upper()
                last = index(part.get("cx")), index(part.get("cy"))
            elif what == "number":
                numbers[last] = int(part.text)
            elif what == "illegal":
                marks += 1
            elif what == "row":
                row = part.text
        side = round((float(board.find(SPACE + "rect").get("width")) - 32) / STEP) + 1
        yield row, side, stones, numbers, marks


def replayed(file):
    """The row, side and board of each line of a file that has a script."""
    text = subprocess.run([SGFSPLIT, "split", "--form", "gtp", file], stdout=subprocess.PIPE, check=True).stdout
    return [(" ".join(row), side, board) for row, side, board in map(referee.replay, referee.scripts(text)) if side is not None]


def same(got, want, what):
    if got != want:
        sys.exit(f"{what}: {got}, not {want}")


lines = 0
for file in sys.argv[3:]:
    drawn = list(pictures(file))
    same([(row, side, stones) for row, side, stones, _, _ in drawn], replayed(file), file)
    lines += len(drawn)
print(lines, "lines of the examples")

# Sides 1 to 52: a capture in one corner, the same on each side, and a stone of a setup in the other.
LETTERS = "abcdefghijklmnopqrstuvwxyzABCDEFGHIJKLMNOPQRSTUVWXYZ"
for side in range(1, 53):
    corner = LETTERS[side - 1] * 2
    moves = ";W[aa];B[ab];W[];B[ba]" if side >= 4 else ""
    with open("side.sgf", "w") as file:
        file.write(f"(;SZ[{side}]AW[{corner}]PL[W]{moves})")
    want = {(side - 1, side - 1): "W", **({(0, 1): "B", (1, 0): "B"} if moves else {})}
    (_, drawn_side, stones, numbers, _), = pictures("side.sgf")
    same((drawn_side, stones, numbers), (side, want, {(0, 1): 2, (1, 0): 4} if moves else {}), f"side {side}")
    if 2 <= side <= 25:  # no script has a stone without a liberty
        same(stones, replayed("side.sgf")[0][2], f"the replayed board of side {side}")
PYTHON
cat > numbers.sgf <<'SGF'
(;SZ[4]AB[ba][ab][bc]AW[ca][db][cc][bb];B[cb](;W[bb])(;W[ad];B[dd];W[bb]))
SGF
python3 stones.py "$top" "$SGFSPLIT" "$top"/examples/*.sgf numbers.sgf > counted
echo '21 lines of the examples' > want
same want counted

# The ko: Black's first move takes a stone. White may not retake with move 2, and does with move 4, so the number 1 is gone.
"$top/recipes/picture.py" numbers.sgf > ko.svg
grep -o '<text class="number"[^>]*>[0-9]*' ko.svg | sed 's/.*>//' | tr '\n' ' ' > numbers
printf '1 2 4 3 ' > want
same want numbers
[ "$(grep -c 'class="illegal"' ko.svg)" = 1 ] || failed "the illegal point has no mark"

# One line, files of lines, a place at which no line ends, a file that has no board, and two files for one picture.
"$top/recipes/picture.py" --line 170 "$top/examples/corner.sgf" > one.svg
[ "$(grep -c '<g ' one.svg)" = 1 ] && grep -q '>170 1 4 score 2 1 open<' one.svg || failed "not the line at 170"
"$top/recipes/picture.py" --out out "$top/examples"
[ "$(find out -name '*.svg' | wc -l)" = 19 ] || failed "not a file for each judged line"
same one.svg "out$top/examples/corner/170.svg"
if "$top/recipes/picture.py" --line 171 "$top/examples/corner.sgf" > got 2> fault; then failed "place 171 was accepted"; fi
echo "$top/examples/corner.sgf: no line ends at 171" > want
same want fault
echo '(;GM[2])' > chess.sgf
if "$top/recipes/picture.py" chess.sgf > got 2> fault; then failed "a board was drawn for another game"; fi
echo 'chess.sgf: no board, since no line is judged' > want
same want fault
if "$top/recipes/picture.py" "$top/examples" > got 2> fault; then failed "five files were accepted for one picture"; fi
[ ! -s got ] && [ "$(wc -l < fault)" = 1 ] || failed "the fault row is $(cat fault)"
