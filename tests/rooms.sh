#!/usr/bin/env bash
# Inputs as large as the room that is taken for nodes, turns, records and texts at first, one less, and one more. Each output is worked out
# here.
. "$(dirname "$0")/lib.sh"
needs python3
cat > rooms.py <<'PYTHON'
"""Compares the outputs of the program with those that are worked out here, and prints how many were compared."""
import os
import string
import subprocess

LETTERS = string.ascii_lowercase[:25]
COLUMNS = string.ascii_uppercase.replace("I", "")
compared = 0


def same(text, words, wanted):
    """The program must write this text for the input, from a file and from a pipe."""
    global compared
    with open("input.sgf", "w", encoding="ascii") as file:
        file.write(text)
    for more, given in ((["input.sgf"], None), ([], text)):
        run = subprocess.run([os.environ["SGFSPLIT"], *words, *more], input=given, capture_output=True, text=True, check=False)
        assert (run.returncode, run.stdout, run.stderr) == (0, wanted, ""), (text, words, run)
        compared += 1


def points(count):
    """Points of every other row of a board of side 25. No stone there is ever without a free point beside it."""
    return [(at % 25, at // 25 * 2) for at in range(count)]


def game(count, comment):
    """A game of so many turns, its row and its script."""
    root = f";SZ[25]C[{comment}]"
    moves = [f";{'BW'[at % 2]}[{LETTERS[col]}{LETTERS[row]}]" for at, (col, row) in enumerate(points(count))]
    text = f"({root}{''.join(moves)})"
    row = f"{len(text) - 7} 1 {count + 1} score {(count + 1) // 2} {count // 2} open\n"
    plays = [f"play {'BW'[at % 2]} {COLUMNS[col]}{25 - row}\n" for at, (col, row) in enumerate(points(count))]
    return text, row, f"# {row}boardsize 25\nclear_board\n# {comment}\n{''.join(plays)}\n"


def whole_game(count, comment):
    """Returns the number of bytes of its sgf record, and of its script without the row at the beginning."""
    text, row, script = game(count, comment)
    same(text, ["count"], f"1 {count + 1} 1\n")
    same(text, ["split"], row)
    same(text, ["split", "--form", "sgf"], text + "\n")
    same(text, ["split", "--form", "gtp"], script)
    return len(text) + 1, len(script) - len("# " + row)


def variations(count):
    text = f"(;SZ[25]{'(;)' * count})"
    rows = [f"{9 + 3 * at} 1 2 score 0 0 open\n" for at in range(count)]
    same(text, ["count"], f"1 {count + 1} {count}\n")
    same(text, ["split"], "".join(rows))
    same(text, ["split", "--form", "sgf"], "(;SZ[25];)\n" * count)


def games(count):
    text = "(;)" * count
    same(text, ["count"], f"{count} {count} {count}\n")
    same(text, ["split"], "".join(f"{1 + 3 * at} {1 + at} 1 score 0 0 open\n" for at in range(count)))
    same(text, ["split", "--form", "sgf"], "(;)\n" * count)


# A line of that many sequences, which has a piece more in sgf form.
def nested(count):
    text = "(;" * count + ")" * count
    same(text, ["count"], f"1 {count} 1\n")
    same(text, ["split"], f"{2 * count - 1} 1 {count} score 0 0 open\n")
    same(text, ["split", "--form", "sgf"], "(" + ";" * count + ")\n")


for room in 16, 128, 256:
    for count in room - 1, room, room + 1:
        nested(count - 1)
        nested(count)
        whole_game(count - 1, "x")
        whole_game(count, "x")
        variations(count - 1)
        variations(count)
        games(count)
for form in 0, 1:
    short = whole_game(20, "x" * 3000)[form]
    for length in 4095, 4096, 4097:
        assert whole_game(20, "x" * (3000 + length - short))[form] == length
for length in 4096, 65535, 65536, 65537, 131071, 131072, 131073:
    nodes = ";" * (length - 2)
    same(f"({nodes})", ["count"], f"1 {length - 2} 1\n")
    same(f"({nodes})", ["split"], f"{length - 2} 1 {length - 2} score 0 0 open\n")
    same(f"({nodes})", ["split", "--form", "sgf"], f"({nodes})\n")
print(f"{compared} outputs compared")
PYTHON
python3 rooms.py
