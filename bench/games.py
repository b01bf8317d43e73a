#!/usr/bin/env python3
"""Makes SGF inputs for measurements, always the same bytes for the same words.

  games.py KIND BYTES      a text of about BYTES bytes, on standard output

  library     games of 19 by 19 with headers, few comments and some variations
  annotated   the same with a comment on a third of the moves
  joseki      one game whose variations branch again and again
  problems    small boards with setup, and two or three answers
  big         long games on boards of 52 by 52
  long        one game without variations
  deep        games, each inside the one before, with a node each
  wide        a node with one-node variations

No line plays on a point twice, so most lines are legal to their ends.
"""
import random
import sys

LETTERS = "abcdefghijklmnopqrstuvwxyzABCDEFGHIJKLMNOPQRSTUVWXYZ"
WORDS = "sente gote joseki hane cut ko [atari\\] shape moyo invasion ladder reading thick thin aji".split()
OTHER = {"B": "W", "W": "B"}


def points(chance, side):
    """The points of a board in some order."""
    all_points = [col + row for col in LETTERS[:side] for row in LETTERS[:side]]
    chance.shuffle(all_points)
    return all_points


def comment(chance):
    return "C[" + " ".join(chance.choice(WORDS) for _ in range(chance.randrange(3, 20))) + "]"


def moves(chance, colour, free, talk):
    """A node for each point, and a comment at random nodes."""
    nodes = []
    for point in free:
        nodes.append(f";{colour}[{point}]" + (comment(chance) if chance.random() < talk else ""))
        if len(nodes) % 10 == 0:
            nodes.append("\n")
        colour = OTHER[colour]
    return "".join(nodes)


def game(chance, talk):
    free = points(chance, 19)
    count = chance.randrange(60, 220) // 2 * 2
    text = (f"(;GM[1]FF[4]CA[UTF-8]SZ[19]KM[6.5]\nPB[Player {chance.randrange(999)}]PW[Player {chance.randrange(999)}]"
            f"DT[20{chance.randrange(10, 25)}-0{chance.randrange(1, 10)}-1{chance.randrange(10)}]RE[B+R]\n")
    text += moves(chance, "B", free[:count], talk)
    if chance.random() < 0.3:
        for _ in range(chance.randrange(2, 4)):
            rest = free[count:]
            chance.shuffle(rest)
            text += "\n(" + moves(chance, "B", rest[:chance.randrange(5, 40)], talk) + ")"
    return text + ")\n"


def problem(chance, _):
    side = chance.choice([9, 13, 19])
    free = points(chance, side)
    black, white = chance.randrange(4, 12), chance.randrange(4, 12)
    text = f"(;GM[1]FF[4]SZ[{side}]AB" + "".join(f"[{p}]" for p in free[:black])
    text += "AW" + "".join(f"[{p}]" for p in free[black:black + white]) + "PL[B]C[Black to play]\n"
    free = free[black + white:]
    for _ in range(chance.randrange(2, 4)):
        chance.shuffle(free)
        text += "(" + moves(chance, "B", free[:chance.randrange(1, 8)], 0.2) + ")\n"
    return text + ")\n"


def big_game(chance, _):
    return "(;GM[1]FF[4]SZ[52]\n" + moves(chance, "B", points(chance, 52)[:chance.randrange(300, 1500)], 0) + ")\n"


def games(kind, size):
    chance = random.Random(19)
    make, talk = {"library": (game, 0.04), "annotated": (game, 0.33), "problems": (problem, 0), "big": (big_game, 0)}[kind]
    written = 0
    while written < size:
        text = make(chance, talk)
        written += len(text)
        yield text


def joseki(size):
    """Variations of 1 to 6 moves, each with 2 to 5 branches, to a depth of 60 moves."""
    chance = random.Random(19)
    written = 0

    def below(colour, free, depth):
        nonlocal written
        count = chance.randrange(1, 7)
        text = moves(chance, colour, free[:count], 0.02)
        written += len(text) + 2
        yield "(" + text
        free = free[count:]
        if depth + count < 60 and written < size:
            for _ in range(chance.randrange(2, 6)):
                rest = free[:]
                chance.shuffle(rest)
                yield from below(colour if count % 2 == 0 else OTHER[colour], rest, depth + count)
        yield ")"

    yield "(;GM[1]FF[4]SZ[19]\n"
    while written < size:
        yield from below("B", points(chance, 19), 0)
    yield ")\n"


def long_game(size):
    """100 moves, then a setup that empties the board, again and again. Black plays on the left and White on the right, so all is legal."""
    chance = random.Random(19)
    yield "(;GM[1]FF[4]SZ[19]\n"
    written = 0
    while written < size:
        free = points(chance, 19)
        left = [point for point in free if point[0] < "j"][:50]
        right = [point for point in free if point[0] > "j"][:50]
        text = moves(chance, "B", [point for pair in zip(left, right) for point in pair], 0) + ";AE[aa:ss]PL[B]\n"
        written += len(text)
        yield text
    yield ")\n"


def main():
    kind, size = sys.argv[1], int(sys.argv[2])
    if kind == "joseki":
        texts = joseki(size)
    elif kind == "long":
        texts = long_game(size)
    elif kind == "deep":
        texts = ["(;" * (size // 3) + ")" * (size // 3)]
    elif kind == "wide":
        texts = ["(;" + "(;)" * (size // 3) + ")"]
    else:
        texts = games(kind, size)
    sys.stdout.writelines(texts)


main()
