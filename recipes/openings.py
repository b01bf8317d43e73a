#!/usr/bin/env python3
USAGE = """openings.py [--games] [--symmetry] [--setup] [--csv] [-0] N FILE|FOLDER..

Makes an opening table: the first N moves of each line of play, and how many
lines begin with them, the most frequent first. A row is COUNT SIDE MOVE..,
with moves such as B-Q16 or W-pass.

  openings.py 4 library | head
  openings.py --games 4 library  counts games, not lines: a game with many
                                 variations counts once for each opening
  openings.py --symmetry 4 library
                                 counts the eight views of a board together, as
                                 the view that begins in the upper right
  openings.py --setup 4 library  counts a line with stones set up before move N
                                 as `setup`; without --setup it is left out
  openings.py --csv 4 library    writes count,side and a column for each move

Only legal moves count. A line with an illegal node counts up to that node. A
line without moves doesn't count, and neither does a line that isn't judged. On
sides over 25 a point is written as its two letters in SGF. Status 1: a file
was refused.
"""
import os
import sys

sys.path.insert(0, os.path.dirname(os.path.realpath(__file__)))  # with PYTHONSAFEPATH it isn't there
import tool

import csv
from collections import Counter

import goboard
import sgfsplit

VIEWS = [(flip, across, down) for flip in (False, True) for across in (False, True) for down in (False, True)]


def viewed(point, view, side):
    """A point of the board in another view: mirrored along the diagonal, left to right, or top to bottom."""
    if point is None:
        return None
    flip, across, down = view
    col, row = point[::-1] if flip else point
    return side - 1 - col if across else col, side - 1 - row if down else row


def upper_right(moves, side):
    """The moves in one of the eight views. The first move that differs between views decides: the view with this move furthest right, then
    furthest up, is taken."""
    key = lambda view: [(0, 0) if point is None else (-point[0], point[1]) for _, point in view]
    return min(([(colour, viewed(point, view, side)) for colour, point in moves] for view in VIEWS), key=key)


def opening(record, end, count, options):
    """The side and the first moves of a line of play as words, or None if the line doesn't count. The line is a record in the sgf form, and its
    legal nodes end at the offset `end`."""
    side, moves = goboard.side_of(record), []
    for _, name, value in goboard.turns_and_setups(record, end):
        if len(moves) == count:
            break
        if name in goboard.SETUPS:
            return (str(side), "setup") if "--setup" in options else None
        moves.append(goboard.move_of(name, value, side))
    if not moves:
        return None
    if "--symmetry" in options:
        moves = upper_right(moves, side)
    return (str(side), *(f"{colour}-{goboard.vertex_of(point, side)}" for colour, point in moves))


def openings(job, count):
    """The number of times that each opening occurs."""
    counts, by_games = Counter(), "--games" in job.options
    for name in job.files():
        with job.going_on():
            seen = set()
            for row, record, end in goboard.records(name):
                words = None if row.verdict == "unjudged" else opening(record, end, count, job.options)
                if words is not None and not (by_games and (row.game, words) in seen):
                    counts[words] += 1
                    seen.add((row.game, words))
    return counts


def main(job):
    count = tool.number_of(job.first[0], 1, 1000, "N is how many moves")
    table = sorted(((often, *words) for words, often in openings(job, count).items()), key=lambda row: (-row[0], row[1:]))
    if "--csv" in job.options:
        head = ("count", "side", *(f"move {number}" for number in range(1, count + 1)))
        csv.writer(sys.stdout, lineterminator="\n").writerows([head] + [row + ("",) * (len(head) - len(row)) for row in table])
    else:
        for row in table:
            print(*row)


if __name__ == "__main__":
    tool.start(main, USAGE, flags=("--games", "--symmetry", "--setup", "--csv"), first=1)
