#!/usr/bin/env python3
USAGE = """picture.py [--line PLACE] FILE > picture.svg
picture.py [--line PLACE] [-0] --out OUT FILE|FOLDER..

Draws the board at the end of each line of play as SVG, with the line's row
below. For an illegal line it draws the board before the illegal node, with a
cross where that node plays. A stone has the number of its move. The boards of a
file stand side by side, four in a row.

  picture.py game.sgf > game.svg
  picture.py --line 170 game.sgf > line.svg
                                 only the line whose row begins with 170
  picture.py --out pictures library
                                 pictures/library/name/PLACE.svg, a file for
                                 each line

Sides go from 1 to 52. Boards with sides over 25 have the letters of SGF beside
them. Lines that aren't judged have no board. Status 1: a file was refused.
"""
import os
import sys

sys.path.insert(0, os.path.dirname(os.path.realpath(__file__)))  # with PYTHONSAFEPATH it isn't there
import tool

import goboard
import sgfsplit

STEP, EDGE, MARGIN, ACROSS = 24, 16, 42, 4  # pixels from line to line, from the outer line to the wood's edge and to the border; boards in a row
WOOD, INK, MARK = "#e8c77d", "#554433", "#c00000"
FILLS = {"B": "black", "W": "white"}


def hoshi(side):
    """The points that have a dot on a printed board."""
    if side < 7:
        return []
    edge = 2 if side < 13 else 3
    ends, middle = (edge, side - 1 - edge), [side // 2] if side % 2 else []
    corners = [(col, row) for col in ends for row in ends] + [(col, row) for col in middle for row in middle]
    return corners + [point for m in middle for end in ends for point in ((m, end), (end, m))] * (side >= 15)


def names(side):
    """The names of the columns from the left, and of the rows from the top."""
    if side <= len(goboard.COLUMNS):
        return goboard.COLUMNS[:side], [str(side - row) for row in range(side)]
    return goboard.LETTERS[:side], goboard.LETTERS[:side]


def at(index):
    """The coordinate in the picture of the column or row with this number, from 0."""
    return MARGIN + STEP * index


def grid(side):
    """The wood with its lines and dots, and the names of columns and rows."""
    first, last = at(0), at(side - 1)
    size = last - first + 2 * EDGE
    parts = [f'<rect x="{first - EDGE}" y="{first - EDGE}" width="{size}" height="{size}" fill="{WOOD}"/>']
    lines = "".join(f"M{first} {at(k)}H{last}M{at(k)} {first}V{last}" for k in range(side))
    parts.append(f'<path d="{lines}" stroke="{INK}" fill="none"/>')
    parts += [f'<circle class="dot" cx="{at(col)}" cy="{at(row)}" r="3" fill="{INK}"/>' for col, row in hoshi(side)]
    for k, (column, row) in enumerate(zip(*names(side))):
        parts.append(f'<text x="{at(k)}" y="{last + 32}">{column}</text><text x="{first - 30}" y="{at(k) + 4}">{row}</text>')
    return parts


def stones(line):
    """The stones, each with the number of its move."""
    parts = []
    for (col, row), colour in sorted(line.board.stones.items()):
        fill = FILLS[colour]
        parts.append(f'<circle class="{fill}" cx="{at(col)}" cy="{at(row)}" r="{STEP * 0.47:g}" fill="{fill}" stroke="black"/>')
        number = line.numbers.get((col, row))
        if number is not None:
            size = {1: 13, 2: 12, 3: 10}.get(len(str(number)), 8)
            parts.append(f'<text class="number" x="{at(col)}" y="{at(row) + size * 0.36:g}" font-size="{size}" '
                         f'fill="{FILLS["W" if colour == "B" else "B"]}">{number}</text>')
    return parts


def marks(line):
    """A cross on each point at which the illegal node plays."""
    values = [value for name, values in line.illegal or () if name in ("B", "W") for value in values]
    points = [goboard.point_of(value, line.board.side) for value in values if not goboard.is_pass(value, line.board.side)]
    return [f'<path class="illegal" d="M{at(col) - 7} {at(row) - 7}l14 14m0 -14l-14 14" stroke="{MARK}" stroke-width="4" fill="none"/>'
            for col, row in filter(None, points)]


def board(row, line, left, top):
    """Draws one board with its row, at this position in the picture. Returns the SVG elements, the width and the height."""
    last = at(line.board.side - 1)
    width = max(last + MARGIN, 7.2 * len(str(row)) + 20)
    parts = [f'<g class="board" data-place="{row.place}" transform="translate({left + (width - last - MARGIN) / 2:g} {top})">']
    parts += grid(line.board.side) + stones(line) + marks(line)
    parts += [f'<text class="row" x="{(at(0) + last) / 2:g}" y="{last + 56}" font-family="monospace">{row}</text>', "</g>"]
    return parts, width, last + 72


def picture(lines):
    """The SVG text of the boards of these lines. Each line is a pair: its row, and the line as played."""
    parts, left, top, height, width = [], 0, 0, 0, 0
    for number, (row, line) in enumerate(lines):
        if number % ACROSS == 0:
            left, top, height = 0, top + height, 0
        drawn, wide, high = board(row, line, left, top)
        parts += drawn
        left, height = left + wide, max(height, high)
        width = max(width, left)
    height += top
    head = f'<svg xmlns="http://www.w3.org/2000/svg" viewBox="0 0 {width:g} {height:g}" width="{width:g}" height="{height:g}" ' \
           'font-family="sans-serif" font-size="12" text-anchor="middle">'
    return "\n".join([head, '<rect width="100%" height="100%" fill="white"/>', *parts, "</svg>", ""])


def lines_of(name, place):
    """The row of each judged line of a file, and the line as played. If a place is given, only the line with that place."""
    text = sgfsplit.read(name)
    if place is None:
        return goboard.lines(text)
    before = None
    for row in sgfsplit.rows(text):
        if row.place == place:
            return goboard.lines(text, before, 1)
        before = row.place
    raise sgfsplit.Refused(f"{sgfsplit.shown(name)}: no line ends at {place}")


def drawn(name, place):
    """The SVG text of the boards of a file's lines, or of the line with this place."""
    lines = list(lines_of(name, place))
    if not lines:
        raise sgfsplit.Refused(f"{sgfsplit.shown(name)}: no board, since no line is judged")
    return picture(lines)


def main(job):
    place = job.options.get("--line")
    if place is not None:
        place = tool.number_of(place, 0, sgfsplit.LIMIT, "--line wants a place, the first number of a row")
    if "--out" in job.options:
        for name, folder in job.outputs(job.options["--out"], "", ".svg"):
            with job.going_on():
                for row, line in lines_of(name, place):
                    with sgfsplit.written(os.path.join(folder, f"{row.place}.svg")) as file:
                        file.write(picture([(row, line)]).encode())
    else:
        files = list(job.files())
        if len(files) != 1:
            raise tool.Words("one file at a time, or --out OUT")
        with job.going_on():
            sys.stdout.write(drawn(files[0], place))


if __name__ == "__main__":
    tool.start(main, USAGE, values=("--line", "--out"))
