#!/usr/bin/env python3
"""Draws the figures of docs/: docs/figures/draw.py writes them beside itself."""
import os

HERE = os.path.dirname(os.path.abspath(__file__))
LETTERS = "ABCDEFGHJKLMNOPQRSTUVWXYZ"
STEP = 34


def svg(width, height, parts):
    return "\n".join([f'<svg xmlns="http://www.w3.org/2000/svg" viewBox="0 0 {width} {height}" width="{width}" height="{height}" '
                      'font-family="sans-serif" font-size="13">',
                      f'<rect width="{width}" height="{height}" fill="white"/>'] + parts + ["</svg>", ""])


def write(name, text):
    with open(os.path.join(HERE, name), "w", encoding="utf-8") as file:
        file.write(text)


def board(left, rows, title, below=()):
    """A board by its rows. X is black, O is white and . is empty; b and w are empty points of that player's area. A digit or ! is a mark on an
    empty point. C and D are marks on a black and a white stone that was just played."""
    side = len(rows)
    size = STEP * side
    top = 40
    at = lambda k: k * STEP + STEP / 2
    parts = [f'<text x="{left + size / 2}" y="20" text-anchor="middle" font-weight="bold">{title}</text>',
             f'<rect x="{left}" y="{top}" width="{size}" height="{size}" fill="#e8c77d"/>']
    for k in range(side):
        parts.append(f'<path d="M{left + at(0)} {top + at(k)}H{left + at(side - 1)}M{left + at(k)} {top + at(0)}V{top + at(side - 1)}" stroke="#553"/>')
        parts.append(f'<text x="{left - 8}" y="{top + at(k) + 5}" text-anchor="end">{side - k}</text>')
        parts.append(f'<text x="{left + at(k)}" y="{top + size + 16}" text-anchor="middle">{LETTERS[k]}</text>')
    for row, cells in enumerate(rows):
        for col, cell in enumerate(cells):
            x, y = left + at(col), top + at(row)
            if cell in "XOCD":
                fill = "black" if cell in "XC" else "white"
                parts.append(f'<circle cx="{x}" cy="{y}" r="14" fill="{fill}" stroke="black"/>')
                if cell in "CD":
                    parts.append(f'<circle cx="{x}" cy="{y}" r="5" fill="none" stroke="{"white" if cell == "C" else "black"}" stroke-width="2"/>')
            elif cell in "bw":
                fill = "black" if cell == "b" else "white"
                parts.append(f'<rect x="{x - 5}" y="{y - 5}" width="10" height="10" fill="{fill}" stroke="black"/>')
            elif cell != ".":
                parts.append(f'<circle cx="{x}" cy="{y}" r="10" fill="#e8c77d"/><text x="{x}" y="{y + 5}" text-anchor="middle" fill="#b00" font-weight="bold">{cell}</text>')
    for number, line in enumerate(below):
        parts.append(f'<text x="{left + size / 2}" y="{top + size + 38 + 17 * number}" text-anchor="middle">{line}</text>')
    return parts


def boards(name, *each):
    """Boards side by side: rows, title, lines below."""
    left, parts = 40, []
    for rows, title, below in each:
        width = max(STEP * len(rows), 240)
        parts += board(left + (width - STEP * len(rows)) / 2, rows, title, below)
        left += width + 45
    height = max(STEP * len(rows) + 17 * len(below) for rows, _, below in each) + 85
    write(name, svg(left - 15, height, parts))


def tree(name, nodes, edges, lines, width, height, below):
    """A tree of nodes (x, y, text), and its lines of play. Each line is a colour with the nodes that it goes through."""
    parts = []
    for number, (colour, path) in enumerate(lines):
        shift = 5 * number - 2.5 * (len(lines) - 1)
        points = " ".join(f"{nodes[n][0] + shift},{nodes[n][1]}" for n in path)
        parts.append(f'<polyline points="{points}" fill="none" stroke="{colour}" stroke-width="4" stroke-linejoin="round"/>')
    assert all((a, b) in edges for _, path in lines for a, b in zip(path, path[1:]))
    for x, y, text in nodes:
        half = 4.2 * len(text) + 12
        parts.append(f'<rect x="{x - half}" y="{y - 14}" width="{2 * half}" height="28" rx="8" fill="white" stroke="black"/>'
                     f'<text x="{x}" y="{y + 5}" text-anchor="middle" font-family="monospace">{text}</text>')
    y = height - 18 * len(below) + 4
    for (colour, _), text in zip(lines, below):
        parts.append(f'<path d="M20 {y - 4}h26" stroke="{colour}" stroke-width="4"/><text x="56" y="{y}" font-family="monospace" xml:space="preserve">{text}</text>')
        y += 18
    write(name, svg(width, height, parts))


def main():
    tree("lines.svg",
         [(230, 30, ";SZ[3]"), (110, 100, ";B[aa]"), (350, 100, ";B[bb]"), (350, 170, ";W[aa]")],
         {(0, 1), (0, 2), (2, 3)},
         [("#1f77b4", [0, 1]), ("#d62728", [0, 2, 3])], 460, 250,
         ["(;SZ[3];B[aa])           8 1 2 score 9 0 open", "(;SZ[3];B[bb];W[aa])    22 1 3 score 1 1 open"])
    boards("ko.svg",
           ([".XO.", "XO.O", ".XO.", "...."], "the setup", ["AB[ba][ab][bc]", "AW[ca][db][cc][bb]"]),
           ([".XO.", "X.CO", ".XO.", "...."], "Black takes", ["B[cb]: the white stone at B3", "has no liberty left"]),
           ([".XO.", "X!XO", ".XO.", "...."], "White may not retake", ["W[bb] would make the", "setup again: illegal 2 .. repeat"]),
           ([".XO.", "XD.O", ".XO.", "O..X"], "later she may", ["W[ad], B[dd], W[bb]: two stones", "are new, so nothing repeats"]))
    boards("setup.svg",
           (["XO.", "O..", "..."], "a setup clears nothing", ["AB[aa]AW[ba][ab]: the black stone", "reaches no empty point, and stands"]),
           (["wO.", "O..", "..C"], "the first move does", ["B[cc] far away: the whole grid is", "cleared, and A3 reaches White alone"]))
    boards("suicide.svg",
           (["X.O", "OO.", "..."], "before", ["AB[aa]AW[ab][bb][ca]PL[B]"]),
           (["wwO", "OOw", "www"], "Black plays B3", ["two stones without a liberty go:", "legal, score 0 9"]))
    boards("score.svg",
           (["O..", ".X.", "..."], "nobody's", ["the empty points reach", "both colours: score 1 1"]),
           (["bXO", "bXO", "bXO"], "Black's", ["those at A reach", "Black alone: score 6 3"]))


main()
