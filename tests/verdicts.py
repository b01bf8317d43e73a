"""A small separate referee for the tests, which reads one game of setups and moves. It prints the row of each line in the list form. It refuses
a stone only if it repeats a colouring since the last setup: the games are such that there is no other reason.

  tests/verdicts.py < GAME
"""
import re
import sys

import referee

LETTERS = "abcdefghijklmnopqrstuvwxyzABCDEFGHIJKLMNOPQRSTUVWXYZ"
SETUPS = ["AE", "AB", "AW"]
PARTS = re.compile(r"([();])|([A-Z]+)((?:\[[^]]*\])+)")


def places(side, value):
    """The places of a point, of a rectangle, or of a pass."""
    if not value:
        return []
    cols, rows = [range(LETTERS.index(low), LETTERS.index(high) + 1) for low, high in zip(value[:2], value[-2:])]
    return [row * side + col for row in rows for col in cols]


def shut_group(beside, board, start):
    """The group of a stone, if it has no liberty; nothing if it has one."""
    seen, waiting = {start}, [start]
    while waiting:
        for place in beside[waiting.pop()]:
            if not board[place]:
                return []
            if board[place] == board[start] and place not in seen:
                seen.add(place)
                waiting.append(place)
    return seen


def play(beside, board, colour, place):
    """Puts a stone, and takes off first the opponent's stones without liberties, then the player's own."""
    assert not board[place], place
    board[place] = colour
    for start in [near for near in beside[place] if board[near] == 3 - colour] + [place]:
        if board[start]:
            for taken in shut_group(beside, board, start):
                board[taken] = 0


class Line:
    """A line of nodes: its last board, the colourings since the last setup, and the verdict if a stone was refused."""

    def __init__(self, side):
        self.board, self.past, self.turns, self.nodes, self.verdict = bytearray(side * side), {bytes(side * side)}, 0, 0, None

    def copy(self):
        other = Line(0)
        other.board, other.past, other.turns, other.nodes, other.verdict = bytearray(self.board), set(self.past), self.turns, self.nodes, self.verdict
        return other

    def set_up(self, name, found):
        for place in found:
            self.board[place] = SETUPS.index(name)
        self.past = {bytes(self.board)}

    def take_turn(self, beside, name, found, node):
        self.turns += 1
        if found:
            play(beside, self.board, "BW".index(name) + 1, found[0])
            if bytes(self.board) in self.past:
                self.verdict = f"illegal {self.turns} {node} repeat"
            self.past.add(bytes(self.board))

    def row(self, side, node):
        stones = {(place % side, place // side): "BW"[cell - 1] for place, cell in enumerate(self.board) if cell}
        black, white = (0, 0) if self.verdict else referee.score(side, stones)
        return f"{node} 1 {self.nodes} {self.verdict or f'score {black} {white} open'}"


def rows(text):
    side = int(re.search(r"SZ\[(\d+)\]", text)[1])
    beside = [[row * side + col for col, row in referee.beside(side, (place % side, place // side))] for place in range(side * side)]
    lines, node, after = [Line(side)], 0, ""
    for part in PARTS.finditer(text):
        mark, name, values = part.groups()
        if mark == "(":
            lines.append(lines[-1].copy())
        elif mark == ")":
            ended = lines.pop()
            if after != ")":
                yield ended.row(side, node)
        elif mark == ";":
            node = part.start()
            lines[-1].nodes += 1
        elif name in SETUPS + ["B", "W"] and not lines[-1].verdict:
            for value in re.findall(r"\[([^]]*)\]", values):
                if name in SETUPS:
                    lines[-1].set_up(name, places(side, value))
                else:
                    lines[-1].take_turn(beside, name, places(side, value), node)
        after = mark


if __name__ == "__main__":
    print("\n".join(rows(sys.stdin.read())))
