"""A small separate referee for the tests, which reads the bytes of scripts. Each stone must be played on an empty point. The area score of
the last board must be the score in the script's row, if the row has one.

  tests/referee.py < SCRIPTS        prints how many positions were compared
"""
import sys

COLUMNS = "ABCDEFGHJKLMNOPQRSTUVWXYZ"


def beside(side, point):
    col, row = point
    return [(c, r) for c, r in ((col - 1, row), (col + 1, row), (col, row - 1), (col, row + 1)) if 0 <= c < side and 0 <= r < side]


def region(side, board, start):
    """The connected points of one colour, and the colours beside them."""
    colour = board.get(start)
    seen, waiting, borders = {start}, [start], set()
    while waiting:
        for point in beside(side, waiting.pop()):
            if board.get(point) != colour:
                borders.add(board.get(point))
            elif point not in seen:
                seen.add(point)
                waiting.append(point)
    return seen, borders


def clear(side, board, colour):
    dead = set()
    for point in list(board):
        if board[point] == colour and point not in dead:
            group, borders = region(side, board, point)
            if None not in borders:
                dead |= group
    for point in dead:
        del board[point]


def score(side, board):
    area = {"B": 0, "W": 0}
    for point in ((c, r) for c in range(side) for r in range(side)):
        if point in board:
            area[board[point]] += 1
        else:
            borders = region(side, board, point)[1]
            if len(borders) == 1:
                area[borders.pop()] += 1
    return area["B"], area["W"]


def scripts(text):
    """The lines of each script of a text in the gtp form."""
    return [script.split("\n") for script in text.decode("latin-1").split("\n\n")[:-1]]


def replay(script):
    """The row of a script, its side and its last board. Side and board are None if it has no commands."""
    row, side, board = script[0][2:].split(), None, {}
    for line in script:
        words = line.split("#")[0].split()
        if words[:1] == ["boardsize"]:
            side = int(words[1])
        elif words == ["clear_board"]:
            board = {}
        elif words[:1] == ["play"] and words[2] != "pass":
            point = COLUMNS.index(words[2][0]), side - int(words[2][1:])
            assert point not in board, line
            board[point] = words[1]
            clear(side, board, "W" if words[1] == "B" else "B")
            clear(side, board, words[1])
    if side is None:
        return row, None, None
    if row[3] == "score":
        assert score(side, board) == (int(row[4]), int(row[5])), (row, score(side, board))
    return row, side, board


if __name__ == "__main__":
    boards = [replay(script) for script in scripts(sys.stdin.buffer.read())]
    print(f"{sum(1 for row, side, _ in boards if side is not None and row[3] == 'score')} positions compared")
