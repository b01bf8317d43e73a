"""SGF nodes and Go for the tools: nodes with their values, points, and boards.

    import goboard
    for row, line in goboard.lines("game.sgf"):
        print(row.place, len(line.moves), line.board.stones)

A point is (column, row), both counted from 0 in the upper left corner. A colour is "B" or "W". A pass is None. Use these functions only
for texts that the program has accepted.

The program judges. It says where the first illegal node of a line begins, and which stones stand at the line's end: a node is appended that
takes off all stones but one, and the score then says whether that one stands and whose it is. So a game that is made to slow a referee down
doesn't slow these functions down. Board.play captures too, for replay.py, which has a second opinion on small boards.
"""
import functools
import itertools
import re
from typing import NamedTuple, Optional

import sgfsplit

LETTERS = "abcdefghijklmnopqrstuvwxyzABCDEFGHIJKLMNOPQRSTUVWXYZ"
COLUMNS = "ABCDEFGHJKLMNOPQRSTUVWXYZ"
OUTSIDE = re.compile(rb"[;()\[]|[A-Za-z]+")
PARENTHESES = re.compile(rb"[()\[]")
SETUPS = {b"AB": "B", b"AW": "W", b"AE": None}
MOVES = {b"B": "B", b"W": "W"}
BATCH = 1 << 20  # the program is asked about records together, as long as they have no more bytes
MISSING = [None] * 6  # the words of a row that isn't there
QUESTION = 40  # no question about a point has more bytes


def tokens(text, at=0, pattern=OUTSIDE):
    """From `at` on, the (begin, end) of each value with its brackets, and of each match of the pattern outside values. A value that is never
    closed goes to the end of the text."""
    while found := pattern.search(text, at):
        begin, at = found.span()
        if text[begin] == 91:  # an opening bracket
            at = sgfsplit.end_of_value(text, at)
            at = len(text) if at < 0 else at
        yield begin, at


def nodes(text, at=0):
    """Each node from `at` on, as a list of its properties (name, values). Values are bytes of the text. Names have only their capitals."""
    node = None
    for begin, end in tokens(text, at):
        token = text[begin:end]
        if token in b";()":
            if node is not None:
                yield node
            node = [] if token == b";" else None
        elif token.startswith(b"["):
            node[-1][1].append(token[1:-1])
        else:
            node.append((capitals(token).decode(), []))


def capitals(token):
    """The name of a property, without small letters, which have no meaning."""
    return re.sub(rb"[a-z]+", b"", token)


def turns_and_setups(record, end):
    """The (node, name, value) of each move and each setup of stones in a record of the sgf form, up to the offset `end`. A node is named by
    its offset."""
    node = name = None
    for begin, after in tokens(record):
        if begin >= end:
            break
        if record[begin] == 59:  # a semicolon
            node = begin
        elif record[begin] != 91:
            name = capitals(record[begin:after])
        elif name in MOVES or name in SETUPS:
            yield node, name, record[begin + 1:after - 1]


def side_of(record):
    """The side of the board of a record of the sgf form."""
    name = None
    for begin, after in tokens(record, len(b"(;")):
        token = record[begin:after]
        if token in b";()":
            break
        if not token.startswith(b"["):
            name = capitals(token)
        elif name == b"SZ":
            return int(token[1:-1])
    return 19


def point_of(value, side):
    """The point of the board that a value names, or None."""
    if len(value) != 2:
        return None
    col, row = (LETTERS.find(chr(letter)) for letter in value)
    return (col, row) if 0 <= col < side and 0 <= row < side else None


def corners_of(value, side):
    """The upper left and the lower right point of the rectangle that a value names, which may be a single point."""
    first, colon, last = value.partition(b":")
    return point_of(first, side), point_of(last if colon else first, side)


@functools.lru_cache(maxsize=1024)  # a game that sets up stones again and again names few rectangles
def bits_of(value, side):
    """The points of a rectangle as a row of bits: the bit `row * side + col` for each."""
    (left, top), (right, bottom) = corners_of(value, side)
    row = (1 << right - left + 1) - 1 << left
    return sum(row << side * number for number in range(top, bottom + 1))


def points_in(bits, side):
    """The points of a row of bits."""
    while bits:
        lowest = bits & -bits
        yield divmod(lowest.bit_length() - 1, side)[::-1]
        bits ^= lowest


def is_pass(value, side):
    return value == b"" or value == b"tt" and side <= 19


def move_of(name, value, side):
    """The (colour, point) of a move."""
    return MOVES[name], None if is_pass(value, side) else point_of(value, side)


def vertex_of(point, side):
    """The point as Go players write it, such as C7; `pass` for None. On sides over 25, which have no such names, the point's two SGF letters."""
    if point is None:
        return "pass"
    col, row = point
    return f"{COLUMNS[col]}{side - row}" if side <= len(COLUMNS) else LETTERS[col] + LETTERS[row]


def point_at(vertex, side):
    """The point of a vertex such as C7."""
    return COLUMNS.index(vertex[0].upper()), side - int(vertex[1:])


class Board:
    """A square board with its stones by point. `put` captures nothing, so the next stone that is played captures what `put` has shut in."""

    def __init__(self, side):
        self.side, self.stones, self.changed = side, {}, set()

    def beside(self, point):
        col, row = point
        return [(c, r) for c, r in ((col - 1, row), (col + 1, row), (col, row - 1), (col, row + 1))
                if 0 <= c < self.side and 0 <= r < self.side]

    def region(self, point):
        """The points of the group or empty region of this point, and the other colours beside them (None means empty)."""
        own = self.stones.get(point)
        seen, waiting, borders = {point}, [point], set()
        while waiting:
            for near in self.beside(waiting.pop()):
                if self.stones.get(near) != own:
                    borders.add(self.stones.get(near))
                elif near not in seen:
                    seen.add(near)
                    waiting.append(near)
        return seen, borders

    def clear(self, colour, around):
        """Removes each group of a colour that has no liberty, and has a stone on one of the points `around`."""
        alive = set()
        for point in around:
            if self.stones.get(point) == colour and point not in alive:
                group, borders = self.region(point)
                if None in borders:
                    alive |= group
                else:
                    for dead in group:
                        del self.stones[dead]

    def play(self, colour, point):
        """Plays a stone on an empty point, or passes."""
        if point is None:
            return
        self.stones[point] = colour
        around = {point, *self.changed}
        around.update([near for changed in around for near in self.beside(changed)])
        self.changed = set()
        self.clear("W" if colour == "B" else "B", around)
        self.clear(colour, around)

    def put(self, points, colour):
        """Sets up stones of a colour, or empties the points if the colour is None."""
        for point in points:
            if self.stones.get(point) != colour:
                self.changed.add(point)
                self.stones.pop(point, None)
                if colour is not None:
                    self.stones[point] = colour

    def area(self):
        """Black's points and White's. A player's points are her stones, and the empty points that reach only her stones."""
        counts = {"B": 0, "W": 0}
        for colour in self.stones.values():
            counts[colour] += 1
        seen = set()
        for point in ((col, row) for row in range(self.side) for col in range(self.side)):
            if point not in self.stones and point not in seen:
                region, borders = self.region(point)
                seen |= region
                if len(borders) == 1 and None not in borders:
                    counts[borders.pop()] += len(region)
        return counts["B"], counts["W"]


class Line(NamedTuple):
    """A line of play up to its end or its first illegal node."""
    record: bytes  # in the sgf form, the whole line
    end: int  # the offset in the record at which the legal nodes end
    board: Board
    numbers: dict  # by point, the number from 1 of the move whose stone stands there

    @property
    def moves(self):
        """The (colour, point) of each legal move."""
        side = self.board.side
        return [move_of(name, value, side) for _, name, value in turns_and_setups(self.record, self.end) if name in MOVES]

    @property
    def illegal(self):
        """The properties of the illegal node, or None."""
        return next(nodes(self.record, self.end), None)


def records(file, *forms, after=None, limit=None):
    """The row of each line of a file, its record in the sgf form, the offset in that record at which the legal nodes end, and its records in
    other forms."""
    text = sgfsplit.text_of(file)
    batch, size = [], 0
    for row, record, *others in sgfsplit.rows_with(text, "sgf", *forms, after=after, limit=limit):
        if size + len(record) > BATCH:
            yield from with_ends(text, batch)
            batch, size = [], 0
        batch.append((row, record, *others))
        size += len(record)
    yield from with_ends(text, batch)


def with_ends(text, batch):
    """The lines of a batch, each with the offset at which its legal nodes end. The program says where an illegal node of the record is."""
    asked = b"".join(record for row, record, *others in batch if row.verdict == "illegal")
    answers = sgfsplit.rows(sgfsplit.Text(text.name, asked.rstrip(b"\n"))) if asked else iter(())
    begin = 0
    for row, record, *others in batch:
        end = len(record) - len(b")\n")
        if row.verdict == "illegal":
            end = agreed(text, row, next(answers, None)).fault - begin
            begin += len(record)
        yield (row, record, end, *others)


def agreed(text, row, answer):
    """The program's row of a record, if it is the row of the same line in the text but for the places."""
    if answer is None or (answer.nodes, answer.turn, answer.reason) != (row.nodes, row.turn, row.reason):
        raise sgfsplit.Failed(f"{sgfsplit.shown(text.name)}: the program judges the record of the line at {row.place} in another way")
    return answer


def lines(file, after=None, limit=None):
    """The row and the Line of each judged line of a file."""
    text = sgfsplit.text_of(file)
    batch, size = [], 0
    for row, record, end in records(text, after=after, limit=limit):
        if row.verdict == "unjudged":
            continue
        side = side_of(record)
        held, numbers = last_played(record, end, side)
        points = list(points_in(held, side))
        more = len(record) + QUESTION * len(points)
        if more > sgfsplit.LIMIT:
            raise sgfsplit.Refused(f"{sgfsplit.shown(text.name)}: the line at {row.place} is too long for a board")
        if size + more > BATCH:
            yield from with_boards(text, batch)
            batch, size = [], 0
        batch.append((row, record, end, side, points, numbers))
        size += more
    yield from with_boards(text, batch)


def last_played(record, end, side):
    """The points on which a move or a setup has put a stone last, as a row of bits. And for those on which it was a move, its number."""
    held, played, numbers, count = 0, 0, {}, 0
    for _, name, value in turns_and_setups(record, end):
        if name in SETUPS:
            bits = bits_of(value, side)
            held, played = held & ~bits if name == b"AE" else held | bits, played & ~bits
        else:
            count += 1
            _, point = move_of(name, value, side)
            if point is not None:
                col, row = point
                bit = 1 << row * side + col
                held, played, numbers[point] = held | bit, played | bit, count
    return held, {point: numbers[point] for point in points_in(played, side)}


@functools.lru_cache(maxsize=4096)
def question(point, side):
    """A variation that takes off all stones but that on one point."""
    col, row = point
    last = side - 1
    around = [(0, 0, last, row - 1)] * (row > 0) + [(0, row, col - 1, row)] * (col > 0)
    around += [(col + 1, row, last, row)] * (col < last) + [(0, row + 1, last, last)] * (row < last)
    values = "".join(f"[{LETTERS[a]}{LETTERS[b]}:{LETTERS[c]}{LETTERS[d]}]" for a, b, c, d in around)
    return f"(;AE{values})".encode() if values else b"(;)"


def with_boards(text, batch):
    """The row and the Line of each line of a batch. The program says which of the points, on which a stone was put last, have one at the end."""
    asked = b"".join(record[:end] + b"".join([question(point, side) for point in points]) + b")"
                     for row, record, end, side, points, numbers in batch if points)
    answers = sgfsplit.lines(sgfsplit.Text(text.name, asked)) if asked else iter(())
    for row, record, end, side, points, numbers in batch:
        board = Board(side)
        for point in points:
            _, _, _, verdict, black, white, *_ = next(answers, b"").split() + MISSING
            if verdict != b"score":
                raise sgfsplit.Failed(f"{sgfsplit.shown(text.name)}: the program doesn't say which stones stand after the line at {row.place}")
            if (black, white) != (b"0", b"0"):
                board.stones[point] = "B" if white == b"0" else "W"
        yield row, Line(record, end, board, {point: number for point, number in numbers.items() if point in board.stones})


def played(record, end):
    """The board at which the legal nodes of a record end, as this module captures."""
    for board, _ in boards(record, end):
        pass
    return board


def boards(record, end):
    """The board after each legal node of a record that has moves or sets up stones, and whether it sets up stones. It is one board, which
    changes from node to node."""
    board = Board(side_of(record))
    yield board, False
    for _, values in itertools.groupby(turns_and_setups(record, end), key=lambda turn: turn[0]):
        for _, name, value in values:
            if name in SETUPS:
                board.put(points_in(bits_of(value, board.side), board.side), SETUPS[name])
            else:
                board.play(*move_of(name, value, board.side))
        yield board, name in SETUPS
