"""The lines of play of a Go game with variations (Smart Game Format, FF[4]), split and judged in this process.

    >>> import sgflines
    >>> for row in sgflines.rows(b"(;SZ[3](;B[aa])(;B[bb];W[aa]))"):
    ...     print(row)
    Row(place=8, game=1, nodes=2, verdict=Score(black=9, white=0, over=False))
    Row(place=22, game=1, nodes=3, verdict=Score(black=1, white=1, over=False))
    >>> sgflines.count(b"(;SZ[3](;B[aa])(;B[bb];W[aa]))")
    Counts(games=1, nodes=4, lines=2)
    >>> sgflines.judge(b"(;SZ[3](;B[aa])(;B[bb];W[aa]))", 22)
    Score(black=1, white=1, over=False)
    >>> next(sgflines.iter_rows(b"(;SZ[3](;B[aa])(;B[bb];W[aa]))", after=8)).place
    22
    >>> sgflines.rows(b"(;SZ[3]")
    Traceback (most recent call last):
    sgflines.EndsEarly: byte 7: input ends too early

docs/OUTPUT.md of sgfsplit explains the numbers. The module needs Python 3.9 or later.

Texts: a text is bytes, or any other object that lends its bytes (a bytearray, a memoryview, an mmap, a subclass of bytes). bytes are
read where they lie, since nothing can change them. Any other text is copied once when the call begins; 64 MiB take some 10 to 50
milliseconds. The call then keeps no hold of the object: it can be changed, resized or closed, also after a fault. A str is refused,
because places are offsets in bytes.

Numbers: `after`, `limit` and `place` are ints from 0 to 2**64 - 1, or of another type that Python takes for an int, such as numpy's. A
bool is refused. A wrong type raises TypeError. A number out of this range, and an unknown form, raise ValueError.

Faults: a text that is refused, and a place that no line has, raise a Fault; its class says which. Refused memory raises MemoryError.
Faults, rows and verdicts can be copied and pickled, so they come whole out of another process.

Memory: while a call works, it keeps 20 bytes for each game and variation of its text, but `count` keeps none. `judge` also takes memory
for the nodes of its line. `output` also takes some three times as many bytes as it returns or, if that is more, as its text has. `records`
then holds the output and the records, each of which takes some 50 bytes besides its own. `rows` makes some 220 bytes for each row.
`iter_rows` holds only a page of rows. That takes at most some four times as many bytes as its text has, however many rows there are.

Threads: any number of threads may call at once, also on the same text. The library does the work without the interpreter's lock, so
they split at the same time. Other threads may write to a text during a call: what they write after the copy has no effect.

Processes: the module keeps nothing between two calls, but what `iter_rows` returns keeps its text or the copy of it. A child process may
call the module, whether it was spawned or forked. But don't fork a process while another thread of it is in a call: memory may then be
locked in the child for good. (This is so for most modules.)

The library: libsgflines.so.0 does the work. The variable SGFLINES names the file to load, seen from the current folder. Without it, the
library of this module's own installation is loaded, or of the checkout that the module stands in (in `out/`), or the one beside the module,
or else the system's. If all users may write to a library or to its folder, it isn't loaded, unless SGFLINES names it or the system finds
it. If a link leads to the library, that holds for the folder of the link and for the one where the file really stands. If no library can
be loaded, or it lacks our functions, the import raises ImportError.

Types: all is annotated, for mypy and other checkers. Form and Reason are the words of the forms and of the reasons. Verdict is a union of
four classes, which `match` and `isinstance` tell apart.
"""
from __future__ import annotations

import ctypes
import io
import operator
import os
import re
import stat
import sys
from collections import namedtuple
from collections.abc import Iterator
from typing import TYPE_CHECKING, Any, Callable, Literal, NamedTuple, NoReturn, Optional, SupportsIndex, Union, cast

if TYPE_CHECKING:
    from _typeshed import ReadableBuffer as _Text
elif sys.version_info >= (3, 12):
    from collections.abc import Buffer as _Text
else:
    _Text = Any  # before Python 3.12 no type says that an object lends its bytes

__all__ = ["BadSize", "Counts", "EndsEarly", "Fault", "Form", "Illegal", "NoSuchLine", "NotGo", "NotSgf", "Reason", "Row", "Score",
           "TooLong", "Verdict", "count", "iter_rows", "judge", "output", "records", "rows"]

Form = Literal["list", "sgf", "gtp"]
Reason = Literal["mixed", "two-moves", "bad-setup", "bad-point", "over", "turn", "occupied", "repeat"]

LIBRARY = "libsgflines.so.0"
INSTALLED: Optional[str] = None  # the library's folder, as seen from this file's folder; `make install` and `make wheel` write it here
MAX_LENGTH = 67108864
FORMS: dict[Form, int] = {"list": 0, "sgf": 1, "gtp": 2}
DONE, NOT_SGF, ENDS_EARLY, TOO_LONG, NO_SUCH_LINE, UNKNOWN_FORM, ROOM_TOO_SMALL, OUT_OF_MEMORY = range(8)
NO_VERDICT, SCORE, ILLEGAL, NOT_GO, BAD_SIZE = range(5)
REASONS = ["", "mixed", "two-moves", "bad-setup", "bad-point", "over", "turn", "occupied", "repeat"]


class Counts(NamedTuple):
    """The numbers of games, nodes and lines of play of a collection."""

    games: int
    nodes: int
    lines: int


class Score(NamedTuple):
    """Each player's area at the end of a line, and whether two passes in a row ended the game."""

    black: int
    white: int
    over: bool


class Illegal(NamedTuple):
    """The first illegal node of a line. `turn` is 1 plus the number of turns before it; docs/RULES.md has the reasons."""

    turn: int
    place: int
    reason: Reason


class _Unjudged(namedtuple("_Unjudged", "")):
    """A verdict without numbers. An empty tuple would be false, and equal to every other one."""

    __slots__ = ()

    def __bool__(self) -> Literal[True]:
        return True

    def __eq__(self, other: object) -> bool:
        if not isinstance(other, tuple):
            return NotImplemented
        return type(self) is type(other)

    def __ne__(self, other: object) -> bool:
        if not isinstance(other, tuple):
            return NotImplemented
        return type(self) is not type(other)

    def __hash__(self) -> int:
        return hash(type(self))


class NotGo(_Unjudged):
    """The game isn't Go, so its lines aren't judged."""

    __slots__ = ()


class BadSize(_Unjudged):
    """The board isn't a square of 1 to 52 points a side, so the game's lines aren't judged."""

    __slots__ = ()


Verdict = Union[Score, Illegal, NotGo, BadSize]


class Row(NamedTuple):
    """A line of play. `place` is the offset of the `;` of its last node, `game` the number of its game, from 1, and `nodes` the
    number of its nodes. `verdict` is a Score, an Illegal, NotGo() or BadSize()."""

    place: int
    game: int
    nodes: int
    verdict: Verdict


class Fault(ValueError):
    """A text is refused, or no line has the place that was asked for. Refused memory raises MemoryError instead."""


class NotSgf(Fault):
    """The text isn't SGF. `at` is the offset of the first faulty byte, from 0."""

    def __init__(self, at: int) -> None:
        super().__init__(at)
        self.at = at

    def __str__(self) -> str:
        return f"byte {self.at}: not SGF"


class EndsEarly(NotSgf):
    """The text ends too early; `at` is its length."""

    def __str__(self) -> str:
        return f"byte {self.at}: input ends too early"


class TooLong(Fault):
    """The text has more than 67,108,864 bytes."""

    def __init__(self) -> None:
        super().__init__()

    def __str__(self) -> str:
        return f"input is longer than {MAX_LENGTH} bytes"


class NoSuchLine(Fault):
    """No line ends at `place`."""

    def __init__(self, place: int) -> None:
        super().__init__(place)
        self.place = place

    def __str__(self) -> str:
        return f"no line ends at {self.place}"


class _Asked(ctypes.Structure):
    _fields_ = [("form", ctypes.c_uint32), ("has_after", ctypes.c_bool), ("has_limit", ctypes.c_bool), ("after", ctypes.c_uint64),
                ("limit", ctypes.c_uint64)]


class _Answer(ctypes.Structure):
    _fields_ = [("lines", ctypes.c_uint64), ("bytes", ctypes.c_uint64), ("at", ctypes.c_uint64)]


class _Counts(ctypes.Structure):
    _fields_ = [("games", ctypes.c_uint64), ("nodes", ctypes.c_uint64), ("lines", ctypes.c_uint64), ("at", ctypes.c_uint64)]


class _Judged(ctypes.Structure):
    _fields_ = [("verdict", ctypes.c_uint32), ("reason", ctypes.c_uint32), ("black", ctypes.c_uint32), ("white", ctypes.c_uint32),
                ("turn", ctypes.c_uint64), ("place", ctypes.c_uint64), ("at", ctypes.c_uint64), ("over", ctypes.c_bool)]


def _all_may_write(path: str) -> bool:
    """Whether every user may write to a file or folder, so that anybody may have put a library there."""
    return bool(os.stat(path).st_mode & stat.S_IWOTH)


def _may_be_planted(path: str) -> bool:
    """Whether every user may write to a library or its folder. If the path is a link, the folder that it leads to counts as well."""
    while not _all_may_write(os.path.dirname(path)):
        if not os.path.islink(path):
            return _all_may_write(path)
        path = os.path.join(os.path.dirname(path), os.readlink(path))
    return True


def _near() -> Optional[str]:
    """The library of this module's own installation or checkout, or the one beside the module; None if there is none."""
    here = os.path.dirname(os.path.realpath(__file__))
    top = os.path.dirname(here)
    folders = [here]
    if INSTALLED is not None:
        folders.insert(0, os.path.normpath(os.path.join(here, INSTALLED)))
    elif os.path.exists(os.path.join(top, "include", "sgf_lines.h")) and not _all_may_write(top):
        folders.insert(0, os.path.join(top, "out"))
    for folder in folders:
        path = os.path.join(folder, LIBRARY)
        if os.path.exists(path) and not _may_be_planted(path):
            return path
    return None


def _library() -> ctypes.CDLL:
    """Loads the library, and sets the types of its functions."""
    named = os.environ.get("SGFLINES")
    path = os.path.abspath(named) if named else _near() or LIBRARY
    size, pointer = ctypes.c_size_t, ctypes.c_void_p
    arguments = {"sgf_lines_split": [pointer, size, ctypes.POINTER(_Asked), pointer, size, ctypes.POINTER(_Answer)],
                 "sgf_lines_count": [pointer, size, ctypes.POINTER(_Counts)],
                 "sgf_lines_judge": [pointer, size, ctypes.c_uint64, ctypes.POINTER(_Judged)]}
    try:
        library = ctypes.CDLL(path)
    except OSError as error:
        raise ImportError(f"{error} (the module's own text says where it is looked for; `make lib` builds it)", path=path) from None
    for name, types in arguments.items():
        if not hasattr(library, name):
            raise ImportError(f"{path} isn't the library of sgflines, or too old: it has no function {name}", path=path)
        getattr(library, name).argtypes = types
        getattr(library, name).restype = ctypes.c_uint32
    return library


_LIBRARY = _library()


def _fixed(text: _Text) -> bytes:
    """The bytes of a text, as an object that nothing can change while the library reads it. Only bytes of that very type are such an
    object: others can be written to, or lend bytes that aren't their own."""
    if type(text) is bytes:
        return text
    if isinstance(text, str):
        raise TypeError("a text is bytes, not str: its places are offsets in bytes")
    try:
        view = memoryview(text)
    except TypeError:
        raise TypeError(f"a text is bytes, or lends its bytes, unlike {type(text).__name__}") from None
    with view:
        if view.nbytes > MAX_LENGTH:
            raise TooLong()
        return view.tobytes()


def _number(name: str, number: SupportsIndex) -> int:
    """Returns the number as an int. Raises TypeError if it is none, and ValueError if it isn't from 0 to 2**64 - 1."""
    try:
        if isinstance(number, bool):
            raise TypeError
        whole = operator.index(number)
    except TypeError:
        raise TypeError(f"{name} is an int, not {type(number).__name__}") from None
    if not 0 <= whole < 1 << 64:
        raise ValueError(f"{name} is a number from 0 to 2**64 - 1")
    return whole


def _option(name: str, number: Optional[SupportsIndex]) -> tuple[bool, int]:
    """Returns whether an option is given, and its number, which is 0 if it isn't."""
    return (False, 0) if number is None else (True, _number(name, number))


def _form(form: Form) -> int:
    """Returns the number of a form. Raises TypeError if it isn't a word, and ValueError if no form has this word."""
    if not isinstance(form, str):
        raise TypeError(f"form is a str, not {type(form).__name__}")
    if form not in FORMS:
        raise ValueError(f"form is one of {', '.join(FORMS)}")
    return FORMS[form]


def _refuse(status: int, at: int) -> NoReturn:
    """Raises the exception for a status."""
    if status == NOT_SGF:
        raise NotSgf(at)
    if status == ENDS_EARLY:
        raise EndsEarly(at)
    if status == TOO_LONG:
        raise TooLong()
    if status == NO_SUCH_LINE:
        raise NoSuchLine(at)
    raise MemoryError


_ROW = 64  # no row of the list form has more bytes


def _split(text: _Text, asked: _Asked) -> tuple[int, _Answer, bytes]:
    """Calls the library. Returns the status, what it reports, and the joined records."""
    fixed, answer = _fixed(text), _Answer()
    size = 2 * min(len(fixed), MAX_LENGTH) + 1024
    if asked.form == FORMS["list"] and asked.has_limit:
        size = min(size, _ROW * asked.limit + 1)
    while True:
        room = bytearray(size)
        # a c_char, and no array of them: ctypes would keep a type for each size
        start = ctypes.c_char.from_buffer(room)
        status = _LIBRARY.sgf_lines_split(fixed, len(fixed), asked, ctypes.addressof(start), size, answer)
        if status != ROOM_TOO_SMALL:
            break
        size = answer.bytes
    return status, answer, bytes(memoryview(room)[:answer.bytes])


def _joined(text: _Text, form: Form, after: Optional[SupportsIndex], limit: Optional[SupportsIndex]) -> tuple[int, bytes]:
    """The number of the records, and the records, joined."""
    has_after, first = _option("after", after)
    has_limit, most = _option("limit", limit)
    status, answer, joined = _split(text, _Asked(_form(form), has_after, has_limit, first, most))
    if status != DONE:
        _refuse(status, answer.at)
    return answer.lines, joined


def output(text: _Text, form: Form = "list", after: Optional[SupportsIndex] = None, limit: Optional[SupportsIndex] = None) -> bytes:
    """The records of the lines of play of a text, joined: the bytes that `sgfsplit split` writes.

    form: "list", "sgf" or "gtp". after: only the lines after the one with this place. limit: at most the first `limit` lines. In the sgf
    and gtp forms each line has all its nodes, so an output may be much longer than its text: then ask for some lines at a time.
    """
    return _joined(text, form, after, limit)[1]


def _parts(joined: bytes, end: bytes) -> Iterator[bytes]:
    """The parts of an output, each of which ends with the first `end` in it."""
    start = 0
    while start < len(joined):
        stop = joined.index(end, start) + len(end)
        yield joined[start:stop]
        start = stop


# in the sgf form: the `[` before a value; a `]` with all `\` before it, an odd number of which makes it a part of the value; a game's end
_MARK = re.compile(rb"\[|(?<!\\)\\*\]|\)\n")


def _games(joined: bytes) -> Iterator[bytes]:
    """The games of an output in sgf form, in which values may have what ends a game. A value may have 64 MiB and be full of marks, so
    no expression matches a whole value: it would take memory for each mark."""
    start, in_value = 0, False
    for mark in _MARK.finditer(joined):
        last = joined[mark.end() - 1]
        if in_value:
            in_value = last != ord("]") or (mark.end() - mark.start()) % 2 == 0
        elif last == ord("["):
            in_value = True
        else:
            yield joined[start:mark.end()]
            start = mark.end()


# what each record ends with; in the sgf form a value may have it, too
_ENDS = {"list": b"\n", "sgf": b")\n", "gtp": b"\n\n"}


def records(text: _Text, form: Form, after: Optional[SupportsIndex] = None, limit: Optional[SupportsIndex] = None) -> list[bytes]:
    """The record of each line of play, as bytes: a row, a game or a script. The joined records are what `output` returns."""
    number, joined = _joined(text, form, after, limit)
    if _ENDS[form] == b")\n" and joined.count(_ENDS[form]) > number:
        return list(_games(joined))
    return list(_parts(joined, _ENDS[form]))


def _row(line: bytes) -> Row:
    """The Row that a row of the list form describes."""
    place, game, nodes, kind, *rest = line.decode("ascii").split()
    verdict: Verdict
    if kind == "score":
        verdict = Score(int(rest[0]), int(rest[1]), rest[2] == "over")
    elif kind == "illegal":
        verdict = Illegal(int(rest[0]), int(rest[1]), cast(Reason, rest[2]))
    else:
        verdict = NotGo() if rest[0] == "game" else BadSize()
    return Row(int(place), int(game), int(nodes), verdict)


# The rows that `iter_rows` asks for at once. The first page has few, so that it comes soon. For each page the whole text is read, so the
# next ones have a row for some bytes of the text: then there are at most a dozen, since a line has at least three bytes.
_FIRST_PAGE, _LEAST_PAGE, _BYTES_FOR_A_ROW = 256, 4096, 32


def _pages(fixed: bytes, joined: bytes, asked: int, left: int) -> Iterator[Row]:
    """The rows of the first page, for which `asked` rows were asked, and those of the next ones; at most `left` rows in all."""
    while True:
        row, number = None, 0
        for line in io.BytesIO(joined):
            row, number = _row(line), number + 1
            yield row
        left -= number
        if row is None or number < asked or left == 0:
            return
        joined, asked = b"", min(left, max(_LEAST_PAGE, len(fixed) // _BYTES_FOR_A_ROW))
        joined = output(fixed, "list", row.place, asked)


def iter_rows(text: _Text, after: Optional[SupportsIndex] = None, limit: Optional[SupportsIndex] = None) -> Iterator[Row]:
    """The Row of each line of play, one by one, as `rows` lists them. A fault of the text is raised at once, before the first row.

    The first row comes as soon as the text is read and a few lines are judged. The other lines are judged page by page, as rows are taken.
    """
    has_after, first = _option("after", after)
    left = (1 << 64) - 1 if limit is None else _number("limit", limit)
    fixed, asked = _fixed(text), min(left, _FIRST_PAGE)
    status, answer, joined = _split(fixed, _Asked(FORMS["list"], has_after, True, first, asked))
    if status != DONE:
        del fixed  # so that the fault's traceback keeps no copy of the text
        _refuse(status, answer.at)
    return _pages(fixed, joined, asked, left)


def rows(text: _Text, after: Optional[SupportsIndex] = None, limit: Optional[SupportsIndex] = None) -> list[Row]:
    """A list with the Row of each line of play. Each has the line's verdict."""
    return list(iter_rows(text, after, limit))


def _status(call: Callable[..., int], text: _Text, *words: object) -> int:
    """Calls a function of the library on a text, and returns the status. A fault's traceback then keeps no copy of the text."""
    fixed = _fixed(text)
    return call(fixed, len(fixed), *words)


def count(text: _Text) -> Counts:
    """The numbers of games, nodes and lines of play of a text."""
    answer = _Counts()
    status = _status(_LIBRARY.sgf_lines_count, text, answer)
    if status != DONE:
        _refuse(status, answer.at)
    return Counts(answer.games, answer.nodes, answer.lines)


def judge(text: _Text, place: SupportsIndex) -> Verdict:
    """The verdict of the line with this place: a Score, an Illegal, NotGo() or BadSize(), as in its row."""
    place, judged = _number("place", place), _Judged()
    status = _status(_LIBRARY.sgf_lines_judge, text, place, judged)
    if status != DONE:
        _refuse(status, judged.at)
    if judged.verdict == SCORE:
        return Score(judged.black, judged.white, judged.over)
    if judged.verdict == ILLEGAL:
        return Illegal(judged.turn, judged.place, cast(Reason, REASONS[judged.reason]))
    return NotGo() if judged.verdict == NOT_GO else BadSize()
