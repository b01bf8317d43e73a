"""The part that the tools of this folder share, and a module for your own scripts. It passes files to the program sgfsplit, and returns
its rows as named tuples and its records one by one. (The tools share tool.py too, which reads their command lines.)

    import sgfsplit
    for row in sgfsplit.rows("game.sgf"):
        print(row.place, row.verdict, row.black, row.white)
    text = sgfsplit.read("game.sgf")
    for row, record in sgfsplit.rows_with(text, "sgf"):
        print(row.place, len(record))

A call that takes a name reads the file. If two calls have to see the same bytes, pass them what `read` returns.

A file that is refused raises Refused. If it can't be read or the program fails, that is Failed, which is a kind of Refused. The text of
both is the row that says why: FILE:LINE:COLUMN: not SGF. Names are str, as os.fsdecode returns them. The variable SGFSPLIT names the
program, or else PROGRAM does. Boards and nodes are in goboard.py.
"""
import contextlib
import errno
import fcntl
import functools
import hashlib
import itertools
import os
import re
import shutil
import stat
import subprocess
import sys
import threading
import time
from typing import NamedTuple, Optional

PROGRAM = "sgfsplit"  # a name to look for in PATH; `make install` replaces it by a path from this file's folder
LIMIT = 67108864  # the most bytes that the program takes
ENDS = {"list": "row", "sgf": "game", "gtp": "empty row"}  # the forms, and what each record ends with
PIECE = 1 << 20
TIMES = 50  # how often a lock is asked for in a second
MOST = 1 << 28  # the most bytes that are read of a mail, and of names on standard input
ROW = re.compile(rb"[0-9]{1,20} [0-9]+ [0-9]+ (score|illegal|unjudged) [a-z0-9 -]+\n")
# Control characters (also as bytes that aren't UTF-8), those that change the direction of text or end a row, and the backslash.
HIDDEN = re.compile("[\x00-\x1f\x7f-\x9f\udc80-\udc9f\u061c\u200e\u200f\u2028-\u202e\u2066-\u2069\\\\]")
ESCAPES = {"\n": "\\n", "\t": "\\t", "\\": "\\\\"}


class Refused(Exception):
    """A file has no lines of play. The text is one row that begins with a file's name."""


class Failed(Refused):
    """Reading, writing or the program failed, so nothing is known of a file's lines. What earlier calls wrote about it stays."""


class Trouble(Exception):
    """Nothing can be done, for example because the program is missing. The text is one row."""


class Row(NamedTuple):
    """A row of the list form. A field that the verdict doesn't have is None. The reason of `unjudged` is `game` or `size`."""
    place: int
    game: int
    nodes: int
    verdict: str
    black: Optional[int] = None
    white: Optional[int] = None
    ended: Optional[str] = None
    turn: Optional[int] = None
    fault: Optional[int] = None
    reason: Optional[str] = None

    @classmethod
    def read(cls, line):
        """The row in a line of bytes."""
        place, game, nodes, verdict, *more = line.decode().split()
        row = cls(int(place), int(game), int(nodes), verdict)
        if verdict == "score":
            return row._replace(black=int(more[0]), white=int(more[1]), ended=more[2])
        if verdict == "illegal":
            return row._replace(turn=int(more[0]), fault=int(more[1]), reason=more[2])
        return row._replace(reason=more[0])

    def __str__(self):
        """The row as the program writes it."""
        words = [self.place, self.game, self.nodes, self.verdict, self.black, self.white, self.ended, self.turn, self.fault, self.reason]
        return " ".join(str(word) for word in words if word is not None)


class Text(NamedTuple):
    """Bytes of a file, with the file's name, and the line and column of the first byte."""
    name: str
    data: bytes
    start: tuple = (1, 1)


class Places:
    """Converts a place in a Text, an offset in bytes from 0, to line and column, both from 1. Columns count bytes. If places rise, the
    bytes are read once."""

    def __init__(self, text):
        self.data, self.start = text.data, text.start
        self.begin()

    def begin(self):
        self.at, self.line, self.feed = 0, self.start[0], -self.start[1]  # a place, its line, and the place of the line feed before it

    def __call__(self, place):
        if place < self.at:
            self.begin()
        feed = self.data.rfind(b"\n", self.at, place)
        if feed >= 0:
            self.line += self.data.count(b"\n", self.at, place)
            self.feed = feed
        self.at = place
        return self.line, place - self.feed


@functools.lru_cache(maxsize=None)
def program():
    """The path of the program, after a check that it is ours."""
    name = os.environ.get("SGFSPLIT")
    if not name:
        name = os.path.join(os.path.dirname(os.path.realpath(__file__)), PROGRAM) if os.sep in PROGRAM else PROGRAM
    path = shutil.which(name)
    if path is None:
        raise Trouble(f"no program {shown(name)}; the variable SGFSPLIT may name one")
    path = os.path.abspath(path)
    if not is_ours(path):
        raise Trouble(f"{shown(path)}: this is another sgfsplit, perhaps that of Debian's sgf2dg")
    return path


def is_ours(path):
    """Whether the program counts one game, one node and one line in `(;)`."""
    command = [path, "count"]
    try:
        with subprocess.Popen(command, stdin=subprocess.PIPE, stdout=subprocess.PIPE, stderr=subprocess.DEVNULL, cwd=os.sep) as asked:
            with contextlib.suppress(BrokenPipeError):
                asked.stdin.write(b"(;)")
                asked.stdin.close()
            answer = asked.stdout.read(7)
            asked.kill()
    except OSError as error:
        raise Trouble(f"{shown(path)}: {error.strerror}") from error
    return answer == b"1 1 1\n"


def in_utf8(name):
    """A name as text that is the same in every locale: its bytes are read as UTF-8, and one that isn't UTF-8 becomes a surrogate."""
    return os.fsencode(name).decode("utf-8", "surrogateescape")


def shown(name):
    """A name as it is shown in a row of text: hidden characters as \\n, \\x1b or \\u202e, and \\ as \\\\."""
    return escaped(in_utf8(name))


def escaped(text):
    """A text as it is shown in a row, as `shown` shows a name."""
    return HIDDEN.sub(lambda found: ESCAPES.get(found[0]) or escape(ord(found[0])), text)


def escape(code):
    """The escape of a character. The codes from 0xdc80 stand for bytes that aren't UTF-8."""
    code = code - 0xdc00 if code >= 0xdc80 else code
    return f"\\x{code:02x}" if code < 256 else f"\\u{code:04x}"


def say(row, end="\n"):
    """Writes a row to standard error. If it can't be written, nobody is left to read it, so the work goes on."""
    said = f"{row}{end}".encode("utf-8", "surrogateescape")
    with contextlib.suppress(OSError, AttributeError):  # without standard error, Python has None in its place
        while said:
            said = said[os.write(sys.stderr.fileno(), said):]


def read(name, most=LIMIT + 1):
    """The text of a file or pipe. Of more than `most` bytes only the first ones are read: by default too many for the program."""
    with opened(name) as file:
        return Text(name, read_from(file, name, most))


def opened(name):
    """The file, opened for reading bytes."""
    try:
        return open(name, "rb")
    except OSError as error:
        raise Failed(f"{shown(name)}: {error.strerror}") from error


def read_from(file, name, most):
    """At most so many bytes of an open file."""
    pieces, size = [], 0
    try:
        while piece := file.read(min(PIECE, most - size)):
            pieces.append(piece)
            size += len(piece)
    except OSError as error:
        raise Failed(f"{shown(name)}: {error.strerror}") from error
    return b"".join(pieces)


def text_of(file):
    """The text of a file that is given by its name, or as the Text that `read` returned."""
    return file if isinstance(file, Text) else read(file)


def refusal(text, status, said):
    """The exception that says why the program ended with this status."""
    if status < 0:
        return Failed(f"{shown(text.name)}: the program was ended by signal {-status}")
    kind = Refused if status == 1 else Failed
    said = said.decode("utf-8", "replace").strip().split(": ", 1)[-1]
    place = re.fullmatch(r"byte (\d+): (.*)", said)
    if place is None:
        return kind(f"{shown(text.name)}: {said}")
    line, column = Places(text)(int(place[1]))
    return kind(f"{shown(text.name)}:{line}:{column}: {place[2]}")


def feed(stream, data):
    """Writes the bytes to a program, and closes the stream. The program may end before it has read all."""
    with contextlib.suppress(OSError, ValueError), stream:
        stream.write(data)


@contextlib.contextmanager
def output(text, *words):
    """What the program writes about a text, as a stream of bytes. Raises Refused at the end if the program ended with a
    fault. If the program refused the text, the stream was empty. If the system failed, it may have had some records."""
    with subprocess.Popen([program(), *words], stdin=subprocess.PIPE, stdout=subprocess.PIPE, stderr=subprocess.PIPE) as run:
        feeder = threading.Thread(target=feed, args=(run.stdin, text.data), daemon=True)  # a thread, so that no side waits for the other
        feeder.start()
        try:
            yield run.stdout
            said = run.stderr.read()
        except BaseException:
            run.kill()
            raise
        finally:
            feeder.join()
    if run.returncode:
        raise refusal(text, run.returncode, said)


def write_rows(file, text, after=None):
    """Makes the program write the rows of a text to an open file."""
    file.flush()
    run = subprocess.run([program(), "split", *page(after, None)], input=text.data, stdout=file, stderr=subprocess.PIPE)
    if run.returncode:
        raise refusal(text, run.returncode, run.stderr)


def checksum(file):
    """The checksum of the bytes of an open file, which is read from its begin."""
    total, at = hashlib.blake2b(digest_size=16), 0
    while piece := os.pread(file.fileno(), PIECE, at):
        total.update(piece)
        at += len(piece)
    return total.hexdigest()


def page(after, limit):
    """The options that ask for the lines after the one with the place `after`, and for at most the first `limit` of these."""
    return [word for option, number in (("--after", after), ("--limit", limit)) if number is not None for word in (option, str(number))]


def lines(file, after=None, limit=None):
    """The row of each line of play of a file, in file order, as a line of bytes."""
    with output(text_of(file), "split", *page(after, limit)) as given:
        yield from whole(given)


def rows(file, after=None, limit=None):
    """The row of each line of play of a file, in file order."""
    return map(Row.read, lines(file, after, limit))


def records(file, form="sgf", after=None, limit=None):
    """The record of each line of play of a file in a form, in file order. Values may contain line feeds and brackets."""
    with output(text_of(file), "split", "--form", form, *page(after, limit)) as given:
        record, inside = [], False
        for line in whole(given):
            record.append(line)
            inside = ENDS[form] == "game" and is_inside(line, inside)
            if not inside and (ENDS[form] != "empty row" or line == b"\n"):
                yield b"".join(record)
                record = []


def rows_with(file, *forms, after=None, limit=None):
    """The row of each line of play of a file, with the line's record in each of these forms."""
    text = text_of(file)
    for made in itertools.zip_longest(rows(text, after, limit), *(records(text, form, after, limit) for form in forms)):
        if None in made:
            raise Failed(f"{shown(text.name)}: the program doesn't give as many records in each form")
        yield made


def whole(lines):
    """The lines of an output up to one that was cut off, because the program was ended."""
    return itertools.takewhile(lambda line: line.endswith(b"\n"), lines)


def is_inside(line, inside):
    """Whether a value is open after a row of the sgf form; `inside` says whether one was open before. Outside values this form has neither
    line feeds, except after a game, nor backslashes. So the last `]` that isn't escaped ends a value."""
    end = len(line)
    while (end := line.rfind(b"]", 0, end)) >= 0 and is_escaped(line, end):
        pass
    return line.find(b"[", end + 1) >= 0 or inside and end < 0


def is_escaped(text, at, begin=0):
    """Whether an odd number of backslashes stands right before the offset `at` of a value that begins at `begin`."""
    first = at
    while first > begin and text[first - 1] == 92:  # a backslash
        first -= 1
    return (at - first) % 2 == 1


def end_of_value(text, begin):
    """The offset after the `]` that ends the value whose text begins at `begin`, or -1 if the value doesn't end."""
    at = begin
    while (end := text.find(b"]", at)) >= 0 and is_escaped(text, end, begin):
        at = end + 1
    return end + 1 if end >= 0 else -1


def locked(path):
    """Opens the file at the path for appending bytes, and locks it. Waits as long as another process has it locked, and says so."""
    while True:
        file = open(os.open(path, os.O_RDWR | os.O_CREAT | os.O_APPEND | os.O_NOFOLLOW, 0o666), "ab")
        if not locks_soon(file):
            say(f"{shown(path)}: another process has it locked; waiting")
            fcntl.flock(file, fcntl.LOCK_EX)
        if is_same(path, file.fileno()):
            break
        file.close()
    if not is_plain(file):
        raise OSError(errno.EINVAL, "not a file with one name", path)
    return file


def locks_soon(file):
    """Locks an open file within a second. Returns whether it could."""
    for _ in range(TIMES):
        with contextlib.suppress(BlockingIOError):
            fcntl.flock(file, fcntl.LOCK_EX | fcntl.LOCK_NB)
            return True
        time.sleep(1 / TIMES)
    return False


def is_plain(file):
    """Whether an open file is one with a single name. A second name may be that of a game."""
    status = os.fstat(file.fileno())
    return stat.S_ISREG(status.st_mode) and status.st_nlink == 1


@contextlib.contextmanager
def written(path):
    """A file to write to. It stands beside `path`, and is renamed to `path` when everything is written. The folders above it are created.
    If a killed run left such a file, it is overwritten."""
    folder, name = os.path.split(path)
    beside = os.path.join(folder, f".{hashlib.blake2b(os.fsencode(name), digest_size=8).hexdigest()}.part")
    try:
        if os.path.lexists(path) and not os.path.isfile(path):
            raise OSError(errno.EINVAL, "not a file")
        make_folders(folder)
        with locked(beside) as file:
            try:
                file.truncate(0)
                yield file
                file.flush()
                os.replace(beside, path)
            except BaseException:
                with contextlib.suppress(OSError):
                    os.unlink(beside)
                raise
    except OSError as error:
        raise Failed(f"{shown(path)}: {error.strerror}") from error
    except BaseException:
        drop(beside)
        raise


def drop(path):
    """Removes a file that `locked` created when a signal came, unless another process has locked it."""
    with contextlib.suppress(OSError), open(os.open(path, os.O_RDONLY | os.O_NONBLOCK | os.O_NOFOLLOW), "rb") as file:
        fcntl.flock(file, fcntl.LOCK_EX | fcntl.LOCK_NB)
        if is_same(path, file.fileno()) and is_plain(file):
            os.unlink(path)


def make_folders(folder):
    """Creates a folder and those above it. os.makedirs calls itself, and so fails for a thousand folders in one another."""
    missing = []
    while folder and not os.path.isdir(folder):
        missing.append(folder)
        folder = os.path.dirname(folder)
    for folder in reversed(missing):
        with contextlib.suppress(FileExistsError):
            os.mkdir(folder)


def is_same(path, other):
    """Whether two paths lead to the same file. Either may be the number of an open file."""
    try:
        return other is not None and os.path.samefile(path, other)
    except OSError:
        return False
