#!/usr/bin/env python3
USAGE = """parts.py [--most BYTES] [--jobs N] [-0] FILE|FOLDER..

Writes the rows of a collection of any size. sgfsplit takes 64 MiB at a time,
so the text is cut between games, and each part is split alone. Then the places
in the rows of a part are raised by the length of the text before the part, and
the game numbers by the number of games before it. The result is the rows of
the whole text, because cutting changes only these numbers. The rows of each
file follow those of the file before.

  parts.py huge.sgf > rows.txt
  parts.py --most 1000000 huge.sgf > rows.txt
                                 the most bytes of a part of several games;
                                 without --most it is 67108864
  parts.py --jobs 1 huge.sgf > rows.txt
                                 splits one part at a time; without --jobs as
                                 many as there are cores

A file is read as it is split. Several jobs take slices of a part, of about 16
MiB, and a single job takes the whole part. Of a pipe, one of these is in memory
for each job, and two more are, with a game. A single game of more than 64 MiB
is still refused, once 64 MiB and a byte of it are read. Status 1: a file was
refused; the rows of the parts before the fault are written.
"""
import os
import sys

sys.path.insert(0, os.path.dirname(os.path.realpath(__file__)))  # with PYTHONSAFEPATH it isn't there
import tool

import collections
import contextlib
import itertools
import re
import select
import signal
import stat
import subprocess
import tempfile

import goboard
import sgfsplit

SLICE = 1 << 24  # about how many bytes of a part a job takes if there are several: fewer cost time to start it, more leave cores idle
ROWS = 1 << 16  # how many bytes of rows are raised at a time
MANY = 1 << 20  # so many bytes of rows are raised by a process of their own: it costs as much as raising a sixth of them
WAITING = 16  # the rows of no more slices wait, while those of an earlier part are raised
ROW = 1 << 10  # more bytes than a row has
CUT_OFF = "cut off while it was read"
SHORT = 255  # the status of a process that gives bytes to a program, if it couldn't give all; other statuses are the numbers of faults
MARK = b"\xef\xbb\xbf"  # the byte order mark, which may stand only before the first game
IN_VALUE = re.compile(rb"\\.?|\]", re.DOTALL)  # an escape, of which the second byte may still have to be read, or the value's end
NEXT = re.compile(rb"(?:[^()\[]*\[[^\]\\]*\]){0,100}[^()\[]*[()\[]")  # up to the next parenthesis outside values, or into a value before it
SPACE = rb"[ \t\n\r\v\f]*"
INK = re.compile(rb"[^ \t\n\r\v\f]")
# What may stand between two games: most likely the second one begins with a property of a root, or in a row of its own. And how many bytes
# before the end of a part it is looked for, at first and then.
BETWEEN = ((re.compile(rb"\)" + SPACE + rb"\(" + SPACE + rb";" + SPACE + rb"(?:FF|GM|SZ|CA|AP)" + SPACE + rb"\["), (1 << 16, 1 << 20, 1 << 24)),
           (re.compile(rb"\)[ \t\r\v\f]*\n" + SPACE + rb"\("), (1 << 16, 1 << 20)),
           (re.compile(rb"\)" + SPACE + rb"\("), (1 << 16, 1 << 20)))


def games(file, name):
    """Each game of a file, with the text before it, and True. Then what stands after the last game, and False: also the beginning of a game
    that is too long for the program."""
    text, at, depth, is_in_value = bytearray(), 0, 0, False
    while piece := sgfsplit.read_from(file, name, min(sgfsplit.PIECE, sgfsplit.LIMIT + 1 - len(text))):
        text += piece
        while found := (IN_VALUE if is_in_value else goboard.PARENTHESES).search(text, at):
            token = found[0]
            if token == b"\\":
                at = found.start()
                break
            at = found.end()
            is_in_value = token == b"[" or is_in_value and token != b"]"
            depth += {b"(": 1, b")": -1}.get(token, 0)
            if token == b")" and depth <= 0:
                yield bytes(text[:at]), True
                if depth < 0:
                    return  # the program refuses this `)`
                del text[:at]
                at = 0
        else:
            at = len(text)
    yield bytes(text), False


def first_games(file, name, most, room, is_empty):
    """The games at the begin of the rest of a file, found one by one, and whether they are the end of a part that has room for so many bytes.
    If the first game is too long for that, they are a part of their own. None if only white space is left. `is_empty` says whether the file
    has no game before. What stands after the last game is a part too, unless it is white space."""
    part, size = bytearray(), room
    for text, is_game in games(file, name):
        if not part and (len(text) > room or not is_game):
            size = most
        if part and (len(part) + len(text) > size or not is_game):
            return part, size == room
        part += text
        is_empty = is_empty and not is_game
    return part if is_empty or INK.search(part) or len(part) > sgfsplit.LIMIT else None, size == room


def cuts(seen, most, is_last):
    """Offsets at which the first slice of what is seen of a text may end, none after `most`, the most likely one first. The program says
    whether it does. If it is to be the last slice of its part, and the program accepts the text up to an offset, this is the last game that
    ends by the offset `most`. For from there on no further game does."""
    found = set()
    for between, distances in BETWEEN:
        at = last_match(between, distances, seen, most)
        if at is not None and is_last:
            size = last_end(seen.read(at, seen.size), most - at)
            at = None if size is None else at + size
        if at is not None and at not in found:
            found.add(at)
            yield at


def last_match(between, distances, seen, most):
    """The offset after the `)` of the last match in what is seen of a text, or None if there is none near enough."""
    for distance in distances:
        begin = max(most - distance, 0)
        starts = collections.deque((match.start() for match in between.finditer(seen.read(begin, seen.size))), 1)
        if starts:
            return begin + starts[0] + 1
    return None


def last_end(tail, most):
    """If a text begins between two games, the offset at which the last game ends within `most` bytes. None if a parenthesis shows that it
    doesn't begin there."""
    depth, last, at = 0, 0, 0
    while at >= 0 and (found := NEXT.match(tail, at)) and found.end() <= most:
        at = found.end()
        if tail[at - 1] == 91:  # an opening bracket
            at = sgfsplit.end_of_value(tail, at)
            continue
        depth += 1 if tail[at - 1] == 40 else -1
        if depth < 0:
            return None
        if depth == 0:
            last = at
    return last


@contextlib.contextmanager
def signals_wait():
    """Lets signals wait, so that none comes between the start of a process and the note of its number. The new process keeps them waiting."""
    before = signal.pthread_sigmask(signal.SIG_BLOCK, signal.valid_signals())
    try:
        yield
    finally:
        signal.pthread_sigmask(signal.SIG_SETMASK, before)


class Rows:
    """The rows of a slice, in a file, and the process that raises them beside the other jobs, if there is one."""

    def __init__(self, part, begin):
        self.part, self.begin, self.games_before = part, begin, None  # the places of the part and of the slice in the whole text
        self.file, self.raised, self.is_raised = tempfile.TemporaryFile(buffering=0), None, False
        self.process, self.told = None, None

    def size(self):
        return self.file.seek(0, os.SEEK_END)

    def games(self):
        """The number of the last game."""
        last = os.pread(self.file.fileno(), ROW, max(self.size() - ROW, 0)).splitlines()[-1:]
        return int(last[0].split()[1]) if last else 0

    def raise_beside(self):
        """Starts a process that raises the rows into another file. If the system starts none, or ends it, `pieces` raises them."""
        self.raised = tempfile.TemporaryFile(buffering=0)
        reads, writes = os.pipe()
        self.told = open(reads, "rb", buffering=0)
        with open(writes, "wb", buffering=0) as tells, signals_wait():
            with contextlib.suppress(OSError):
                self.process = os.fork()
            if self.process == 0:
                self.raise_and_end(tells)

    def raise_and_end(self, tells):
        """What the new process does. No signal but SIGKILL ends it, and it closes and removes nothing that belongs to this process."""
        try:
            for piece in self.pieces():
                write(self.raised, piece)
            tells.write(b".")
        finally:
            os._exit(0)

    def hear(self):
        """Takes what the process says at its end: that all is raised, or nothing, if it was ended before."""
        self.is_raised = self.told.read(1) == b"."
        with contextlib.suppress(ChildProcessError):  # if SIGCHLD is ignored, the system forgets a process that has ended
            os.waitpid(self.process, 0)
        self.process = None
        self.told.close()
        if self.is_raised:
            self.file.close()

    def pieces(self):
        """The rows as rows of the whole text, many at a time."""
        if not self.is_raised:
            yield from raised(self.file, self.begin, self.games_before)
            return
        self.raised.seek(0)
        while piece := self.raised.read(sgfsplit.PIECE):
            yield piece

    def end(self):
        """Ends the process, and drops the rows."""
        if self.process is not None:
            with contextlib.suppress(ProcessLookupError):
                os.kill(self.process, signal.SIGKILL)
            self.hear()
        for file in self.file, self.raised, self.told:
            if file is not None:
                file.close()


class Bytes:
    """Bytes that stand in a file from an offset on. Other offsets count from there."""

    def __init__(self, file, name, start, size):
        self.file, self.name, self.start, self.size = file, name, start, size

    def pieces(self, begin, end):
        """The bytes between two offsets, piece by piece. They are fewer if the file ends before."""
        try:
            while begin < end and (piece := os.pread(self.file.fileno(), min(sgfsplit.PIECE, end - begin), self.start + begin)):
                yield piece
                begin += len(piece)
        except OSError as error:
            raise sgfsplit.Failed(f"{sgfsplit.shown(self.name)}: {error.strerror}") from error

    def read(self, begin, end):
        return b"".join(self.pieces(begin, end))

    def text(self):
        return self.read(0, self.size)

    def is_marked(self):
        return self.read(0, len(MARK)) == MARK

    def is_empty(self):
        """Whether there is nothing but white space."""
        return not any(INK.search(piece) for piece in self.pieces(0, self.size))

    def line_feeds(self):
        return sum(piece.count(b"\n") for piece in self.pieces(0, self.size))

    def last_line_feed(self):
        """The offset of the last line feed, or -1."""
        end = self.size
        while end > 0:
            begin = max(end - sgfsplit.PIECE, 0)
            feed = self.read(begin, end).rfind(b"\n")
            if feed >= 0:
                return begin + feed
            end = begin
        return -1


class Part:
    """A part or a slice of it, and the process that splits it. `part` and `begin` are the places of the part and of the slice in the whole
    text."""

    def __init__(self, kept, tried, part, begin):
        self.kept, self.tried, self.part, self.begin = kept, tried, part, begin
        self.run, self.rows, self.said, self.status = None, None, b"", None

    def split(self):
        self.rows = Rows(self.part, self.begin)
        with self.given() as source:
            self.run = subprocess.Popen([sgfsplit.program(), "split"], stdin=source, stdout=self.rows.file, stderr=subprocess.PIPE)

    def hear(self):
        """Takes what the process says. Once it says nothing more, it has ended, and its status is known."""
        said = os.read(self.run.stderr.fileno(), sgfsplit.PIECE)
        self.said += said
        if not said:
            self.status = self.run.wait()

    def taken(self):
        """The rows, which stay when all else is dropped."""
        rows, self.rows = self.rows, None
        return rows

    def stop(self):
        """Ends the process that splits, and drops the rows if nobody took them."""
        if self.run is not None:
            self.run.kill()
            self.run.wait()
            self.run.stderr.close()
        if self.rows is not None:
            self.rows.end()


class CopiedPart(Part):
    """A part that has a file of its own, and the process that counts its line feeds."""

    counting, feeds = None, 0

    def given(self):
        self.kept.file.seek(0)
        return contextlib.nullcontext(self.kept.file)

    def count(self):
        """Starts a process that counts the line feeds, four times as fast as Python would, and beside the other jobs."""
        self.kept.file.seek(0)
        self.counting = subprocess.Popen(["wc", "-l"], stdin=self.kept.file, stdout=subprocess.PIPE)

    def wait(self):
        """Waits until the line feeds are counted, so that no process reads the file any more. If it was ended, counts them here."""
        if self.counting is not None:
            counted = self.counting.communicate()[0]
            self.feeds, self.counting = int(counted or self.kept.line_feeds()), None

    def line_feeds(self):
        self.wait()
        return self.feeds

    def end(self):
        """Ends the processes, and drops the rows and the bytes."""
        self.stop()
        self.wait()
        self.kept.file.close()


class StandingPart(Part):
    """A part whose bytes are read where they stand in the collection, by a process that gives them to the program."""

    giving = None  # the number of that process

    @contextlib.contextmanager
    def given(self):
        """A pipe, which that process fills."""
        reads, writes = os.pipe()
        with open(reads, "rb", buffering=0) as source:
            with open(writes, "wb", buffering=0) as target, signals_wait():
                self.giving = os.fork()
                if self.giving == 0:
                    source.close()
                    give_and_end(self.kept, target)
            yield source

    def hear(self):
        """The program may have accepted what it got, or refused it, though it didn't get all. Then the reason why counts."""
        super().hear()
        if self.status is not None:
            fault = self.heard()
            if fault is not None and self.status >= 0:
                self.status, self.said = 3, f"sgfsplit: {fault}".encode()

    def heard(self):
        """Takes what the process says at its end: why it couldn't give all bytes; None if it gave them, or if the program took no more."""
        giving, self.giving, status = self.giving, None, 0
        with contextlib.suppress(ChildProcessError):  # if SIGCHLD is ignored, the system forgets a process that has ended
            status = os.waitstatus_to_exitcode(os.waitpid(giving, 0)[1])
        if status < 0:
            return f"the process that read it was ended by signal {-status}"
        return {0: None, SHORT: CUT_OFF}.get(status, os.strerror(status))

    def stop(self):
        super().stop()
        if self.giving is not None:
            self.heard()

    end = stop


def give_and_end(kept, target):
    """What the process does that gives bytes to a program. No signal but SIGKILL ends it, and it closes and removes nothing that belongs to
    the process that began it."""
    status = SHORT
    try:
        size = send(kept, target)
        for piece in kept.pieces(size, kept.size):
            write(target, piece)
            size += len(piece)
        status = 0 if size == kept.size else SHORT
    except BrokenPipeError:
        status = 0
    except sgfsplit.Failed as error:
        status = error.__cause__.errno
    finally:
        os._exit(status)


def unnamed():
    """A file without a name, in memory if the system has such files."""
    return open(os.memfd_create("part"), "w+b", buffering=0) if hasattr(os, "memfd_create") else tempfile.TemporaryFile(buffering=0)


def write(file, data):
    """Writes all the bytes to a file without a buffer."""
    data = memoryview(data)
    while data:
        data = data[file.write(data):]


def stands(file):
    """Whether the bytes of an open file stand on a disk, so that any of them can be read at any time. A file without bytes may be one that the
    system makes up as it is read."""
    status = os.fstat(file.fileno())
    return stat.S_ISREG(status.st_mode) and status.st_size > 0


def send(kept, target):
    """Lets the system give bytes to a pipe, so that they aren't copied twice. Returns how many. They are fewer if the system can't do this, or
    if the file ends before."""
    size = 0
    if sys.platform == "linux":  # elsewhere this call is for sockets
        with contextlib.suppress(OSError):  # what is wrong is said when the rest is read or written
            while size < kept.size and (more := os.sendfile(target.fileno(), kept.file.fileno(), kept.start + size, kept.size - size)):
                size += more
    return size


class Parts:
    """The slices of the parts of an open file, one by one. If one turns out to be wrong, it is put back with all after it, and is cut in
    another way."""

    def __init__(self, file, name, most, slice_size):
        self.file = getattr(file, "raw", file)  # without Python's buffer
        self.name, self.most, self.slice_size = name, most, slice_size
        self.begin, self.part = 0, 0  # where the next slice begins, and its part

    def next(self, tried):
        """The next slice, cut in the likeliest way that wasn't `tried`. None if there is none, or if only white space is left."""
        cut, is_last = next(itertools.islice(self.ways(), tried, None), (None, False))
        kept = self.keep(cut)
        return None if kept is None else self.passed(self.KIND(kept, tried, self.part, self.begin), is_last)

    def passed(self, part, is_last):
        """Goes on after a slice, with a new part if it is the last one of its part."""
        self.begin += part.kept.size
        self.part = self.begin if is_last else self.part
        return part

    def sizes(self):
        """How many bytes the next slice may have: it ends before a multiple of their size in its part, but is no short rest, or as the part."""
        done, size = self.begin - self.part, self.slice_size
        first = size * ((done + size // 2) // size + 1)
        return [*range(first - done, self.most - done, size), self.most - done]

    def ways(self):
        """The offsets at which the slice may end, the likeliest one first, and whether its part ends there too."""
        for most in self.sizes():
            seen = self.seen(most + 1)
            is_whole, is_last = seen.size <= most, most == self.part + self.most - self.begin
            if self.begin and (seen.is_marked() or is_whole and seen.is_empty()):
                return
            for cut in [seen.size] if is_whole else cuts(seen, most, is_last):
                yield cut, is_last
            if is_whole:
                return

    def next_by_games(self):
        """The next games, found one by one, which takes long; None if only white space is left. They are the right ones."""
        self.drop_spare()
        text, is_same_part = first_games(self.reader(), self.name, self.most, self.part + self.most - self.begin, self.begin == 0)
        if text is None:
            return None
        return self.passed(self.KIND(self.keep_games(text), None, self.part if is_same_part else self.begin, self.begin), True)

    def put_back(self, *parts):
        self.begin, self.part = parts[0].begin, parts[0].part

    # Each of the two kinds of parts has these, too:
    # - seen(most): the next bytes, at most so many;
    # - keep(cut): those up to a cut, which are the next slice, or None;
    # - reader(): a file that reads the next bytes, and keep_games(text): those of them that are the next slice;
    # - count(part): counts the line feeds of a part that was accepted, if they can't be counted later;
    # - place(part): the line and column at which a part begins that follows the one counted last.


class StandingParts(Parts):
    """Those of a file on disk. Their bytes are read where they stand."""

    KIND, spare = StandingPart, None

    def __init__(self, file, *words):
        super().__init__(file, *words)
        self.first, self.size = self.file.tell(), 0  # where the text begins in the file, and the file's size when it was last asked for

    def here(self, size):
        """So many of the next bytes."""
        return Bytes(self.file, self.name, self.first + self.begin, size)

    def seen(self, most):
        before, self.size = self.size, os.fstat(self.file.fileno()).st_size
        if self.size < before:
            raise sgfsplit.Failed(f"{sgfsplit.shown(self.name)}: {CUT_OFF}")
        return self.here(max(min(most, self.size - self.first - self.begin), 0))

    def keep(self, cut):
        return None if cut is None else self.here(cut)

    def reader(self):
        self.file.seek(self.first + self.begin)
        return self.file

    def keep_games(self, text):
        return self.here(len(text))

    def count(self, part):
        """Line feeds are counted only if a fault is found."""

    def place(self, part):
        before = Bytes(self.file, self.name, self.first, part.begin)
        return 1 + before.line_feeds(), part.begin - before.last_line_feed()

    def drop_spare(self):
        """There is none."""


class CopiedParts(Parts):
    """Those of a pipe. Each is copied to a file of its own."""

    KIND = CopiedPart

    def __init__(self, *words):
        super().__init__(*words)
        self.ahead, self.buffer = b"", memoryview(bytearray(sgfsplit.PIECE))
        self.copy, self.size, self.spare = None, 0, None  # the file that is being filled, how far it is, and a part that is done
        self.counted, self.line, self.feed = None, 1, -1  # the part counted last, the line at its begin, and the last line feed before its end

    def read(self, size):
        """The next bytes, at most so many; none at the end of the file. First come those that were put back."""
        piece, self.ahead = self.ahead[:size], self.ahead[size:]
        return piece or self.file.read(size)

    def seen(self, most):
        """Copies the next bytes, so that a file has at most so many of them."""
        if self.copy is None:
            self.copy, self.size = self.emptied(), 0
            self.copy.seek(0)
        while self.size < most and (more := self.take(most - self.size)):
            write(self.copy, more)
            self.size += len(more)
        return Bytes(self.copy, self.name, 0, self.size)

    def take(self, most):
        """The next bytes, at most so many. First come those that were put back."""
        if self.ahead:
            piece, self.ahead = self.ahead[:most], self.ahead[most:]
            return piece
        try:
            return self.buffer[:self.file.readinto(self.buffer[:most])]
        except OSError as error:
            raise sgfsplit.Failed(f"{sgfsplit.shown(self.name)}: {error.strerror}") from error

    def put_back(self, *parts):
        super().put_back(*parts)
        self.ahead = b"".join([part.kept.text() for part in parts] + [self.ahead])

    def emptied(self):
        """A file to be filled. Filling that of an earlier part is faster, because the system has its memory already."""
        if self.spare is None:
            return unnamed()
        self.spare.wait()
        file, self.spare = self.spare.kept.file, None
        return file

    def drop_spare(self):
        if self.spare is not None:
            self.spare.end()
            self.spare = None

    def keep(self, cut):
        file, self.copy = self.copy, None
        self.ahead = Bytes(file, self.name, 0, self.size).read(cut or 0, self.size) + self.ahead
        if cut is None:
            file.close()
            return None
        file.truncate(cut)
        return Bytes(file, self.name, 0, cut)

    def reader(self):
        self.read_by_games = Seen(self)
        return self.read_by_games

    def keep_games(self, text):
        self.ahead = bytes(self.read_by_games.bytes[len(text):]) + self.ahead
        file = unnamed()
        write(file, text)
        return Bytes(file, self.name, 0, len(text))

    def count(self, part):
        self.line, last = self.place(part)[0], part.kept.last_line_feed()
        self.counted, self.feed = part, self.feed if last < 0 else part.begin + last
        part.count()

    def place(self, part):
        return self.line + (0 if self.counted is None else self.counted.line_feeds()), part.begin - self.feed


class Seen:
    """A file that keeps all bytes that were read of another."""

    def __init__(self, file):
        self.file, self.bytes = file, bytearray()

    def read(self, size):
        piece = self.file.read(size)
        self.bytes += piece
        return piece


class Splitting:
    """A file while it is split: the slice that was split last, those whose processes run or have ended, in their order, and the one that will
    be started next. And the rows of earlier slices that aren't written yet."""

    def __init__(self, parts, jobs):
        self.parts, self.jobs, self.done, self.started, self.ready = parts, jobs, None, collections.deque(), None
        self.tried, self.is_stuck = 0, False
        self.rows, self.games = collections.deque(), 0

    def more(self):
        """Cuts and starts slices, so that as many programs run as there are jobs, and cuts one more. A slice begins where the one before is
        thought to end. One that is split early waits for its turn. Never are more slices held than two beside the jobs."""
        self.hear(0)
        while True:
            if self.started and self.started[-1].tried is None:
                return  # such a part may be refused in any case, so no more is read yet
            if self.ready is None and not self.is_stuck and len(self.started) + (self.done is not None) < self.jobs + 2:
                self.ready = self.parts.next(self.tried)
                self.is_stuck = self.ready is None
            if self.ready is None and not self.started:
                self.ready = self.parts.next_by_games()
            if not self.start():
                return

    def start(self):
        """Starts the slice that was cut last, if it isn't started and fewer programs run than there are jobs. Returns whether it did."""
        if self.ready is None or len(self.running()) >= self.jobs:
            return False
        self.ready.split()
        self.started.append(self.ready)
        self.ready, self.tried, self.is_stuck = None, 0, False
        return True

    def meanwhile(self):
        """While rows are written: lets a job that has ended go on with the slice that was cut last. Reads no more, because that may fail."""
        self.hear(0)
        self.start()

    def take(self, part):
        """Keeps the rows of the slice that was split last. If there are many, and several jobs, they are raised beside the other jobs."""
        rows = part.taken()
        rows.games_before = self.games
        self.games += rows.games()
        self.rows.append(rows)
        if self.jobs > 1 and rows.begin > 0 and rows.size() >= MANY:
            rows.raise_beside()

    def written(self, part, most):
        """The rows of earlier parts than this one, raised, up to those of the last slices, at most so many. (All slices of an earlier part were
        accepted. So if one is refused, no rows of its part are written.)"""
        while len(self.rows) > most and self.rows[0].part != part:
            rows = self.rows[0]
            while rows.process is not None:
                self.hear(None)
                self.start()
            for piece in rows.pieces():
                yield piece
                self.meanwhile()
            rows.end()
            self.rows.popleft()

    def running(self):
        return [part for part in self.started if part.status is None]

    def first(self):
        """The first slice, once it is split; None if none is left. One that is refused may have been cut in the wrong place."""
        self.put_away()
        while True:
            self.more()
            if not self.started:
                return None
            part = self.started[0]
            if part.status is None:
                self.hear(None)
            elif part.status != 1 or part.tried is None:
                self.done = self.started.popleft()
                return part
            else:
                self.tried = part.tried + 1
                self.parts.put_back(*self.all())
                self.end()

    def hear(self, timeout):
        """Waits until a process says something or ends, but no longer than so many milliseconds, if this isn't None."""
        asked, heard = select.poll(), {part.run.stderr.fileno(): part for part in self.running()}
        heard.update((rows.told.fileno(), rows) for rows in self.rows if rows.process is not None)
        for stream in heard:
            asked.register(stream, select.POLLIN)
        for stream, _ in asked.poll(timeout):
            heard[stream].hear()

    def put_away(self):
        """Makes the slice that was split last the spare one."""
        if self.done is not None:
            self.done.stop()
            self.parts.drop_spare()
            self.parts.spare, self.done = self.done, None

    def drop(self):
        """Ends all processes, and drops all slices and rows."""
        self.end()
        for rows in self.rows:
            rows.end()
        self.put_away()
        self.parts.drop_spare()

    def all(self):
        return [*self.started, *([] if self.ready is None else [self.ready])]

    def end(self):
        """Drops all slices but the spare one."""
        for part in self.all():
            part.end()
        self.started.clear()
        self.ready, self.is_stuck = None, False


def rows_of(name, most, jobs):
    """The rows of a file of any size, as bytes, many rows at a time."""
    with sgfsplit.opened(name) as file:
        parts = (StandingParts if stands(file) else CopiedParts)(file, name, most, SLICE if jobs > 1 else most)
        splitting = Splitting(parts, jobs)
        try:
            while (part := splitting.first()) is not None:
                status, said = part.status, part.said
                if part.begin > 0 and part.kept.is_marked():
                    status, said = 1, b"sgfsplit: byte 0: not SGF"
                if status:
                    yield from splitting.written(part.part, 0)
                    raise sgfsplit.refusal(sgfsplit.Text(name, part.kept.text(), parts.place(part)), status, said)
                splitting.take(part)
                splitting.more()
                parts.count(part)
                yield from splitting.written(part.part, min(jobs, WAITING))
            yield from splitting.written(None, 0)
        finally:
            splitting.drop()


def raised(file, begin, games_before):
    """The rows of a slice as rows of the whole text, many at a time."""
    words, at = [], 0
    while piece := os.pread(file.fileno(), ROWS, at):
        piece = piece[:piece.rfind(b"\n") + 1] or piece
        at += len(piece)
        if begin > 0:
            raise_all(piece.decode().splitlines(True), begin, games_before, words)
            piece = "".join(words).encode()
            words.clear()
        yield piece


def raise_all(rows, begin, games_before, words):
    """Appends the words of these rows, raised."""
    last = None
    for row in rows:
        place, game, rest = row.split(" ", 2)
        if game != last:
            last, number = game, f" {int(game) + games_before} "
        if " illegal " in rest:
            nodes, verdict, turn, fault, reason = rest.split(" ")
            rest = f"{nodes} {verdict} {turn} {int(fault) + begin} {reason}"
        words += (str(int(place) + begin), number, rest)


def main(job):
    most = tool.number_of(job.options.get("--most", str(sgfsplit.LIMIT)), 1, sgfsplit.LIMIT, "--most wants how many bytes")
    jobs = tool.number_of(job.options.get("--jobs", str(len(os.sched_getaffinity(0)))), 1, 1000, "--jobs wants how many parts at a time")
    for name in job.files():
        with job.going_on():
            sys.stdout.buffer.writelines(rows_of(name, most, jobs))


if __name__ == "__main__":
    tool.start(main, USAGE, values=("--most", "--jobs"))
