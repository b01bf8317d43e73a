#!/usr/bin/env python3
USAGE = """replay.py [--timeout SECONDS] [-0] FILE|FOLDER..

A second referee: GNU Go plays the script of each line of play. It must accept
each legal move. If a row says `occupied` or `repeat`, GNU Go must refuse that
illegal move. This tool plays the line too: the stones on both boards must be
the same, and their area must be the score of the row. A line that differs gets
a row, and the last row is: N lines agree, N differ, N left out.

  replay.py library
  ENGINE='my-engine --gtp' replay.py library
                                 another program that speaks the Go Text
                                 Protocol, with the same rules
  replay.py --timeout 10 library stops if an answer takes more than 10 seconds;
                                 without --timeout it is 600

Comments never reach the engine. Lines without a script are left out, and so
are lines on a side that the engine refuses. An engine treats the stones of a
setup as moves. So it may refuse a move that repeats a position on the way to a
setup. The line is then left out. Stones are compared if the engine knows
list_stones, as GNU Go does. GNU Go 3.8 accepts a suicide of several stones that
repeats a position: a line with such a suicide differs. Status 1: a line
differs, or a file was refused. GNU Go is Debian's package gnugo.
"""
import os
import sys

sys.path.insert(0, os.path.dirname(os.path.realpath(__file__)))  # with PYTHONSAFEPATH it isn't there
import tool

import contextlib
import re
import select
import shlex
import shutil
import signal
import subprocess
import time

import goboard
import sgfsplit

COMMAND = re.compile(rb"boardsize [0-9]+|clear_board|play [BW] (pass|[A-Z][0-9]+)")
GNUGO = "gnugo --mode gtp --allow-suicide --positional-superko"
MOST = 1 << 20  # the most bytes of a reply
SECONDS = 600  # an engine that loads a network may need minutes for its first answer


class Engine:
    """A program that speaks the Go Text Protocol, version 2. It runs in a session of its own, and is ended with all that it has started there."""

    def __init__(self, command, seconds):
        try:
            name, *words = shlex.split(command)
        except ValueError as error:
            raise sgfsplit.Trouble(f"ENGINE is no command: {sgfsplit.escaped(command)}") from error
        path = shutil.which(name, path=os.environ.get("PATH", os.defpath) + ":/usr/games")
        if path is None:
            raise sgfsplit.Trouble(f"no program {sgfsplit.escaped(name)}; the variable ENGINE may name one")
        self.words, self.seconds, self.run, self.given = [path, *words], seconds, None, bytearray()

    def __enter__(self):
        """Starts the engine, and asks the first question. A signal may come at any moment, so it waits until the engine can be ended."""
        before = signal.pthread_sigmask(signal.SIG_BLOCK, {signal.SIGINT, signal.SIGTERM, signal.SIGHUP})
        try:
            self.run = subprocess.Popen(self.words, stdin=subprocess.PIPE, stdout=subprocess.PIPE, stderr=subprocess.DEVNULL, bufsize=0,
                                        start_new_session=True, preexec_fn=lambda: signal.pthread_sigmask(signal.SIG_SETMASK, before))
            signal.pthread_sigmask(signal.SIG_SETMASK, before)
            for pipe in (self.run.stdin, self.run.stdout):
                os.set_blocking(pipe.fileno(), False)
            self.lists_stones = self.ask(["known_command list_stones"])[0] == (True, "true")
            return self
        except BaseException:
            self.end()
            raise
        finally:
            signal.pthread_sigmask(signal.SIG_SETMASK, before)

    def __exit__(self, *error):
        self.end()

    def end(self):
        """Ends the engine. A process that it has started may still hold its pipes, so nothing waits for their end."""
        if self.run is not None:
            with contextlib.suppress(ProcessLookupError):
                os.killpg(self.run.pid, signal.SIGKILL)
            self.run.wait()
            self.run.stdin.close()
            self.run.stdout.close()

    def ask(self, commands):
        """The reply to each command: whether the command was accepted, and the text of the reply. All commands are sent at once."""
        self.left, replies = "".join(command + "\n" for command in commands).encode(), []
        while len(replies) < len(commands):
            replies.append(self.reply())
        return replies

    def reply(self):
        """The next reply. Each has so many seconds of its own."""
        lines, left, until = [], MOST, time.monotonic() + self.seconds
        while left > 0 and (line := self.line(left, until)):
            left -= len(line)
            line = line.decode("latin-1").strip()
            if line and not lines and line[0] not in "=?":
                raise sgfsplit.Trouble(f"the engine doesn't speak the Go Text Protocol: {sgfsplit.escaped(line)}")
            if line:
                lines.append(line)
            elif lines:
                return lines[0].startswith("="), " ".join([lines[0][1:], *lines[1:]]).strip()
        raise sgfsplit.Trouble("the engine ended without a reply" if left > 0 else "a reply of the engine is too long")

    def line(self, most, until):
        """The next line of the engine's output, or its first `most` bytes; empty at the end of the output."""
        while b"\n" not in self.given and len(self.given) < most:
            if not self.exchange(until):
                return b""
        end = self.given.find(b"\n", 0, most) + 1 or most
        line = bytes(self.given[:end])
        del self.given[:end]
        return line

    def exchange(self, until):
        """Sends what is left of the commands and takes what the engine has written, as far as both go now. Waits until one of them goes.
        Returns whether the output goes on."""
        seconds = max(until - time.monotonic(), 0)
        reads, writes, _ = select.select([self.run.stdout], [self.run.stdin] if self.left else [], [], seconds)
        if not reads and not writes:
            raise sgfsplit.Trouble(f"the engine gave no answer in {self.seconds} s (--timeout sets another limit)")
        try:
            self.left = self.left[os.write(self.run.stdin.fileno(), self.left):] if writes else self.left
        except BlockingIOError:
            pass
        except OSError:
            self.left = b""  # the engine has ended: the missing reply shows it
        if not reads:
            return True
        piece = os.read(self.run.stdout.fileno(), sgfsplit.PIECE)
        self.given += piece
        return piece != b""

    def stones(self, side):
        """The stones on the engine's board, by point."""
        replies = self.ask(["list_stones black", "list_stones white"])
        try:
            return {goboard.point_at(vertex, side): colour for colour, (_, text) in zip("BW", replies) for vertex in text.split()}
        except ValueError as error:
            raise sgfsplit.Trouble("the engine lists stones at points that it doesn't name as the Go Text Protocol does") from error


def commands_of(script):
    """The commands of a script, without its comments."""
    return [line.decode() for line in script.split(b"\n") if COMMAND.fullmatch(line)]


def is_of_setup(record, end, commands):
    """Whether the stones after these commands are the first stones of a setup. The engine plays a setup stone by stone, so it has seen that
    position."""
    board = goboard.Board(goboard.side_of(record))
    for words in (command.split() for command in commands):
        if words[0] == "clear_board":
            board.stones.clear()
        elif words[0] == "play" and words[2] != "pass":
            board.play(words[1], goboard.point_at(words[2], board.side))
    for set_up, is_setup in goboard.boards(record, end):
        if is_setup and len(board.stones) < len(set_up.stones):
            in_order = sorted(set_up.stones.items(), key=lambda stone: (stone[1], stone[0][1], stone[0][0]))
            if dict(in_order[:len(board.stones)]) == board.stones:
                return True
    return False


def forbidden(record, end, side, reason):
    """The command of the illegal move, if an engine must refuse it; else None."""
    if reason not in ("occupied", "repeat"):
        return None
    (colour, value), = [(name, value) for name, values in next(goboard.nodes(record, end)) if name in ("B", "W") for value in values]
    return f"play {colour} {goboard.vertex_of(goboard.point_of(value, side), side)}"


def compare(engine, row, record, end, script):
    """What differs in a line, as text; None if nothing differs; False if the line is left out."""
    commands = commands_of(script)
    if not commands or not engine.ask(commands[:1])[0][0]:
        return False
    for number, (accepted, text) in enumerate(engine.ask(commands[1:]), 1):
        if not accepted:
            return False if is_of_setup(record, end, commands[:number + 1]) else f"the engine refuses {commands[number]}: {text}"
    board = goboard.played(record, end)
    if row.verdict == "score" and board.area() != (row.black, row.white):
        return f"the area of its stones is {board.area()}"
    stones = engine.stones(board.side) if engine.lists_stones else board.stones
    if stones != board.stones:
        return f"other stones stand on the engine's board, at {differences(stones, board)}"
    move = forbidden(record, end, board.side, row.reason)
    if move is not None and engine.ask([move])[0][0]:
        return f"the engine accepts {move}: {row.reason}"
    return None


def differences(stones, board):
    points = sorted(point for point in {*stones, *board.stones} if stones.get(point) != board.stones.get(point))
    return " ".join(goboard.vertex_of(point, board.side) for point in points)


def main(job):
    counts = {"agree": 0, "differ": 0, "left out": 0}
    seconds = tool.number_of(job.options.get("--timeout", str(SECONDS)), 1, 86400, "--timeout wants how many seconds")
    with Engine(os.environ.get("ENGINE") or GNUGO, seconds) as engine:
        for name in job.files():
            with job.going_on():
                for row, record, end, script in goboard.records(name, "gtp"):
                    said = False if row.verdict == "unjudged" else compare(engine, row, record, end, script)
                    counts["left out" if said is False else "agree" if said is None else "differ"] += 1
                    if said:
                        print(f"{sgfsplit.shown(name)}: {row}: {sgfsplit.escaped(said)}")
    print(f"{counts['agree']} lines agree, {counts['differ']} differ, {counts['left out']} left out")
    job.status = job.status or int(counts["differ"] > 0)


if __name__ == "__main__":
    tool.start(main, USAGE, values=("--timeout",))
