#!/usr/bin/env python3
USAGE = """prose.py < mail.txt | sgfsplit split
prose.py [-0] OUT FILE|FOLDER..

Writes spaces over the text around the games, such as mail headers or a
signature. Line feeds stay, and so does every place: sgfsplit names a fault by
its place in the mail. A game begins at a `(` that a `;` follows, and ends with
the matching `)`. If this `)` is missing, the game goes to the end of the text,
and sgfsplit refuses it at its first faulty byte. OUT/dir/name.sgf gets the text
of dir/name.sgf, and OUT/dir/mail.txt.sgf gets the text of dir/mail.txt.

  prose.py < mail.txt | sgfsplit split
  prose.py clean mails/*.txt && verdicts.py clean

Prose that looks like a game, such as `(;`, is treated as a game, and sgfsplit
refuses it. Status 1: a file was refused, for example because it has more than
256 MiB.
"""
import os
import sys

sys.path.insert(0, os.path.dirname(os.path.realpath(__file__)))  # with PYTHONSAFEPATH it isn't there
import tool

import re

import goboard
import sgfsplit

BEGIN = re.compile(rb"\([ \t\n\r\v\f]*;")
SPACES = bytes(10 if byte == 10 else 32 for byte in range(256))  # for each byte what is written over it in prose


def games(text):
    """The beginning and end of each game."""
    at = 0
    while begin := BEGIN.search(text, at):
        depth, at = 0, len(text)
        for place, end in goboard.tokens(text, begin.start(), goboard.PARENTHESES):
            depth += {b"(": 1, b")": -1}.get(text[place:end], 0)
            if depth == 0:
                at = end
                break
        yield begin.start(), at


def without_prose(text):
    """The pieces of the text, with spaces instead of the text around its games. Line feeds stay, and so does a byte order mark at the start."""
    last = 3 if text[:3] == b"\xef\xbb\xbf" else 0
    yield text[:last]
    for begin, end in games(text):
        yield text[last:begin].translate(SPACES)
        yield text[begin:end]
        last = end
    yield text[last:].translate(SPACES)


def read(file, name):
    text = sgfsplit.read_from(file, name, sgfsplit.MOST + 1)
    if len(text) > sgfsplit.MOST:
        raise sgfsplit.Refused(f"{sgfsplit.shown(name)}: it is longer than {sgfsplit.MOST} bytes")
    return text


def main(job):
    if not job.first:
        with job.going_on():
            sys.stdout.buffer.writelines(without_prose(read(sys.stdin.buffer, "standard input")))
        return
    for name, path in job.outputs(job.first[0], ".sgf", ".sgf"):
        with job.going_on():
            with sgfsplit.opened(name) as file:
                text = read(file, name)
            with sgfsplit.written(path) as file:
                file.writelines(without_prose(text))


if __name__ == "__main__":
    tool.start(main, USAGE, first=1, is_filter=True)
