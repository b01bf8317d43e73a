#!/usr/bin/env python3
USAGE = """files.py [--form FORM] [-0] OUT FILE|FOLDER..

Writes each line of play to a file of its own, whose name is the line's place:
OUT/dir/name/PLACE.sgf for dir/name.sgf. Another FORM is written in place of
sgf, in the name too. Line feeds and brackets in comments do no harm. A file
that already has the right bytes isn't written again. So if a call was stopped,
the next one goes on, and the lines of a changed game are written anew.

  files.py lines library
  files.py --form gtp scripts library

Files of lines that are gone stay: remove OUT to begin anew. Status 1: a file was
refused.
"""
import os
import sys

sys.path.insert(0, os.path.dirname(os.path.realpath(__file__)))  # with PYTHONSAFEPATH it isn't there
import tool

import sgfsplit


def write_lines(name, folder, form):
    for row, record in sgfsplit.rows_with(name, form):
        path = os.path.join(folder, f"{row.place}.{form}")
        if not holds(path, record):
            with sgfsplit.written(path) as file:
                file.write(record)


def holds(path, record):
    """Whether the file at the path has exactly these bytes."""
    try:
        return os.path.getsize(path) == len(record) and sgfsplit.read(path, len(record) + 1).data == record
    except (OSError, sgfsplit.Refused):
        return False


def main(job):
    form = job.options.get("--form", "sgf")
    if form not in sgfsplit.ENDS:
        raise tool.Words(f"--form wants one of {', '.join(sgfsplit.ENDS)}")
    for name, folder in job.outputs(job.first[0], "", "." + form):
        with job.going_on():
            write_lines(name, folder, form)


if __name__ == "__main__":
    tool.start(main, USAGE, values=("--form",), first=1)
