#!/usr/bin/env python3
USAGE = """verdicts.py [--csv|--json|--sqlite DB] [-0] FILE|FOLDER..

Makes one table for a library, with a row for each line of play. Its columns are
file, place, game, nodes, verdict, black, white, ended, turn, fault (the place
of the illegal node) and reason. A field that a verdict doesn't have is `-` in
columns, empty in CSV, and null in JSON and SQLite.

  verdicts.py library                      as columns
  verdicts.py --csv library > table.csv
  verdicts.py --json library               each row an object
  verdicts.py --sqlite games.db library    the table `lines` of a database

SQLite's table is filled in one transaction. If you fill it again, the new rows
of a file replace its old rows. A refused file has no rows. If the system failed
while a file was split, its old rows stay. If another process has the database
locked, the tool waits up to ten minutes. A file's name that isn't UTF-8 is
stored as a BLOB. A table `lines` that isn't one of this tool is refused.
A spreadsheet may take a file's name in CSV that begins with `=` for a formula
and run it, so import the column as text. Status 1: a file was refused.
"""
import os
import sys

sys.path.insert(0, os.path.dirname(os.path.realpath(__file__)))  # with PYTHONSAFEPATH it isn't there
import tool

import contextlib
import csv
import json
import sqlite3

import sgfsplit

COLUMNS = ("file", *sgfsplit.Row._fields)
KEY = ("file", "place")
WIDTHS = (9, 6, 6, 8, 5, 5, 5, 5, 9, 9)
FORMS = ("--csv", "--json", "--sqlite")
SECONDS, TIMES = 1, 600  # how long a locked database is waited for, and how often


def table(job):
    """Each row of each file, as a tuple that begins with the file's name."""
    for name in job.files():
        with job.going_on():
            for row in sgfsplit.rows(name):
                yield (name, *row)


def as_columns(job):
    files = list(job.files())
    job.names, widest = files, max([len(sgfsplit.shown(name)) for name in files], default=4)
    for name, *cells in head_and(table(job)):
        words = ("-" if cell is None else str(cell) for cell in cells)
        print(sgfsplit.shown(name).ljust(widest), *(word.rjust(width) for word, width in zip(words, WIDTHS)))


def head_and(rows):
    yield COLUMNS
    yield from rows


class Csv:
    """Standard output for csv.writer, which puts a carriage return between quotes only if rows end with one. So it is taken off here."""

    def write(self, row):
        sys.stdout.write(row[:-2] + "\n")


def as_csv(job):
    named = sgfsplit.shown if sys.stdout.isatty() else sgfsplit.in_utf8  # no name may give orders to a terminal
    csv.writer(Csv(), lineterminator="\r\n").writerows((named(name), *cells) for name, *cells in head_and(table(job)))


def as_json(job):
    for name, *cells in table(job):
        print(json.dumps(dict(zip(COLUMNS, (sgfsplit.in_utf8(name), *cells)))))


def as_sqlite(job):
    path, job.names = job.options["--sqlite"], list(job.files())
    if path in ("", ":memory:"):
        raise tool.Words("--sqlite wants the path of a file")
    for name in job.names:
        if any(sgfsplit.is_same(name, path + ending) for ending in ("", "-journal", "-wal", "-shm")):
            raise tool.Words(f"{sgfsplit.shown(name)} is a file of the database")
    with contextlib.closing(sqlite3.connect(path, timeout=SECONDS, isolation_level=None)) as base:
        patiently(base, path, "BEGIN IMMEDIATE")
        base.execute(f"CREATE TABLE IF NOT EXISTS lines ({', '.join(COLUMNS)}, PRIMARY KEY ({', '.join(KEY)}))")
        if not is_ours(base):
            raise sgfsplit.Trouble(f"{sgfsplit.shown(path)}: its table `lines` isn't one of this tool")
        for name in job.names:
            with job.going_on():
                replace(base, name)
        patiently(base, path, "COMMIT")


def is_ours(base):
    """Whether the table `lines` has our columns and our key. It may have more columns, in any order."""
    columns = {name: number for _, name, _, _, _, number in base.execute("PRAGMA table_info(lines)")}
    return set(COLUMNS) <= set(columns) and set(KEY) == {name for name, number in columns.items() if number}


def patiently(base, path, command):
    """Executes a command. Waits for another process that has the database locked, and says so."""
    for time in range(TIMES):
        try:
            return base.execute(command)
        except sqlite3.OperationalError as error:
            if "locked" not in str(error) or time == TIMES - 1:
                raise
        if time == 0:
            sgfsplit.say(f"{sgfsplit.shown(path)}: another process has it locked; waiting")


def replace(base, name):
    """Puts the rows of a file, or none if it is refused, in the place of its old rows. If the system failed, these stay."""
    rows, refused = [], None
    try:
        rows = list(sgfsplit.rows(name))
    except sgfsplit.Failed:
        raise
    except sgfsplit.Refused as error:
        refused = error
    key = as_text(name)
    base.execute("DELETE FROM lines WHERE file = ?", (key,))
    places = ", ".join("?" * len(COLUMNS))
    base.executemany(f"INSERT INTO lines ({', '.join(COLUMNS)}) VALUES ({places})", ((key, *row) for row in rows))
    if refused is not None:
        raise refused


def as_text(name):
    """The name, or its bytes if it isn't UTF-8, whatever the locale."""
    try:
        return os.fsencode(name).decode()
    except UnicodeDecodeError:
        return os.fsencode(name)


def main(job):
    forms = [form for form in FORMS if form in job.options]
    if len(forms) > 1:
        raise tool.Words(f"{forms[0]} or {forms[1]}, not both")
    try:
        {"--csv": as_csv, "--json": as_json, "--sqlite": as_sqlite, None: as_columns}[forms[0] if forms else None](job)
    except sqlite3.Error as error:
        raise sgfsplit.Trouble(f"{sgfsplit.shown(job.options['--sqlite'])}: {error}") from error


if __name__ == "__main__":
    tool.start(main, USAGE, flags=("--csv", "--json"), values=("--sqlite",))
