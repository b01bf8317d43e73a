#!/usr/bin/env python3
USAGE = """illegal_lines.py [-0] FILE|FOLDER..

Lists the lines of play in which the referee finds an illegal node. Each row
has the place of that node, the turn, what is played or set up there, and the
reason. Rows have the form of compiler messages, so editors can jump to places:
FILE:LINE:COLUMN: turn TURN: B[tt]: over

  illegal_lines.py library
  illegal_lines.py library | sed 's/.*: //' | sort | uniq -c
                                 counts each reason
  illegal_lines.py library | uniq -c
                                 counts the lines that each node spoils

Status 1: a file was refused. Illegal lines don't change the status.
"""
import os
import sys

sys.path.insert(0, os.path.dirname(os.path.realpath(__file__)))  # with PYTHONSAFEPATH it isn't there
import tool

import goboard
import sgfsplit

MOVES = ("B", "W")
SETUPS = ("AB", "AW", "AE", "PL")
SHOWN = {"mixed": MOVES + SETUPS, "bad-setup": SETUPS}
MOST = 60


def told(node, reason):
    """Those properties of a node that the reason is about, in one row. A long text is shortened."""
    text = "".join(name + "".join(f"[{value.decode('utf-8', 'replace')}]" for value in values)
                   for name, values in node if name in SHOWN.get(reason, MOVES))
    return sgfsplit.escaped(text if len(text) <= MOST else text[:MOST] + "..")


def main(job):
    for name in job.files():
        with job.going_on():
            text = sgfsplit.read(name)
            place_of, last, what = sgfsplit.Places(text), None, None
            for row in sgfsplit.rows(text):
                if row.verdict == "illegal":
                    if row.fault != last:  # lines that share an illegal node follow one another
                        line, column = place_of(row.fault)
                        last, what = row.fault, f"{told(next(goboard.nodes(text.data, row.fault)), row.reason)}: {row.reason}"
                    print(f"{sgfsplit.shown(name)}:{line}:{column}: turn {row.turn}: {what}")


if __name__ == "__main__":
    tool.start(main, USAGE)
