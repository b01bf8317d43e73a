#!/usr/bin/env python3
USAGE = """go_on.py [-0] ROWS FILE
go_on.py [-0] FOLDER FILE|FOLDER..

Adds to ROWS the rows of the lines of play that were appended to FILE after the
last row of ROWS was written. ROWS is created if it doesn't exist. ROWS then has
the bytes of one run over the whole FILE, even if a killed run had cut ROWS off
at any byte.

  go_on.py rows.txt library.sgf
  go_on.py out library           out/library/name.rows for each
                                 library/name.sgf, as library.py keeps them

Append only whole games. ROWS may be a link to the rows. In a folder, the row
about an earlier fault of the file (out/library/name.fault) is removed. Status 1:
FILE was refused, or none of its lines has the last place of ROWS, because
earlier text changed. ROWS is then unchanged.
"""
import os
import sys

sys.path.insert(0, os.path.dirname(os.path.realpath(__file__)))  # with PYTHONSAFEPATH it isn't there
import tool

import re
import stat

import sgfsplit

CUT = re.compile(rb"([0-9]+[a-z0-9 -]*)?")
LONGEST = 200  # no row has as many bytes


def whole_rows(rows, path):
    """Returns the place of the last whole row of ROWS (None without such a row), and the number of bytes up to the end of that row."""
    begin = max(rows.seek(0, os.SEEK_END) - 2 * LONGEST, 0)
    rows.seek(begin)
    tail = rows.read(2 * LONGEST)
    whole = tail.rfind(b"\n") + 1
    first = tail.rfind(b"\n", 0, max(whole - 1, 0)) + 1
    last, cut = tail[first:whole], tail[whole:]
    if last and not sgfsplit.ROW.fullmatch(last) or not CUT.fullmatch(cut) or max(len(last), len(cut)) >= LONGEST:
        raise sgfsplit.Refused(f"{sgfsplit.shown(path)}: its last row isn't one of sgfsplit")
    return int(last.split()[0]) if last else None, begin + whole


def copy(old, new, size, path):
    """Copies the first bytes of a file."""
    old.seek(0)
    while size > 0:
        piece = old.read(min(size, sgfsplit.PIECE))
        if not piece:
            raise sgfsplit.Failed(f"{sgfsplit.shown(path)}: it was cut off while it was read")
        new.write(piece)
        size -= len(piece)


def keep_owner(old, new, path):
    """Gives the new file the owner, the group and the mode of the old one. If the system doesn't allow that, says so, and the members of the
    new group may do no more than all others may."""
    was, now = os.fstat(old.fileno()), os.fstat(new.fileno())
    mode, lost = stat.S_IMODE(was.st_mode), []
    for what, other, change in (("group", was.st_gid != now.st_gid, (-1, was.st_gid)), ("owner", was.st_uid != now.st_uid, (was.st_uid, -1))):
        try:
            if other:
                os.fchown(new.fileno(), *change)
        except OSError:
            lost.append(what)
    if "group" in lost:
        mode &= ~stat.S_IRWXG | (mode & stat.S_IRWXO) << 3
    os.fchmod(new.fileno(), mode)
    if lost:
        sgfsplit.say(f"{sgfsplit.shown(path)}: the system doesn't allow to keep the {' and the '.join(lost)} of the rows")


def go_on(path, name):
    """Adds to the rows at `path`, which may be a link to them, the rows of the later lines of the file `name`."""
    path = tool.real(path) if os.path.islink(path) else path
    text = sgfsplit.read(name)
    with sgfsplit.written(path) as new, open(path if os.path.exists(path) else os.devnull, "rb") as old:
        last, size = whole_rows(old, path)
        if old.name == path:
            keep_owner(old, new, path)
        copy(old, new, size, path)
        sgfsplit.write_rows(new, text, last)


def go_on_below(rows, name):
    """Does the same below a folder of library.py, where the row about a fault of the file may stand beside its rows."""
    path = rows[:-len(".rows")]
    tool.check_fault(path)
    go_on(rows, name)
    tool.remove(path + ".fault")


def main(job):
    path = job.first[0]
    if os.path.isdir(path) or path.endswith(os.sep):
        for name, rows in job.outputs(path, ".rows", ".rows", ".fault"):
            with job.going_on():
                go_on_below(rows, name)
        return
    names = list(job.files())
    if len(names) != 1:
        raise tool.Words(f"{sgfsplit.shown(path)} isn't a folder, so it takes one file")
    if sgfsplit.is_same(path, names[0]):
        raise tool.Words(f"{sgfsplit.shown(names[0])} is both ROWS and FILE")
    with job.going_on():
        go_on(path, names[0])


if __name__ == "__main__":
    tool.start(main, USAGE, first=1)
