#!/usr/bin/env python3
"""Prints the table of docs/COMPARED.md: what three programs do with the same inputs.

The programs are sgfsplit (the one that SGFSPLIT names, or else the one that make built), /usr/bin/sgfsplit of Debian's sgf2dg, and gnugo -l.
"""
import glob
import os
import re
import shutil
import subprocess
import tempfile

HERE = os.path.dirname(os.path.abspath(__file__))
PROGRAM = os.environ.get("SGFSPLIT", os.path.join(HERE, "..", "crates", "sgfsplit", "out", "sgfsplit"))
OTHER = "/usr/bin/sgfsplit"
GNUGO = shutil.which("gnugo", path=os.environ.get("PATH", "") + ":/usr/games")

EXAMPLES = [
    ("corner.sgf", "three answers, four lines"),
    ("handicap.sgf", "a handicap game"),
    ("ko.sgf", "a ko retaken at once in one of two lines"),
    ("two_games.sgf", "two games"),
    ("illegal.sgf", "each reason once"),
]
MADE = [
    ("White plays on Black's stone", "(;GM[1]SZ[9];B[aa];W[aa];B[bb])"),
    ("a stone off the board", "(;GM[1]SZ[9];B[zz];W[bb])"),
    ("a ko retaken at once", "(;SZ[4]AB[ba][ab][bc]AW[ca][db][cc][bb];B[cb];W[bb])"),
    ("a third pass, then a move", "(;GM[1]SZ[9];B[aa];W[tt];B[tt];W[tt];B[bb])"),
    ("White plays twice", "(;GM[1]SZ[9];B[aa];W[bb];W[cc])"),
    ("a move and setup in one node", "(;GM[1]SZ[9]AB[aa];B[bb]PL[B])"),
    ("two games, no variations", "(;GM[1]SZ[9];B[aa])(;GM[1]SZ[9];B[bb])"),
    ("a comment of 70,000 bytes", "(;GM[1]SZ[9];B[aa]C[" + "x" * 70000 + "](;W[bb])(;W[cc]))"),
    ("the end is missing", "(;GM[1]SZ[9];B[aa](;W[bb]"),
    ("mail headers in front", "From: someone\n\n(;GM[1]SZ[9];B[aa])"),
    ("not SGF at all", "one two three"),
]


def ours(path):
    run = subprocess.run([PROGRAM, "split", path], capture_output=True, text=True)
    if run.returncode:
        return f"{run.stderr.strip().removeprefix('sgfsplit: ')}; status {run.returncode}"
    rows = run.stdout.splitlines()
    reasons = [row.split()[-1] for row in rows if " illegal " in row]
    said = f"{len(rows)} line" + "s" * (len(rows) != 1)
    return said + (f", {len(reasons)} illegal: " + ", ".join(reasons) if reasons else "")


def other(path):
    name = os.path.basename(path)
    with tempfile.TemporaryDirectory() as folder:
        shutil.copy(path, folder)
        run = subprocess.run([OTHER, name], cwd=folder, capture_output=True, timeout=60)
        if run.returncode < 0:
            return "crashes"
        files = glob.glob(os.path.join(folder, glob.escape(name.removesuffix(".sgf")) + ".[0-9]*.sgf"))
        return f"{len(files)} file" + "s" * (len(files) != 1) + (f"; status {run.returncode}" if run.returncode else "")


def gnugo(path):
    run = subprocess.run([GNUGO, "--quiet", "-l", path, "--mode", "gtp"], input="move_history\nquit\n", capture_output=True, text=True, timeout=60)
    moves = len(re.findall(r"^(?:= )?(?:black|white) ", run.stdout, re.M))
    words = [line.strip() for line in (run.stderr + run.stdout).splitlines() if re.match(r"(WARNING|expected|Cannot|ERROR)", line)]
    said = f"{moves} move" + "s" * (moves != 1)
    if words:
        return said + "; says `" + words[0].rstrip(".") + "`" + (f"; status {run.returncode}" if run.returncode else "")
    return said + (f"; status {run.returncode}" if run.returncode else "; says nothing")


def main():
    print("| Input | sgfsplit | sgf2dg's sgfsplit | gnugo -l |")
    print("|---|---|---|---|")
    inputs = [(f"`examples/{name}`: {what}", os.path.join(HERE, "..", "examples", name)) for name, what in EXAMPLES]
    with tempfile.TemporaryDirectory() as folder:
        for number, (what, text) in enumerate(MADE):
            path = os.path.join(folder, f"input{number}.sgf")
            with open(path, "w", encoding="utf-8") as file:
                file.write(text)
            inputs.append((what, path))
        for what, path in inputs:
            print(f"| {what} | {ours(path)} | {other(path)} | {gnugo(path)} |")


main()
