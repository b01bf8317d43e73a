#!/usr/bin/env python3
"""Shows that the work of a run grows with the nodes of the lines that it writes, not with the total length of these lines. It takes trees
of three shapes in three sizes each. It prints the lines, the nodes, the total length of the lines, the nodes that a run in list form
plays, and its nanoseconds for each node.

  bench/plays.py [--repetitions N]

The program is bench/plays/main.rt.in. It isn't a crate of this repository, so that the gate doesn't prove it. It is built in the folder that
BENCH_FOLDER names, beside copies of the libraries. The first run proves them all, which takes minutes.
"""
import argparse
import os
import shutil
import subprocess
import sys
import tempfile

from hostile import long_line, point

HERE = os.path.dirname(os.path.abspath(__file__))
TOP = os.path.dirname(HERE)
LIBRARIES = ("sgf_properties", "sgf_outline", "sgf_tree", "tree_lines", "board_points", "key_trie", "board_stones", "board_past", "go_board",
             "judged_lines", "byte_streams", "sgf_lines")


def build():
    folder = os.environ.get("BENCH_FOLDER") or os.path.join(tempfile.gettempdir(), "sgfsplit-bench-plays")
    own = os.path.join(folder, "crates", "bench_plays")
    for part in ("src", "specs"):
        os.makedirs(os.path.join(own, part), exist_ok=True)
    shutil.copy(os.path.join(TOP, "HANDLES"), folder)
    with open(os.path.join(TOP, "crates.txt")) as given, open(os.path.join(folder, "crates.txt"), "w") as wanted:
        wanted.writelines(line for line in given if line.split(":")[0] in LIBRARIES)
        wanted.write("bench_plays: sgf_lines\n")
    for library in LIBRARIES:
        for part in ("src", "specs", "proofs"):
            at = os.path.join(folder, "crates", library, part)
            shutil.rmtree(at, ignore_errors=True)
            shutil.copytree(os.path.join(TOP, "crates", library, part), at)
    shutil.copy(os.path.join(HERE, "plays", "main.rt.in"), os.path.join(own, "src", "main.rt"))
    open(os.path.join(own, "specs", "Lib.antt"), "w").close()
    ran = subprocess.run(["rt", "run"], cwd=own, stdin=subprocess.DEVNULL, stdout=subprocess.PIPE, stderr=subprocess.STDOUT, text=True)
    program = os.path.join(own, "out", "bench_plays")
    if ran.returncode or not os.path.exists(program):
        sys.exit(ran.stdout[-2000:])
    return program


def trunk(count):
    """A long line of legal moves, with a variation of one node beside each move. The first line ends at the first variation."""
    front, moves = moves_of(count)
    text = front + "".join(f"(;C[])({move}" for move in moves) + ")" * count + ")"
    return text, sum(range(2, count + 2)) + count + 1


def line(count):
    front, moves = moves_of(count)
    return front + "".join(moves) + ")", count + 1


def variations(count):
    return "(;SZ[19]" + "".join(f"(;B[{point(i % 19, i // 19 % 19)}])" for i in range(count)) + ")", 2 * count


def moves_of(count):
    """The setup of a long line of legal moves on 19 by 19, which none ends, and that many moves."""
    text = long_line(12 * count + 4_000, 19)[:-1].split(";")
    return "(;" + text[1], [";" + move for move in text[2:count + 2]]


SHAPES = {
    "short variations off a long trunk": (trunk, (1_000, 10_000, 100_000)),
    "one line": (line, (10_000, 100_000, 1_000_000)),
    "variations of one node": (variations, (10_000, 100_000, 1_000_000)),
}


def main():
    words = argparse.ArgumentParser()
    words.add_argument("--repetitions", type=int, default=3)
    repetitions = words.parse_args().repetitions
    program = build()
    print(f"{'shape':36}{'lines':>9}{'nodes':>9}{'summed length':>15}{'plays':>9}{'ns a node':>11}")
    for name, (shape, sizes) in SHAPES.items():
        for size in sizes:
            text, summed = shape(size)
            best = None
            for _ in range(repetitions):
                ran = subprocess.run([program], input=text.encode(), stdout=subprocess.PIPE, check=True)
                lines, nodes, plays, nanoseconds = map(int, ran.stdout.split())
                best = min(best or nanoseconds, nanoseconds)
            print(f"{name:36}{lines:9}{nodes:9}{summed:15}{plays:9}{best / nodes:11.0f}", flush=True)


if __name__ == "__main__":
    main()
