#!/usr/bin/env python3
"""Measures sgf_tree alone: reading a collection, and steps over nodes that are as large as an input can make them.

  bench/tree.py [--repetitions N] [FILE..]     reading each FILE; without FILE one input of each kind of bench/games.py, of 4,000,000 bytes
  bench/tree.py --nodes [--repetitions N]      nanoseconds a byte of steps over large nodes, each in three sizes
  bench/tree.py --nodes --instructions         instructions a byte of smaller nodes, counted by valgrind: no noise, but a minute

bench/tree.sh proves and builds the program (READER names one that is built already). If PEER names another program with the word `count`,
it reads the same files, by turns, and the ratios of time and peak memory are printed.
"""
import argparse
import os
import re
import statistics
import subprocess
import sys
import tempfile

from compare import HERE, KINDS, PEER, peak, run

# The parts of a large node: the text before, the repeated part, the text after, and the greatest number of repeated parts.
NODES = {
    "properties": (b"(;", b"B[aa]", b")", 2_000_000),
    "values": (b"(;AB", b"[]", b")", 20_000_000),
    "values on lines": (b"(;AB", b"[aa]\n", b")", 4_000_000),
    "a name in lower case": (b"(;B", b"a", b"[aa])", 20_000_000),
    "escapes": (b"(;C[", b"\\]", b"])", 10_000_000),
    "white space": (b"(;", b"\n", b")", 20_000_000),
}
TASKS = {"read": [], "iter": ["iter"], "written": ["written"]}


def seconds(command, path, repetitions):
    """The least processor time of reading the file on standard input. A difference of medians would mostly be noise."""
    times = []
    for _ in range(repetitions):
        with open(path, "rb") as file:
            times.append(run(command, file)[1])
    return min(times)


def instructions(command, path):
    """Thousands of millions of instructions, so that they print as nanoseconds do."""
    with open(path, "rb") as file:
        counted = subprocess.run(["valgrind", "--tool=callgrind", "--callgrind-out-file=/dev/null"] + command, stdin=file,
                                 stdout=subprocess.DEVNULL, stderr=subprocess.PIPE, check=True)
    return int(re.search(rb"Collected : (\d+)", counted.stderr)[1]) / 1e9


def reading(program, paths, repetitions):
    for path in paths:
        commands = [[program]] + ([[PEER, "count"]] if PEER else [])
        times = [[] for _ in commands]
        for turn in range(repetitions):
            for which in range(len(commands))[:: 1 if turn % 2 else -1]:
                with open(path, "rb") as file:
                    times[which].append(run(commands[which], file)[0])
        middle = [statistics.median(each) for each in times]
        most = []
        for command in commands:
            with open(path, "rb") as file:
                most.append(peak(command, file) or 0)
        line = f"{os.path.basename(path):16} {os.path.getsize(path):10} bytes {middle[0]:8.4f} s {most[0]:7.1f} MiB"
        if PEER:
            line += f"   the other {middle[1]:8.4f} s {most[1]:7.1f} MiB   ratios {middle[0] / middle[1]:5.2f} {most[0] / max(most[1], 0.1):5.2f}"
        print(line, flush=True)


def nodes(program, folder, repetitions, counts):
    print(f"{'a node of':22} {'bytes':>10}  {'instructions' if counts else 'nanoseconds'} a byte: read, and more than that to step over, to write")
    path = os.path.join(folder, "node.sgf")
    for name, (before, part, after, count) in NODES.items():
        for share in (256, 64, 16) if counts else (16, 4, 1):
            with open(path, "wb") as file:
                file.write(before + part * (count // share) + after)
            size = os.path.getsize(path)
            commands = [[program] + words for words in TASKS.values()]
            read, stepped, written = (instructions(c, path) if counts else seconds(c, path, repetitions) for c in commands)
            print(f"{name:22} {size:10}  {read / size * 1e9:6.2f} {(stepped - read) / size * 1e9:6.2f} {(written - read) / size * 1e9:6.2f}", flush=True)


def main():
    parser = argparse.ArgumentParser()
    parser.add_argument("--nodes", action="store_true")
    parser.add_argument("--instructions", action="store_true")
    parser.add_argument("--repetitions", type=int, default=9)
    parser.add_argument("files", nargs="*")
    arguments = parser.parse_args()
    program = os.environ.get("READER")
    if not program:
        program = subprocess.run([os.path.join(HERE, "tree.sh")], stdout=subprocess.PIPE, check=True, text=True).stdout.strip()
    with tempfile.TemporaryDirectory() as folder:
        if arguments.nodes:
            nodes(program, folder, arguments.repetitions, arguments.instructions)
            return
        paths = arguments.files
        if not paths:
            for kind in KINDS:
                paths.append(os.path.join(folder, kind + ".sgf"))
                with open(paths[-1], "wb") as file:
                    subprocess.run([sys.executable, os.path.join(HERE, "games.py"), kind, "4000000"], stdout=file, check=True)
        reading(program, paths, arguments.repetitions)


if __name__ == "__main__":
    main()
