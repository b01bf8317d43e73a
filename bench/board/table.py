#!/usr/bin/env python3
"""table.py TIMES MEMORY OTHER ROUNDS: runs the built programs of bench/board.sh and prints their tables."""

import re
import subprocess
import sys

LINE = re.compile(r"side (\d+): (?:(\w+): )?turn (\d+) ns, undo (\d+) ns, score (\d+) ns")
STONES = {"print": 1 << 18, "list": 1 << 14}
LONG = 1_000_000


def times(program, name):
    """The times that one run of a program prints, by side and past."""
    text = subprocess.run([program], capture_output=True, text=True, check=True).stdout
    return {(int(side), past or name): [int(n) for n in found]
            for side, past, *found in LINE.findall(text)}


def least(old, new):
    """The least of the times of all runs."""
    for key, found in new.items():
        old[key] = [min(pair) for pair in zip(old.get(key, found), found)]


def peak(program, past, side, count):
    """The stones that were placed, and the greatest memory of the process, in bytes."""
    with subprocess.Popen([program, past, str(side), str(count)], text=True,
                          stdin=subprocess.PIPE, stdout=subprocess.PIPE) as run:
        stones = int(run.stdout.readline().split()[0])
        with open(f"/proc/{run.pid}/status", encoding="ascii") as status:
            most = int(re.search(r"VmHWM:\s+(\d+) kB", status.read())[1]) * 1024
        run.stdin.close()
    return stones, most


def main():
    program, memory, other, rounds = sys.argv[1:]
    found = {}
    for _ in range(int(rounds)):
        least(found, times(program, ""))
        if other:
            least(found, times(other, "other"))
    for side, past in sorted(found):
        turn, undo, score = found[side, past]
        line = f"side {side}: {past}: turn {turn} ns, undo {undo} ns, score {score} ns"
        if other and past != "other":
            by = [f"{a / max(b, 1):.1f}" for a, b in zip(found[side, past], found[side, "other"])]
            line += f" (by the other: {', '.join(by)})"
        print(line)
    for past, count in STONES.items():
        for side in (9, 19, 52):
            least_bytes = peak(memory, past, side, 0)[1]
            stones, most = peak(memory, past, side, count)
            print(f"side {side}: {past}: {(most - least_bytes) / max(stones, 1):.0f} bytes a stone ({stones} stones)")
    stones, most = peak(memory, "print", 19, LONG)
    print(f"side 19: print: {most / 1e6:.1f} MB at most in a game of {stones} stones")


main()
