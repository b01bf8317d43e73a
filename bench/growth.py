#!/usr/bin/env python3
"""Measures how time and memory grow with the input, and draws it.

  bench/growth.py [--kind KIND] [--largest MIB] [--repetitions N] [--table FILE] [--drawing FILE.svg]
  bench/growth.py --from FILE --drawing FILE.svg      draws the numbers of an earlier run

The inputs are those of bench/games.py from 1 MiB on, each twice as large as the one before. For each form it measures the median wall time
and the peak memory of sgfsplit (the program that SGFSPLIT names), and of the one that PEER names, if any. The lower bound is `wc -l`, which looks at
each byte once.
"""
import argparse
import math
import os
import statistics
import subprocess
import sys
import tempfile

from compare import HERE, PEER, PROGRAM, peak, run, words

FORMS = ["list", "sgf", "gtp", "count"]
COLOURS = {**dict(zip(FORMS, ["#1f77b4", "#2ca02c", "#d62728", "#ff7f0e", "#8c564b", "#17becf"])), "count": "#9467bd", "scan": "#555555"}
WIDTH, HEIGHT, LEFT, TOP = 440, 330, 70, 40


def measure(arguments):
    """Rows of program, form, bytes, seconds, MiB."""
    rows = []
    with tempfile.TemporaryDirectory() as folder:
        size = 1 << 20
        while size <= arguments.largest << 20:
            path = os.path.join(folder, "input.sgf")
            with open(path, "wb") as file:
                # The text may be longer than its size by a game; a file over the limit would be refused.
                subprocess.run([sys.executable, os.path.join(HERE, "games.py"), arguments.kind, str(size - 65536)], stdout=file, check=True)
            length = os.path.getsize(path)
            commands = [("sgfsplit", form, words(PROGRAM, form, path)) for form in FORMS]
            if PEER:
                commands += [("peer", form, words(PEER, form, path)) for form in FORMS]
            commands.append(("wc", "scan", ["wc", "-l", path]))
            times = {command[:2]: [] for command in commands}
            for _ in range(arguments.repetitions):
                for program, form, command in commands:
                    times[program, form].append(run(command)[0])
            for program, form, command in commands:
                rows.append((program, form, length, statistics.median(times[program, form]), peak(command) or 0))
                print("{:9} {:6} {:10} {:9.4f} s {:8.1f} MiB".format(*rows[-1]), flush=True)
            size *= 2
    return rows


def panel(rows, column, title, unit, left):
    """One plot with both axes in powers of two, as lines of SVG."""
    xs = [math.log2(row[2] / 2**20) for row in rows]
    ys = [math.log2(max(row[column], 1e-4)) for row in rows]
    low_x, high_x, low_y, high_y = min(xs), max(xs), math.floor(min(ys)), math.ceil(max(ys))
    across = lambda x: left + LEFT + (x - low_x) / (high_x - low_x) * (WIDTH - LEFT - 20)
    down = lambda y: TOP + (high_y - y) / (high_y - low_y) * (HEIGHT - TOP - 50)
    svg = [f'<text x="{left + LEFT}" y="{TOP - 16}" font-weight="bold">{title}</text>']
    for power in range(low_y, high_y + 1):
        svg.append(f'<path d="M{across(low_x):.1f} {down(power):.1f}H{across(high_x):.1f}" stroke="#ddd"/>')
        if (power - low_y) % 2 == 0:
            value = 2.0**power
            text = f"{value:.0f} " if value >= 1 else f"{value * 1000:.{0 if value > 0.01 else 1}f} m"
            svg.append(f'<text x="{left + LEFT - 6}" y="{down(power) + 4:.1f}" text-anchor="end">{text}{unit}</text>')
    for power in range(round(low_x), round(high_x) + 1):
        svg.append(f'<text x="{across(power):.1f}" y="{HEIGHT - 30}" text-anchor="middle">{2**power}</text>')
    svg.append(f'<text x="{left + WIDTH / 2}" y="{HEIGHT - 12}" text-anchor="middle">MiB of input</text>')
    for program, form in dict.fromkeys((row[0], row[1]) for row in rows):
        points = " ".join(f"{across(math.log2(row[2] / 2**20)):.1f},{down(math.log2(max(row[column], 1e-4))):.1f}"
                          for row in rows if row[:2] == (program, form))
        dashed = ' stroke-dasharray="5 4"' if program == "peer" else ""
        svg.append(f'<polyline points="{points}" fill="none" stroke="{COLOURS[form]}" stroke-width="2"{dashed}/>')
    return svg


def drawing(rows):
    total = 2 * WIDTH
    svg = [f'<svg xmlns="http://www.w3.org/2000/svg" viewBox="0 0 {total} {HEIGHT + 30}" font-family="sans-serif" font-size="12">',
           f'<rect width="{total}" height="{HEIGHT + 30}" fill="white"/>']
    svg += panel(rows, 3, "Time", "s", 0) + panel(rows, 4, "Peak memory", "MiB", WIDTH)
    x = LEFT
    labels = FORMS + ["scan"]
    for form in labels:
        name = form if form != "scan" else "wc -l"
        svg.append(f'<path d="M{x} {HEIGHT + 14}h24" stroke="{COLOURS[form]}" stroke-width="2"/>'
                   f'<text x="{x + 30}" y="{HEIGHT + 18}">{name}</text>')
        x += 90
    if any(row[0] == "peer" for row in rows):
        svg.append(f'<path d="M{x} {HEIGHT + 14}h24" stroke="black" stroke-width="2" stroke-dasharray="5 4"/>'
                   f'<text x="{x + 30}" y="{HEIGHT + 18}">a plain Rust program for the same job</text>')
    return "\n".join(svg + ["</svg>", ""])


def main():
    parser = argparse.ArgumentParser()
    parser.add_argument("--kind", default="library")
    parser.add_argument("--largest", type=int, default=64)
    parser.add_argument("--repetitions", type=int, default=5)
    parser.add_argument("--table")
    parser.add_argument("--from", dest="earlier")
    parser.add_argument("--drawing")
    arguments = parser.parse_args()
    if arguments.earlier:
        with open(arguments.earlier, encoding="utf-8") as file:
            cells = [line.split() for line in file]
        rows = [(c[0], c[1], int(c[2]), float(c[3]), float(c[4])) for c in cells]
    else:
        rows = measure(arguments)
    if arguments.table:
        with open(arguments.table, "w", encoding="utf-8") as file:
            for row in rows:
                file.write("{}\t{}\t{}\t{:.6f}\t{:.2f}\n".format(*row))
    if arguments.drawing:
        with open(arguments.drawing, "w", encoding="utf-8") as file:
            file.write(drawing(rows))


if __name__ == "__main__":
    main()
