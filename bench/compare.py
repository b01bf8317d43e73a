#!/usr/bin/env python3
"""Measures sgfsplit, and compares it with another program of the same words if there is one.

  bench/compare.py [--repetitions N] [--only NAME,..] [--forms list,sgf,gtp,count] [--bytes N] [--table FILE]
  bench/compare.py --instructions [--only ..] [--forms ..] [--bytes N]
  bench/compare.py --document [--repetitions N] [--only ..] [--forms ..] [--bytes N]

  SGFSPLIT   the program (crates/sgfsplit/out/sgfsplit)
  PEER       the program to compare with; without it only sgfsplit is measured
  INPUTS     a folder of inputs NAME.sgf; without it bench/games.py makes one of each kind, of 4,000,000 bytes or --bytes

It prints for each input and form the median of the wall times, the median of the processor times, and the peak memory. With PEER it checks
first that both programs write the same bytes. Then their runs take turns, and the ratios are printed too. Peak memory needs /usr/bin/time.
--table writes the numbers as tab-separated columns. The last line is the worst ratio.

--instructions counts instructions with valgrind instead, once for each program. PEER may then name several programs, with colons between
them. It prints a row for each input: for each form our millions of instructions, and the ratio to every other program.

--document measures both, and prints the two tables of docs/PERFORMANCE.md: that of --instructions, and one of our seconds with the ratios of
processor time, and the least and the greatest ratio of peak memory.

Standard error says what is measured next.
"""
import argparse
import glob
import hashlib
import os
import re
import statistics
import subprocess
import sys
import tempfile
import time

HERE = os.path.dirname(os.path.abspath(__file__))
PROGRAM = os.environ.get("SGFSPLIT", os.path.join(HERE, "..", "crates", "sgfsplit", "out", "sgfsplit"))
PEER = os.environ.get("PEER")
KINDS = ["library", "annotated", "joseki", "problems", "big", "long", "deep", "wide"]
SECONDS = 20  # an input and form is repeated no longer than this, but at least three times


def words(program, form, path):
    return [program, "count", path] if form == "count" else [program, "split", "--form", form, path]


def run(command, source=subprocess.DEVNULL):
    """Wall and processor seconds of one run."""
    start = time.perf_counter()
    child = subprocess.Popen(command, stdin=source, stdout=subprocess.DEVNULL)
    _, status, usage = os.wait4(child.pid, 0)
    child.returncode = status
    if status != 0:
        sys.exit(f"{' '.join(command)}: status {status}")
    return time.perf_counter() - start, usage.ru_utime + usage.ru_stime


def peak(command, source=subprocess.DEVNULL):
    """Peak memory in MiB. GNU time starts the program, because a child of Python would inherit Python's own peak."""
    if not os.path.exists("/usr/bin/time"):
        return None
    measured = subprocess.run(["/usr/bin/time", "-f", "peak %M"] + command, stdin=source,
                              stdout=subprocess.DEVNULL, stderr=subprocess.PIPE, check=True)
    return int(re.search(rb"peak (\d+)", measured.stderr)[1]) / 1024


def instructions(command):
    """Instructions of one run, as valgrind counts them."""
    counted = subprocess.run(["valgrind", "--tool=callgrind", "--callgrind-out-file=/dev/null"] + command, stdin=subprocess.DEVNULL,
                             stdout=subprocess.DEVNULL, stderr=subprocess.PIPE, check=True)
    return int(re.search(rb"Collected : (\d+)", counted.stderr)[1])


def progress(text):
    """Says what is measured next, because a run is silent for a while."""
    print(text, file=sys.stderr, flush=True)


def digest(command):
    child = subprocess.Popen(command, stdin=subprocess.DEVNULL, stdout=subprocess.PIPE)
    seen = hashlib.sha256()
    for piece in iter(lambda: child.stdout.read(1 << 20), b""):
        seen.update(piece)
    return child.wait(), seen.hexdigest()


def measured(programs, form, path, repetitions):
    """The median wall time, median processor time and peak memory of each program."""
    times = [[] for _ in programs]
    start = time.time()
    for number in range(repetitions):
        if number >= 3 and time.time() - start > SECONDS:
            break
        order = range(len(programs)) if number % 2 == 0 else reversed(range(len(programs)))
        for which in order:
            times[which].append(run(words(programs[which], form, path)))
    return [(statistics.median(t[0] for t in taken), statistics.median(t[1] for t in taken), peak(words(program, form, path)))
            for program, taken in zip(programs, times)]


def ratio(a, b):
    return a / b if a is not None and b else None


def shown(number, digits):
    return "-" if number is None else f"{number:.{digits}f}"


def inputs(arguments, folder):
    """The paths of the inputs: those in INPUTS, or else new ones made in the folder."""
    names = arguments.only.split(",") if arguments.only else None
    if "INPUTS" in os.environ:
        paths = sorted(glob.glob(os.path.join(os.environ["INPUTS"], "*.sgf")))
        return [path for path in paths if names is None or os.path.basename(path)[:-4] in names]
    paths = []
    for kind in KINDS if names is None else [kind for kind in KINDS if kind in names]:
        progress(f"making {kind}")
        paths.append(os.path.join(folder, kind + ".sgf"))
        with open(paths[-1], "wb") as file:
            subprocess.run([sys.executable, os.path.join(HERE, "games.py"), kind, str(arguments.bytes)], stdout=file, check=True)
    return paths


def count_instructions(arguments, paths):
    """Prints the table of instructions."""
    forms = arguments.forms.split(",")
    programs = [PROGRAM] + (PEER.split(":") if PEER else [])
    print("| Input | " + " | ".join(forms) + " |\n|" + "---|" * (len(forms) + 1))
    for path in paths:
        name = os.path.basename(path)[:-4]
        cells = []
        for form in forms:
            progress(f"counting {name} {form}")
            own, *others = [instructions(words(program, form, path)) for program in programs]
            cells.append(", ".join([f"{own / 1e6:,.0f}"] + [f"{own / other:.2f}" for other in others]))
        print(f"| {name} | " + " | ".join(cells) + " |", flush=True)


def print_table(heads, rows):
    print("| " + " | ".join(heads) + " |\n|" + "---|" * len(heads))
    for row in rows:
        print("| " + " | ".join(row) + " |")
    print(flush=True)


def measure_document(arguments, paths):
    """Prints the two tables of docs/PERFORMANCE.md."""
    forms = arguments.forms.split(",")
    programs = [PROGRAM] + (PEER.split(":") if PEER else [])
    counted, timed = [], []
    for path in paths:
        name = os.path.basename(path)[:-4]
        counts, times, memories = [f"`{name}`"], [f"`{name}`"], [[] for _ in programs[1:]]
        for form in forms:
            progress(f"measuring {name} {form}")
            own, *others = [instructions(words(program, form, path)) for program in programs]
            counts.append(", ".join([f"{own / 1e6:,.0f}"] + [f"{own / other:.2f}" for other in others]))
            (wall, cpu, memory), *others = measured(programs, form, path, arguments.repetitions)
            times.append(", ".join([f"{wall:.3f}"] + [f"{cpu / other[1]:.2f}" for other in others]))
            for ratios, other in zip(memories, others):
                ratios.append(ratio(memory, other[2]))
        counted.append(counts)
        timed.append(times + ["-" if None in ratios else f"{min(ratios):.2f} to {max(ratios):.2f}" for ratios in memories])
    print_table(["Input", *forms], counted)
    print_table(["Input", *forms, *(f"memory over {number}" for number, _ in enumerate(programs[1:], 1))], timed)


def main():
    parser = argparse.ArgumentParser()
    parser.add_argument("--repetitions", type=int, default=9)
    parser.add_argument("--only")
    parser.add_argument("--forms", default="list,sgf,gtp,count")
    parser.add_argument("--bytes", type=int, default=4_000_000)
    parser.add_argument("--table")
    parser.add_argument("--instructions", action="store_true")
    parser.add_argument("--document", action="store_true")
    arguments = parser.parse_args()
    if arguments.instructions or arguments.document:
        with tempfile.TemporaryDirectory() as folder:
            (measure_document if arguments.document else count_instructions)(arguments, inputs(arguments, folder))
        return
    programs = [PROGRAM] + ([PEER] if PEER else [])
    worst = (0.0, "-")
    table = []
    print(f"{'input':12}{'form':6}{'bytes':>10}{'s':>9}{'cpu s':>9}{'MiB':>8}"
          + (f"{'peer s':>10}{'peer MiB':>9}{'time':>7}{'cpu':>7}{'memory':>8}" if PEER else ""))
    with tempfile.TemporaryDirectory() as folder:
        for path in inputs(arguments, folder):
            name, size = os.path.basename(path)[:-4], os.path.getsize(path)
            for form in arguments.forms.split(","):
                progress(f"measuring {name} {form}")
                note = ""
                if PEER and digest(words(PROGRAM, form, path)) != digest(words(PEER, form, path)):
                    note = "  OUTPUTS DIFFER"
                numbers = measured(programs, form, path, arguments.repetitions)
                wall, cpu, memory = numbers[0]
                row = f"{name:12}{form:6}{size:10}{wall:9.4f}{cpu:9.4f}{shown(memory, 1):>8}"
                cells = [name, form, str(size), f"{wall:.6f}", shown(memory, 2)]
                if PEER:
                    peer_wall, peer_cpu, peer_memory = numbers[1]
                    worst = max(worst, (wall / peer_wall, f"{name} {form}"))
                    row += (f"{peer_wall:10.4f}{shown(peer_memory, 1):>9}{wall / peer_wall:7.2f}"
                            f"{shown(ratio(cpu, peer_cpu), 2):>7}{shown(ratio(memory, peer_memory), 2):>8}")
                    cells += [f"{peer_wall:.6f}", shown(peer_memory, 2)]
                print(row + note, flush=True)
                table.append(cells)
    if arguments.table:
        with open(arguments.table, "w", encoding="utf-8") as file:
            for cells in table:
                file.write("\t".join(cells) + "\n")
    if PEER:
        print(f"worst ratio {worst[0]:.2f}, {worst[1]}")


if __name__ == "__main__":
    main()
