#!/usr/bin/env python3
"""Times many small files: with a process of the program for each file, and with the Python module in one process.

  small_files.py [COUNT]      COUNT files (1767), each one of examples/*.sgf with its own number in a comment

Prints the median time for a file over several turns, and the number of bytes of a file. Both ways have to write the same rows.
"""
import glob
import os
import re
import statistics
import subprocess
import sys
import tempfile
import time
from concurrent.futures import ThreadPoolExecutor

TOP = os.path.dirname(os.path.dirname(os.path.abspath(__file__)))
PROGRAM = os.environ.get("SGFSPLIT", TOP + "/crates/sgfsplit/out/sgfsplit")
sys.path.insert(0, TOP + "/python")
import sgflines  # noqa: E402

TURNS = 7


def make_files(folder, count):
    """Files of one example each, and the number of their bytes."""
    texts = []
    for path in sorted(glob.glob(TOP + "/examples/*.sgf")):
        with open(path, "rb") as file:
            texts.append(file.read())
    paths = []
    for number in range(count):
        text = re.sub(rb"\(;", b"(;GC[file %d]" % number, texts[number % len(texts)], count=1)
        paths.append(f"{folder}/{number:05}.sgf")
        with open(paths[-1], "wb") as file:
            file.write(text)
    return paths, sum(map(os.path.getsize, paths))


def by_processes(paths, folder, jobs):
    """A process for each file, started by xargs."""
    with open(folder + "/names", "w", encoding="ascii") as file:
        file.write("\n".join(paths) + "\n")
    with open(folder + "/names", "rb") as names:
        return subprocess.run(["xargs", "-n", "1", "-P", str(jobs), PROGRAM, "split"], stdin=names, stdout=subprocess.PIPE, check=True).stdout


def rows_of(path):
    with open(path, "rb") as file:
        return sgflines.output(file.read())


def in_process(paths, jobs):
    """All files by the module in this process, with this number of threads."""
    if jobs == 1:
        return b"".join(map(rows_of, paths))
    with ThreadPoolExecutor(jobs) as pool:
        return b"".join(pool.map(rows_of, paths, chunksize=64))


def rows_as_tuples(paths):
    """All files by the module, each row as a named tuple."""
    total = 0
    for path in paths:
        with open(path, "rb") as file:
            total += len(sgflines.rows(file.read()))
    return total


def timed(name, count, call):
    """Prints the median time of a call for a file, and returns the result of the call."""
    times = []
    for _ in range(TURNS):
        start = time.perf_counter()
        given = call()
        times.append((time.perf_counter() - start) / count)
    print(f"{name:45} {statistics.median(times) * 1e6:9.1f} us a file, {min(times) * 1e6:.1f} at least")
    return given


def main():
    count = int(sys.argv[1]) if len(sys.argv) > 1 else 1767
    with tempfile.TemporaryDirectory() as folder:
        paths, size = make_files(folder, count)
        print(f"{count} files of {size / count:.0f} bytes")
        want = timed("a process each", count, lambda: by_processes(paths, folder, 1))
        timed("a process each, four at once", count, lambda: by_processes(paths, folder, 4))
        for jobs in (1, 4):
            got = timed(f"the module in one process, {jobs} thread{'s' * (jobs > 1)}", count, lambda: in_process(paths, jobs))
            if got != want:
                sys.exit("the module and the program differ")
        timed("the module, rows as named tuples", count, lambda: rows_as_tuples(paths))


if __name__ == "__main__":
    main()
