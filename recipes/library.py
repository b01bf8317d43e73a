#!/usr/bin/env python3
USAGE = """library.py [--sshlogin MACHINES] [-0] OUT FILE|FOLDER..

Splits a library on all cores, with a progress bar. OUT/dir/name.rows gets the
rows of dir/name.sgf. If that file is refused, OUT/dir/name.fault gets the row
that says why. A later call splits only files that were added or changed since,
or that weren't split before.

  library.py out library         all .sgf files below the folder library
  library.py --sshlogin :,server1,server2 out library
                                 on these machines by GNU Parallel (: is this
                                 one); they must see the same folders
  find . -name '*.sgf' -mtime -7 -print0 | library.py -0 out

OUT/.done.jsonl keeps a checksum of each file that was split, and one of its
rows. If either has changed, the file is split again. Rows of deleted files
stay: remove OUT to begin anew. If a file can't be read, or the system fails,
what stands in OUT stays too, and the next call tries the file again.
Status 1: a file was refused.
"""
import os
import sys

sys.path.insert(0, os.path.dirname(os.path.realpath(__file__)))  # with PYTHONSAFEPATH it isn't there
import tool

import contextlib
import hashlib
import json
import shutil
import signal
import subprocess
import tempfile
import threading
from concurrent.futures import ThreadPoolExecutor, as_completed

import sgfsplit

FILES, FILES_THERE, BYTES = 64, 256, 4 << 20  # a batch ends at so many files here, at so many on other machines, or above so many bytes
DONE = ".done.jsonl"


def split_one(name, path, known):
    """Writes the rows of a file, unless `known` has the checksums of the file and of the rows that stand. Returns these two checksums, and
    None. If the file is refused, returns None and the row that says why."""
    try:
        if os.path.exists(name) and not os.path.isfile(name):
            raise sgfsplit.Failed(f"{sgfsplit.shown(name)}: not a file")
        text = sgfsplit.read(name)
        total = hashlib.blake2b(text.data, digest_size=16).hexdigest()
        if known is None or [total, total_of(path + ".rows")] != known or os.path.lexists(path + ".fault"):
            known = [total, keep(text, path)]
        return known, None
    except sgfsplit.Refused as error:
        return None, str(error)


def total_of(path):
    """The checksum of the file at the path, or None if no file can be read there."""
    try:
        if os.path.isfile(path):
            with open(path, "rb") as file:
                return sgfsplit.checksum(file)
    except OSError:
        pass
    return None


def keep(text, path):
    """Writes the rows of a text, or the row that says why it is refused. Then the other file, of an earlier call, is removed. Returns the
    checksum of the rows."""
    rows, fault = path + ".rows", path + ".fault"
    tool.check(rows, sgfsplit.ROW)
    tool.check_fault(path)
    try:
        with sgfsplit.written(rows) as file:
            sgfsplit.write_rows(file, text)
            total = sgfsplit.checksum(file)
        tool.remove(fault)
        return total
    except sgfsplit.Failed:
        raise
    except sgfsplit.Refused as refused:
        with contextlib.suppress(sgfsplit.Failed):  # the row is reported in any case
            with sgfsplit.written(fault) as file:
                file.write(f"{refused}\n".encode("utf-8", "surrogateescape"))
            tool.remove(rows)
        raise


def split_batch(batch):
    """The result for each file of a batch: its name, the path of its output without the ending, and what `split_one` returns. Names are as
    `in_utf8` gives them: another machine may have another locale."""
    return [(name, path, *split_one(named(name), named(path), known)) for name, path, known in batch]


def named(text):
    """The name that `in_utf8` has given as text."""
    return os.fsdecode(text.encode("utf-8", "surrogateescape"))


def batches(files, most):
    """The files in batches. A batch ends at `most` files, or when it has more than BYTES bytes. So no batch keeps a core busy for long."""
    batch, size = [], 0
    for name, path, known in files:
        batch.append((sgfsplit.in_utf8(name), sgfsplit.in_utf8(path), known))
        with contextlib.suppress(OSError):
            size += os.path.getsize(name)
        if len(batch) == most or size > BYTES:
            yield batch
            batch, size = [], 0
    if batch:
        yield batch


def answers_of(line):
    """The results for the files of a batch, in a row of a worker. Raises ValueError if it isn't such a row."""
    answers = json.loads(line)
    if not isinstance(answers, list):
        raise ValueError("no list")
    return answers


class Workers:
    """Processes that do batches, one for each thread that asks. Signals to the tool's group don't reach them: `end` ends them."""

    def __init__(self):
        self.all, self.own = [], threading.local()

    def ask(self, batch):
        """The answer to a batch. If its worker is killed, the batch isn't done, and the next batch gets a new worker."""
        try:
            if getattr(self.own, "worker", None) is None:
                self.own.worker = subprocess.Popen([sys.executable, os.path.abspath(__file__), "--batches"], start_new_session=True,
                                                   stdin=subprocess.PIPE, stdout=subprocess.PIPE)
                self.all.append(self.own.worker)
            self.own.worker.stdin.write(json.dumps(batch).encode() + b"\n")
            self.own.worker.stdin.flush()
            return answers_of(self.own.worker.stdout.readline())
        except (OSError, ValueError):
            self.own.worker = None
            return []

    def end(self):
        for worker in self.all:
            worker.terminate()
            worker.wait()


def here(work):
    """The answers to the batches, as they come in, from a worker on each core of this machine."""
    workers, pool = Workers(), ThreadPoolExecutor(len(os.sched_getaffinity(0)))
    try:
        for answer in as_completed([pool.submit(workers.ask, batch) for batch in work]):
            yield answer.result()
    finally:
        pool.shutdown(wait=False, cancel_futures=True)
        workers.end()


def there(work, machines):
    """The answers to the batches, from several machines, by GNU Parallel. No file's name is put on a command line: batches and answers are
    rows of JSON, and the command has only variables."""
    if shutil.which("parallel") is None:
        raise sgfsplit.Trouble("--sshlogin needs GNU Parallel, which isn't installed")
    settings = {"TOOL": os.path.abspath(__file__), "FOLDER": os.getcwd(), "SGFSPLIT": sgfsplit.program()}
    command = ["parallel", "--will-cite", "--pipe", "-N1", "--line-buffer", "--sshlogin", machines]
    command += [word for name in settings for word in ("--env", name)]
    with tempfile.TemporaryFile() as asked:
        asked.writelines(json.dumps(batch).encode() + b"\n" for batch in work)
        asked.seek(0)
        with subprocess.Popen([*command, 'cd "$FOLDER" && exec python3 "$TOOL" --batches'], env={**os.environ, **settings},
                              stdin=asked, stdout=subprocess.PIPE) as run:
            try:
                for line in run.stdout:
                    with contextlib.suppress(ValueError):  # another machine may write more than answers
                        yield answers_of(line)
            except BaseException:
                run.terminate()
                raise


def serve():
    """Does the batches on standard input, one in each row."""
    tool.end_by(signal.SIGINT, signal.SIGTERM, signal.SIGHUP)
    try:
        sgfsplit.program()
    except sgfsplit.Trouble as trouble:
        sys.exit(f"{os.uname().nodename}: {trouble}")
    for line in sys.stdin.buffer:
        answer = json.dumps(split_batch(json.loads(line)))
        try:
            print(answer, flush=True)
        except BrokenPipeError:
            os._exit(1)  # the tool was killed; an ordinary end would write to the pipe again


def bar(done, total):
    if sys.stderr.isatty():
        cells = 40 * done // total
        sgfsplit.say(f"\r[{'#' * cells}{' ' * (40 - cells)}] {done}/{total} files", end="" if done < total else "\n")


def known_of(path):
    """The results of earlier calls: for each path below OUT, the checksums of the file and of its rows, or None. A row that was cut off is
    ignored."""
    known = {}
    with open(path, "rb") as journal:
        for line in journal:
            with contextlib.suppress(TypeError, ValueError, RecursionError):
                place, *totals = json.loads(line)
                if isinstance(place, str) and (totals == [None] or len(totals) == 2 and all(isinstance(total, str) for total in totals)):
                    known[place] = None if totals == [None] else totals
    return known


def place_of(path, out):
    """The path below OUT by which .done.jsonl knows an output."""
    return sgfsplit.in_utf8(os.path.relpath(path, out))


def entry(place, totals):
    """The row of .done.jsonl about an output."""
    return json.dumps([place, *(totals or [None])]).encode() + b"\n"


def main(job):
    sgfsplit.program()
    out = job.first[0]
    pairs = list(job.outputs(out, "", ".rows", ".fault", DONE))
    sgfsplit.make_folders(out)
    done = os.path.join(out, DONE)
    with sgfsplit.locked(done) as journal:
        known = known_of(done)
        files = [(name, path, known.get(place_of(path, out))) for name, path in pairs]
        machines = job.options.get("--sshlogin")
        work = list(batches(files, FILES if machines is None else FILES_THERE))
        left, refused = {name for name, _, _ in files}, []
        for answers in here(work) if machines is None else there(work, machines):
            for name, path, totals, fault in answers:
                name, place = named(name), place_of(named(path), out)
                left.discard(name)
                known[place] = totals
                journal.write(entry(place, totals))
                if fault is not None:
                    refused.append((name, fault))
            journal.flush()
            bar(len(files) - len(left), len(files))
        with sgfsplit.written(done) as file:
            file.writelines(entry(place, known[place]) for place in sorted(known))
    for _, fault in sorted(refused):
        job.refuse(fault)
    for name in sorted(left):
        job.refuse(f"{sgfsplit.shown(name)}: not done")


if __name__ == "__main__":
    if sys.argv[1:] == ["--batches"]:
        serve()
    else:
        tool.start(main, USAGE, values=("--sshlogin",), first=1)
