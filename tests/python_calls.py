#!/usr/bin/env python3
"""Tests what the module sgflines promises beside the program's answers: python_calls.py FOLDER, with the module's folder in PYTHONPATH.

FOLDER is empty, and not in a folder that all users may write to. The test tells of texts that aren't bytes, of wrong arguments, faults,
verdicts, rows one by one, threads and processes, of memory, and of where the library is looked for.
"""
import array
import copy
import functools
import itertools
import mmap
import multiprocessing
import os
import pickle
import resource
import shutil
import subprocess
import sys
import threading
import time
import typing

import sgflines

TWO = b"(;SZ[3](;B[aa])(;B[bb];W[aa]))"
CALLS = [sgflines.output, sgflines.rows, lambda text: sgflines.records(text, "sgf"), sgflines.count, lambda text: sgflines.judge(text, 8),
         lambda text: list(sgflines.iter_rows(text))]
LIBRARY = os.path.realpath(sgflines._LIBRARY._name)
with open(os.path.join(os.path.dirname(os.path.realpath(__file__)), "..", "packaging", "words.txt"), encoding="utf-8") as table:
    FORMS = [row.split()[1] for row in table if row.startswith("form ")]


def agree(what, want, got):
    if want != got:
        sys.exit(f"{what}: wanted {want!r:.300}, got {got!r:.300}")


def fault(call):
    """The exception that a call raises, with its traceback."""
    try:
        call()
    except Exception as raised:
        return raised
    sys.exit("a fault is wanted")


class Lying(bytes):
    """Bytes that lend others than their own, from Python 3.12 on."""

    def __buffer__(self, flags):
        return memoryview(TWO)


def every_type_of_text():
    """The answers are the same for each type that lends its bytes."""
    with mmap.mmap(-1, len(TWO)) as mapped:
        mapped[:] = TWO
        texts = [bytearray(TWO), memoryview(TWO), memoryview(b"  " + TWO)[2:], memoryview(TWO + TWO)[:len(TWO)], mapped,
                 type("Text", (bytes,), {})(TWO), array.array("B", TWO), memoryview(bytearray(TWO)).cast("H"), memoryview(TWO[::-1])[::-1]]
        for text in texts:
            for call in CALLS:
                agree(type(text).__name__, call(TWO), call(text))
    for text in ("(;)", 5, None, [40, 59, 41]):
        for call in CALLS:
            raised = fault(lambda: call(text))
            agree(f"no text: {text!r}", (TypeError, "a text"), (type(raised), str(raised)[:6]))
    agree("an empty bytearray", sgflines.EndsEarly, type(fault(lambda: sgflines.rows(bytearray()))))
    agree("too long a bytearray", sgflines.TooLong, type(fault(lambda: sgflines.rows(bytearray(67108865)))))


def too_long_a_text_is_not_copied(folder):
    """A file of 256 GiB without blocks, which no memory would hold."""
    with open(os.path.join(folder, "long"), "w+b") as file:
        file.truncate(1 << 38)
        with mmap.mmap(file.fileno(), 0, access=mmap.ACCESS_READ) as mapped:
            for call in CALLS:
                agree("too long a file", sgflines.TooLong, type(fault(lambda: call(mapped))))


def address_and_length_are_of_the_same_bytes():
    for call in CALLS:
        if sys.version_info >= (3, 12):
            agree("bytes that lend others", call(TWO), call(Lying(b"(;C[")))
        else:
            raised = fault(lambda: call(Lying(b"(;C[")))
            agree("bytes that lend their own", (sgflines.EndsEarly, 4), (type(raised), raised.at))


def texts_are_given_back():
    """A text can be resized and closed as soon as a call has returned or raised, while its fault is kept."""
    for call in CALLS:
        for text in (TWO, b"(;SZ[3]", b"(;)x"):
            lent = bytearray(text)
            raised = None
            try:
                call(lent)
            except sgflines.Fault as kept:
                raised = kept
            lent.extend(b" " * 1000)
            agree("a fault comes", text != TWO, raised is not None)
    with mmap.mmap(-1, 4096) as mapped:
        kept = fault(lambda: sgflines.rows(mapped))
    agree("the fault of a mapped file", (sgflines.NotSgf, 0), (type(kept), kept.at))


def a_fault_keeps_no_copy_of_the_text():
    """None of the functions of the module that the fault came through holds it."""
    for call in CALLS:
        for text in (bytearray(b"(;SZ[3]"), bytearray(b"(;)x")):
            trace, seen = fault(lambda: call(text)).__traceback__, 0
            while trace is not None:
                if trace.tb_frame.f_code.co_filename == sgflines.__file__:
                    held = [name for name, value in trace.tb_frame.f_locals.items() if value == text and value is not text]
                    agree(f"copies in {trace.tb_frame.f_code.co_name}", [], held)
                    seen += 1
                trace = trace.tb_next
            agree("the fault came through the module", True, seen > 1)


def rows_come_one_by_one():
    """They are those of the output, on either side of a page's end too. Faults and wrong arguments are raised before the first is asked for."""
    pair = b"(;B[aa])(;B[bb];W[cc])"
    text = b"(;SZ[5]" + pair * 5000 + b")"
    whole = sgflines.output(text).decode().splitlines()
    listed = sgflines.rows(text)
    agree("rows", whole, [f"{row.place} {row.game} {row.nodes} score {row.verdict.black} {row.verdict.white} open" for row in listed])
    first, least = sgflines._FIRST_PAGE, sgflines._LEAST_PAGE
    agree("there are more pages than two", True, len(listed) > first + 2 * least)
    for limit in (0, 1, first - 1, first, first + 1, first + least - 1, first + least, first + least + 1, 2 ** 64 - 1):
        agree(f"rows up to {limit}", listed[:limit], list(sgflines.iter_rows(text, limit=limit)))
    for at in (0, first - 1, first, first + least, len(listed) - first - 1, len(listed) - 2, len(listed) - 1):
        agree(f"rows after {at}", listed[at + 1:], list(sgflines.iter_rows(text, after=listed[at].place)))
        agree(f"a row after {at}", listed[at + 1:][:1], list(sgflines.iter_rows(text, listed[at].place, 1)))
    agree("a text of one page", first, len(list(sgflines.iter_rows(b"(;SZ[5]" + pair * (first // 2) + b")"))))
    for call in (lambda: sgflines.iter_rows(b"(;)x"), lambda: sgflines.iter_rows(TWO, after=9), lambda: sgflines.iter_rows("(;)"),
                 lambda: sgflines.iter_rows(TWO, limit=-1), lambda: sgflines.iter_rows(TWO, after=1.0)):
        agree("raised by the call", True, isinstance(fault(call), (ValueError, TypeError)))
    lent = bytearray(text)
    given = sgflines.iter_rows(lent)
    begun = [next(given) for _ in range(3)]
    lent[:] = b" " * 9
    agree("rows of a text that is gone", listed, begun + list(given))


def the_first_row_comes_early():
    """It takes far less time than all rows, since not all lines are judged for it."""
    text = b"(;SZ[19]" + b";B[aa];W[bb];B[cc];W[dd]" + b"(;B[ee];W[ff])(;B[gg];W[hh])" * 100000 + b")"

    def seconds(call):
        began = time.perf_counter()
        call()
        return time.perf_counter() - began

    first = min(seconds(lambda: next(sgflines.iter_rows(text))) for _ in range(3))
    whole = min(seconds(lambda: sgflines.output(text)) for _ in range(3))
    if first * 2 > whole:
        sys.exit(f"the first row took {first} seconds, and the whole output {whole}")


def rows_take_little_memory():
    """One by one, the rows of many small games take far less memory beside that for reading than their own text has bytes."""
    code = """
import resource
import sgflines
text = b"(;)" * (1 << 20)
sgflines.output(text, limit=1)
before = resource.getrusage(resource.RUSAGE_SELF).ru_maxrss
number = sum(1 for row in sgflines.iter_rows(text))
print(number, resource.getrusage(resource.RUSAGE_SELF).ru_maxrss - before << 10, len(sgflines.output(text)))
"""
    ran = subprocess.run([sys.executable, "-c", code], capture_output=True, text=True)
    if ran.returncode != 0:
        sys.exit(ran.stderr)
    number, grown, joined = map(int, ran.stdout.split())
    agree("the number of rows", 1 << 20, number)
    if grown * 2 > joined:
        sys.exit(f"{number} rows took {grown} bytes beside those for reading, and their own text has {joined}")


def faults():
    return [sgflines.NotSgf(8), sgflines.EndsEarly(7), sgflines.TooLong(), sgflines.NoSuchLine(5)]


def faults_are_copied_whole():
    copies = [lambda raised, level=level: pickle.loads(pickle.dumps(raised, level)) for level in range(pickle.HIGHEST_PROTOCOL + 1)]
    wanted = ["byte 8: not SGF", "byte 7: input ends too early", "input is longer than 67108864 bytes", "no line ends at 5"]
    agree("the words of the faults", wanted, [str(raised) for raised in faults()])
    for raised in faults():
        raised.more = "a word that a caller added"
        for copied in copies + [copy.copy, copy.deepcopy]:
            got = copied(copied(raised))
            agree("a copy", (type(raised), str(raised), raised.args, vars(raised)), (type(got), str(got), got.args, vars(got)))


def verdicts():
    return [sgflines.Score(1, 1, False), sgflines.Score(1, 1, True), sgflines.Illegal(1, 1, "turn"), sgflines.NotGo(), sgflines.BadSize()]


def different_verdicts_are_unequal():
    for (at, one), (of, other) in itertools.product(enumerate(verdicts()), enumerate(verdicts())):
        agree(f"{one} == {other}", (at == of, at != of), (one == other, one != other))
        agree(f"{one} and {other} in a set", 1 + (at != of), len({one, other}))
        agree(f"{one} in a row", at == of, sgflines.Row(1, 1, 1, one) == sgflines.Row(1, 1, 1, other))
    for verdict in verdicts():
        agree(f"{verdict} is true", True, bool(verdict))
        agree(f"{verdict} isn't an empty tuple", (False, False), (verdict == (), () == verdict))
        for copied in (pickle.loads(pickle.dumps(verdict)), copy.copy(verdict), copy.deepcopy(verdict)):
            agree("a copy of a verdict", (verdict, type(verdict), repr(verdict)), (copied, type(copied), repr(copied)))
    agree("their fields", [("black", "white", "over"), ("turn", "place", "reason"), (), ()], [verdict._fields for verdict in verdicts()[1:]])


class Number:
    """What Python takes for an int."""

    def __index__(self):
        return 8


def arguments_are_looked_at():
    """Each wrong argument has an error of the module's own, with the argument's name."""
    calls = {"after": lambda number: sgflines.rows(TWO, after=number),
             "limit": lambda number: sgflines.records(TWO, "sgf", limit=number),
             "place": lambda number: sgflines.judge(TWO, number)}
    for name, call in calls.items():
        for wrong in (1.0, "8", b"8", True, False, [8], 8j, object(), *([None] if name == "place" else [])):
            raised = fault(lambda: call(wrong))
            agree(f"{name} {wrong!r}", (TypeError, f"{name} is an int, not {type(wrong).__name__}"), (type(raised), str(raised)))
        for wrong in (-1, 2 ** 64, -2 ** 64, 2 ** 64 + 8, 10 ** 30):
            raised = fault(lambda: call(wrong))
            agree(f"{name} {wrong}", (ValueError, f"{name} is a number from 0 to 2**64 - 1"), (type(raised), str(raised)))
        agree(f"{name} from another type", call(8), call(Number()))
    for wrong in (0, None, b"sgf", ["sgf"], True):
        raised = fault(lambda: sgflines.output(TWO, wrong))
        agree(f"form {wrong!r}", (TypeError, f"form is a str, not {type(wrong).__name__}"), (type(raised), str(raised)))
    for wrong in ("", "rows", "SGF"):
        raised = fault(lambda: sgflines.output(TWO, wrong))
        agree(f"form {wrong}", (ValueError, f"form is one of {', '.join(FORMS)}"), (type(raised), str(raised)))
    agree("the greatest numbers", sgflines.NoSuchLine, type(fault(lambda: sgflines.rows(TWO, after=2 ** 64 - 1))))
    agree("the greatest limit", sgflines.rows(TWO), sgflines.rows(TWO, limit=2 ** 64 - 1))


def every_public_call_is_annotated():
    """Also for programs that ask for the types while they run."""
    for name in sgflines.__all__:
        public = getattr(sgflines, name)
        if callable(public) and not isinstance(public, type) and not hasattr(public, "__origin__"):
            arguments = public.__code__.co_varnames[:public.__code__.co_argcount]
            agree(f"the types of {name}", {*arguments, "return"}, set(typing.get_type_hints(public)))
    agree("the types of a row", ["place", "game", "nodes", "verdict"], list(typing.get_type_hints(sgflines.Row)))


def a_writer_has_no_effect():
    """Another thread writes to a text all the time, and each answer is that of one of the two texts that stood there."""
    many = b"(;SZ[9]" + b"(;B[aa]C[x];W[bb])" * 4000 + b")"
    one = b"(;SZ[9]C[" + b"x" * (len(many) // 2) + b"](;B[aa])"
    one += b"(" + b";" * (len(many) - len(one) - 3) + b"))"
    agree("their lengths", len(many), len(one))
    calls = [sgflines.rows, *(functools.partial(sgflines.output, form=form) for form in FORMS), sgflines.count]
    lent, stop = bytearray(many), threading.Event()

    def write():
        while not stop.is_set():
            lent[:] = one
            lent[:] = many

    writer = threading.Thread(target=write)
    writer.start()
    try:
        for call in calls:
            wanted, until = (call(many), call(one)), time.monotonic() + 1
            while time.monotonic() < until:
                got = call(lent)
                if got not in wanted:
                    sys.exit(f"an answer to a text that never stood there: {got!r:.100}")
    finally:
        stop.set()
        writer.join()


def others_run_during_a_call():
    """A call keeps no other thread from running. If it did, this thread would take a step or two before the call's end."""
    many = b"(;SZ[9]" + b"(;B[aa];W[bb])" * 500000 + b")"
    most = 0
    for _ in range(5):
        began, ended, steps = threading.Event(), threading.Event(), 0

        def split():
            began.set()
            sgflines.output(many)
            ended.set()

        thread = threading.Thread(target=split)
        thread.start()
        began.wait()
        while not ended.is_set():
            time.sleep(0.001)
            steps += 1
        thread.join()
        most = max(most, steps)
    if most < 8:
        sys.exit(f"another thread took {most} steps during a call")


def many_threads_call():
    """They share a text, and each has its own answer."""
    wanted = [call(TWO) for call in CALLS]
    wrong, shared = [], bytearray(TWO)

    def call_all():
        for _ in range(300):
            got = [call(shared) for call in CALLS]
            if got != wanted:
                wrong.append(got)

    threads = [threading.Thread(target=call_all) for _ in range(8)]
    for thread in threads:
        thread.start()
    for thread in threads:
        thread.join()
    agree("eight threads", [], wrong)


def split_too_long(_):
    return sgflines.rows(bytes(67108865))


def split_faulty(_):
    return sgflines.rows(b"(;)x")


def children_call():
    """Children answer as their parent does, whether they are forked or spawned. Faults, rows and verdicts come out of them whole."""
    child = os.fork()
    if child == 0:
        os._exit(0 if [call(TWO) for call in CALLS] == [call(bytearray(TWO)) for call in CALLS] and sgflines.count(TWO).lines == 2 else 1)
    agree("a forked child", 0, os.waitpid(child, 0)[1])
    texts = [TWO, b"(;GM[2])", b"(;SZ[53])", b"(;SZ[3];B[aa];B[bb])"]
    for way in ("fork", "spawn"):
        with multiprocessing.get_context(way).Pool(1) as pool:
            agree(f"rows out of a process by {way}", [sgflines.rows(text) for text in texts], pool.map_async(sgflines.rows, texts).get(60))
            for call, want in ((split_too_long, sgflines.TooLong()), (split_faulty, sgflines.NotSgf(3))):
                raised = fault(lambda: pool.map_async(call, [0]).get(60))
                agree(f"a fault out of a process by {way}", (type(want), str(want)), (type(raised), str(raised)))


def escapes_take_little_memory():
    """A value of 8 MiB that is made of escapes is in one record, which takes memory for a few copies of it, and no time to speak of."""
    for escape in (b"\\]", b"\\\\"):
        text = b"(;C[)\n" + escape * (1 << 22) + b"x])"
        before = resource.getrusage(resource.RUSAGE_SELF).ru_maxrss
        agree("one record", [len(text) + 1], [len(record) for record in sgflines.records(text, "sgf")])
        grown = resource.getrusage(resource.RUSAGE_SELF).ru_maxrss - before
        if grown << 10 > 16 * len(text):
            sys.exit(f"the records of {len(text)} bytes took {grown} KiB")


def hostile_values_are_divided_right():
    values = [b"", b"a)\n(;", b"\\\\", b"\\]", b"\\\\\\]", b"x\\\\\\\\", b"[[", b"[\\]", b"\\]\\]", b"\\)\n", b"\\\\" * 1000 + b"\\]"]
    texts = [b"(;C[%s]N[%s](;B[])(;W[];C[%s][%s]))" % (one, other, other, one) for one in values for other in values]
    for text in texts:
        records = sgflines.records(text, "sgf")
        agree(f"the joined records of {text!r:.80}", sgflines.output(text, "sgf"), b"".join(records))
        agree(f"the records of {text!r:.80}", [1, 1], [sgflines.count(record).lines for record in records])


def imported(module, folder, **variables):
    """How a process ends that stands in a folder, imports a copy of the module and prints the name of its library."""
    code = f"import sys; sys.path.insert(0, {os.path.dirname(module)!r}); import sgflines; print(sgflines._LIBRARY._name)"
    environment = {name: value for name, value in os.environ.items() if name not in ("SGFLINES", "PYTHONPATH", "LD_LIBRARY_PATH")}
    return subprocess.run([sys.executable, "-c", code], env={**environment, **variables}, cwd=folder, capture_output=True, text=True)


def loaded(module, folder=None, **variables):
    """The path of the library that a copy of the module loads; None if it finds none but the system's."""
    ran = imported(module, folder, **variables)
    name = ran.stdout.strip() if ran.returncode == 0 else os.path.basename(LIBRARY)
    if ran.returncode != 0 and "cannot open shared object file" not in ran.stderr:
        sys.exit(f"{module}: {ran.stderr}")
    return os.path.realpath(name) if os.path.isabs(name) else None


def put(source, *path):
    path = os.path.join(*path)
    os.makedirs(os.path.dirname(path), exist_ok=True)
    shutil.copy(source, path)
    return path


def only_its_own_library_is_loaded(folder):
    """Wherever a copy of the module stands, it loads the library of its own checkout, or the one beside it, and no planted one."""
    folder, name = os.path.realpath(folder), os.path.basename(LIBRARY)
    shared = os.path.join(folder, "shared")
    os.makedirs(shared)
    os.chmod(shared, 0o1777)
    header = os.path.join(folder, "header")
    with open(header, "w", encoding="ascii"):
        pass
    put(LIBRARY, shared, name)
    put(LIBRARY, shared, "out", name)
    put(header, shared, "include", "sgf_lines.h")
    checkout = os.path.join(shared, "checkout")
    put(header, checkout, "include", "sgf_lines.h")
    module = put(sgflines.__file__, checkout, "python", "sgflines.py")
    agree("a checkout that isn't built", None, loaded(module))
    built = put(LIBRARY, checkout, "out", name)
    agree("a checkout", built, loaded(module))
    agree("a named library", LIBRARY, loaded(module, SGFLINES=LIBRARY))
    agree("an empty name", built, loaded(module, SGFLINES=""))
    os.makedirs(os.path.join(folder, "links"))
    os.symlink(module, os.path.join(folder, "links", "sgflines.py"))
    agree("a link to a checkout", built, loaded(os.path.join(folder, "links", "sgflines.py")))
    agree("a copy in a shared folder's folder", None, loaded(put(sgflines.__file__, shared, "python", "sgflines.py")))
    agree("a copy in a shared folder", None, loaded(put(sgflines.__file__, shared, "sgflines.py")))
    put(LIBRARY, folder, "home", "out", name)
    put(LIBRARY, folder, "home", name)
    copied = put(sgflines.__file__, folder, "home", "deep", "python", "sgflines.py")
    put(LIBRARY, folder, "home", "deep", "out", name)
    agree("a copy that isn't in a checkout", None, loaded(copied))
    beside = put(LIBRARY, folder, "home", "deep", "python", name)
    agree("a copy beside a library", beside, loaded(copied))
    os.chmod(beside, 0o777)
    agree("a copy beside a library that all may write", None, loaded(copied))


def a_link_is_followed(folder):
    """A library isn't loaded through a link that leads into a folder that all users may write to, or through such a folder."""
    folder, name = os.path.realpath(folder), os.path.basename(LIBRARY)
    shared, home = os.path.join(folder, "all"), os.path.join(folder, "own")
    planted = put(LIBRARY, shared, "planted")
    os.chmod(shared, 0o1777)
    own = put(LIBRARY, home, "lib", "own")
    module = put(sgflines.__file__, home, "python", "sgflines.py")
    os.symlink(own, os.path.join(shared, "back"))
    os.symlink(os.path.join("..", "..", "all", "planted"), os.path.join(home, "lib", "away"))
    links = [("a link to a library", own, own), ("a relative link", os.path.join("..", "lib", "own"), own),
             ("a link into a shared folder", planted, None), ("a link to a link into it", os.path.join("..", "lib", "away"), None),
             ("a link through a shared folder", os.path.join(shared, "back"), None)]
    for what, target, want in links:
        os.symlink(target, os.path.join(home, "python", name))
        agree(what, want, loaded(module))
        agree(f"{what}, named", os.path.realpath(target if os.path.isabs(target) else os.path.join(home, "python", target)),
              loaded(module, SGFLINES=os.path.join(home, "python", name)))
        os.remove(os.path.join(home, "python", name))


def a_name_is_that_of_a_file(folder):
    """SGFLINES names a file, with a slash or without one. A file without our functions is named by an ImportError."""
    folder = os.path.realpath(folder)
    module = put(sgflines.__file__, folder, "named", "sgflines.py")
    named = put(LIBRARY, folder, "named", "lib", "mine")
    agree("a name without a slash", named, loaded(module, os.path.dirname(named), SGFLINES="mine"))
    agree("a relative name", named, loaded(module, os.path.join(folder, "named"), SGFLINES="lib/mine"))
    agree("a name of no file here", None, loaded(module, folder, SGFLINES=os.path.basename(LIBRARY)))
    for wrong in (sys.modules["_ctypes"].__file__, "/nowhere/lib.so"):
        told = imported(module, folder, SGFLINES=wrong).stderr.strip().splitlines()[-1]
        agree(f"an ImportError names {wrong}", (True, True), (told.startswith("ImportError: "), wrong in told))


def main():
    escapes_take_little_memory()  # the first, since it measures the most memory that the process ever had
    every_type_of_text()
    too_long_a_text_is_not_copied(sys.argv[1])
    address_and_length_are_of_the_same_bytes()
    texts_are_given_back()
    a_fault_keeps_no_copy_of_the_text()
    rows_come_one_by_one()
    the_first_row_comes_early()
    rows_take_little_memory()
    faults_are_copied_whole()
    different_verdicts_are_unequal()
    arguments_are_looked_at()
    every_public_call_is_annotated()
    hostile_values_are_divided_right()
    children_call()
    many_threads_call()
    others_run_during_a_call()
    a_writer_has_no_effect()
    only_its_own_library_is_loaded(sys.argv[1])
    a_link_is_followed(sys.argv[1])
    a_name_is_that_of_a_file(sys.argv[1])


if __name__ == "__main__":
    main()
