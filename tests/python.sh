#!/usr/bin/env bash
# The Python module over the shared library. On the examples and on inputs made to hurt it returns what the program writes, in every form
# and on pages. Its faults are the program's, with their places. Its records and rows are those of the output. Threads split at once. With
# each Python from 3.9 on that is found, it keeps what it says of texts, arguments, faults, rows one by one, threads, processes and its
# library, and with one of them also without docstrings, assertions and the script's folder.
. "$(dirname "$0")/lib.sh"
[ -e "$top/out/libsgflines.so.0" ] || failed "no library at $top/out/libsgflines.so.0: run make lib first"
needs python3
mkdir inputs
"$top/tests/inputs.py" inputs
cp "$top"/examples/*.sgf inputs
export PYTHONPATH=$top/python PYTHONDONTWRITEBYTECODE=1
unset SGFLINES
python3 -m doctest "$top/python/sgflines.py" || failed "an example of its text isn't so"

# Each Python from 3.9 on that is on the PATH or that pyenv has, once.
pythons=() versions=' '
for python in $(compgen -c python3. | sort -u) "$HOME"/.pyenv/versions/*/bin/python3.*; do
    [[ $python =~ (^|/)python3\.[0-9]+$ ]] || continue
    version=$("$python" -c 'import ctypes, sys; print("%d.%d" % sys.version_info[:2] if sys.version_info >= (3, 9) else "")' 2> /dev/null) || continue
    [ -n "$version" ] && [[ $versions != *" $version "* ]] || continue
    versions+="$version " pythons+=("$python")
done
[ ${#pythons[@]} -gt 0 ] || pythons=(python3)
for python in "${pythons[@]}"; do
    mkdir calls
    "$python" "$top/tests/python_calls.py" calls || failed "$python: status $?"
    rm -r calls
done
mkdir calls
PYTHONOPTIMIZE=2 PYTHONSAFEPATH=1 "${pythons[-1]}" "$top/tests/python_calls.py" calls || failed "${pythons[-1]} with PYTHONOPTIMIZE=2 and PYTHONSAFEPATH: status $?"
rm -r calls
echo "tried with ${pythons[*]}"

python3 - inputs <<'PYTHON'
import ctypes
import glob
import mmap
import os
import subprocess
import sys
import threading

import sgflines

compared = 0
judged = set()


def program(*words):
    """What the program writes, or the row of its fault without its name."""
    ran = subprocess.run([os.environ["SGFSPLIT"], *words], stdin=subprocess.DEVNULL, capture_output=True)
    return ran.stdout if ran.returncode == 0 else ran.stderr.decode().removeprefix("sgfsplit: ").rstrip("\n")


def module(call):
    """What the module gives, or the words of its fault."""
    try:
        return call()
    except sgflines.Fault as fault:
        return str(fault)


def agree(what, want, got):
    global compared
    compared += 1
    if want != got:
        sys.exit(f"{what}: wanted {want!r:.300}, got {got!r:.300}")


def expected_row(line):
    """The row of a line of the list, read by other means than the module's."""
    words = line.decode().split()
    if words[3] == "score":
        verdict = sgflines.Score(black=int(words[4]), white=int(words[5]), over=words[6] == "over")
    elif words[3] == "illegal":
        verdict = sgflines.Illegal(turn=int(words[4]), place=int(words[5]), reason=words[6])
    else:
        verdict = {"game": sgflines.NotGo(), "size": sgflines.BadSize()}[words[4]]
    return sgflines.Row(int(words[0]), int(words[1]), int(words[2]), verdict)


def number_of(verdict):
    return type(verdict).__name__


def compare(path):
    with open(path, "rb") as file:
        text = file.read()
    name = os.path.basename(path)
    counted = module(lambda: b"%d %d %d\n" % sgflines.count(text))
    agree(f"{name}, counted", program("count", path), counted)
    for form in sgflines.FORMS:
        want = program("split", "--form", form, path)
        if isinstance(want, str):
            agree(f"{name}, judged", want, module(lambda: sgflines.judge(text, 0)))
        agree(f"{name}, {form}", want, module(lambda: sgflines.output(text, form)))
        if isinstance(want, str):
            continue
        parts = sgflines.records(text, form)
        agree(f"{name}, {form}: records", want, b"".join(parts))
        agree(f"{name}, {form}: how many", sgflines.count(text).lines, len(parts))
        if form == "list":
            rows = sgflines.rows(text)
            agree(f"{name}: rows", [expected_row(line) for line in want.splitlines()], rows)
            kinds = [(number_of(row.verdict), number_of(expected_row(line).verdict)) for row, line in zip(rows, want.splitlines())]
            agree(f"{name}: kinds", [], [pair for pair in kinds if pair[0] != pair[1]])
            for row in rows[:50] + rows[-1:]:
                verdict = sgflines.judge(text, row.place)
                agree(f"{name}: {row.place} judged", (row.verdict, type(row.verdict)), (verdict, type(verdict)))
                judged.add(verdict.reason if isinstance(verdict, sgflines.Illegal) else number_of(verdict))
        if form == "sgf" and len(parts) < 50:
            for part in parts:
                agree(f"{name}: a game is one line", 1, sgflines.count(part).lines)
        for at, row in list(enumerate(sgflines.rows(text)))[:3]:
            for limit in (None, 0, 1, 2):
                words = [] if limit is None else ["--limit", str(limit)]
                page = program("split", "--form", form, "--after", str(row.place), *words, path)
                agree(f"{name}, {form} after {row.place}, limit {limit}", page, sgflines.output(text, form, row.place, limit))
                after = parts[at + 1:] if limit is None else parts[at + 1:at + 1 + limit]
                agree(f"{name}, {form} after {row.place}, limit {limit}: records", after, sgflines.records(text, form, row.place, limit))
        agree(f"{name}, {form}: no line there", f"no line ends at {2 ** 63}", module(lambda: sgflines.output(text, form, 2 ** 63)))


for path in sorted(glob.glob(sys.argv[1] + "/*.sgf")):
    compare(path)
agree("every kind was judged", {*sgflines.REASONS[1:], "Score", "NotGo", "BadSize"}, judged)


def fault(call):
    try:
        call()
    except Exception as raised:
        return raised
    sys.exit("a fault is wanted")


raised = fault(lambda: sgflines.rows(b"(;SZ[3])x"))
agree("faulty", (sgflines.NotSgf, 8), (type(raised), raised.at))
raised = fault(lambda: sgflines.count(b"(;SZ[3]"))
agree("cut", (sgflines.EndsEarly, 7, True), (type(raised), raised.at, isinstance(raised, sgflines.NotSgf)))
raised = fault(lambda: sgflines.rows(b"(;)", after=5))
agree("no line", (sgflines.NoSuchLine, 5), (type(raised), raised.place))
raised = fault(lambda: sgflines.judge(b"(;)", 0))
agree("no line to judge", (sgflines.NoSuchLine, 0), (type(raised), raised.place))
agree("a line to judge", sgflines.Score(black=0, white=0, over=False), sgflines.judge(bytearray(b"(;)"), 1))
agree("a place to judge", ValueError, type(fault(lambda: sgflines.judge(b"(;)", -1))))
agree("too long to judge", sgflines.TooLong, type(fault(lambda: sgflines.judge(bytes(67108865), 1))))
agree("too long", sgflines.TooLong, type(fault(lambda: sgflines.rows(bytes(67108865)))))
agree("a form", ValueError, type(fault(lambda: sgflines.output(b"(;)", "rows"))))
agree("a place", ValueError, type(fault(lambda: sgflines.rows(b"(;)", after=-1))))
agree("a limit", ValueError, type(fault(lambda: sgflines.rows(b"(;)", limit=2 ** 64))))
agree("words", TypeError, type(fault(lambda: sgflines.rows("(;)"))))
agree("empty", (sgflines.EndsEarly, 0), (lambda raised: (type(raised), raised.at))(fault(lambda: sgflines.rows(b""))))

# texts of other types than bytes
two = b"(;SZ[3](;B[aa])(;B[bb];W[aa]))"
lent = bytearray(two)
agree("a bytearray", sgflines.rows(two), sgflines.rows(lent))
lent.extend(b" ")
agree("which grows afterwards", sgflines.rows(two), sgflines.rows(lent))
agree("an empty bytearray", sgflines.EndsEarly, type(fault(lambda: sgflines.rows(bytearray()))))
agree("a memoryview", sgflines.rows(two), sgflines.rows(memoryview(b"  " + two)[2:]))
with open(sys.argv[1] + "/two.sgf", "rb") as file, mmap.mmap(file.fileno(), 0, access=mmap.ACCESS_READ) as mapped:
    agree("a mapped file", sgflines.rows(two), sgflines.rows(mapped))

# the interpreter's lock is released during a call, as for every CDLL that isn't a PyDLL
agree("the lock", (True, False), (isinstance(sgflines._LIBRARY, ctypes.CDLL), isinstance(sgflines._LIBRARY, ctypes.PyDLL)))
with open(sys.argv[1] + "/wide.sgf", "rb") as file:
    wide = file.read()
want, got = sgflines.output(wide, "sgf"), [None] * 4


def split(at):
    for _ in range(5):
        got[at] = sgflines.output(wide, "sgf")


threads = [threading.Thread(target=split, args=(at,)) for at in range(4)]
for thread in threads:
    thread.start()
for thread in threads:
    thread.join()
agree("four threads", [want] * 4, got)
print(f"{compared} answers agree")
PYTHON
