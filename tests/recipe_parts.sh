#!/usr/bin/env bash
# A collection that is cut between games into small parts has the rows of the whole, at every size of the parts, and the fault of the whole.
# A collection of more than 64 MiB has rows.
. "$(dirname "$0")/lib.sh"
needs python3
tool=$top/recipes/parts.py
cat "$top"/examples/*.sgf > whole.sgf
printf '(;SZ[9]C[not the end) of a game, \\]) neither \\\\];W[aa])\n' >> whole.sgf
"$SGFSPLIT" split whole.sgf > want
for size in 1 100 350 1000 100000; do
    "$tool" --most "$size" whole.sgf > got
    same want got "parts of $size bytes"
done
{ cat want; "$SGFSPLIT" split "$top/examples/ko.sgf"; } > both
"$tool" --most 100 whole.sgf "$top/examples/ko.sgf" > got
same both got "two files"
cp whole.sgf open.sgf
printf '(;SZ[9];B[aa]' >> open.sgf
sed 's/B\[bb\]/B bb/' whole.sgf > damaged.sgf
sed '1s/.*/x&/' whole.sgf > front.sgf
: > empty.sgf
{ printf '\357\273\277'; cat whole.sgf; } > marked.sgf
{ printf %s "$(cat whole.sgf)"; cat marked.sgf; } > mark_between.sgf
"$SGFSPLIT" split marked.sgf > want.marked
"$tool" --most 1 marked.sgf > got
same want.marked got 'a byte order mark in front'
for file in open.sgf damaged.sgf front.sgf empty.sgf mark_between.sgf; do
    if "$SGFSPLIT" split "$file" 2> row; then failed "$file was accepted"; fi
    place=$(sed 's/[^0-9]*\([0-9]*\).*/\1/' row)
    line=$(($(head -c "$place" "$file" | wc -l) + 1)) column=$(($(head -c "$place" "$file" | tail -n 1 | wc -c) + 1))
    [ -n "$(head -c "$place" "$file" | tail -c 1)" ] || column=1
    for size in 1 350 100000; do
        if "$tool" --most "$size" "$file" > got 2> fault; then failed "$file was accepted in parts"; fi
        sed "s/.*byte [0-9]*:/$file:$line:$column:/" row > want.fault
        same want.fault fault "the fault of $file in parts of $size bytes"
    done
done
# Line feeds are counted in a part's bytes before other bytes take their place, however long that lasts.
mkdir slow
printf '#!/bin/sh\nsleep 0.3\nexec %s "$@"\n' "$(command -v wc)" > slow/wc
chmod +x slow/wc
if "$tool" damaged.sgf 2> fault; then failed "damaged.sgf was accepted"; fi
sed 's/^damaged.sgf/pipe/' fault > want.fault
mkfifo pipe
cat damaged.sgf > pipe &
if PATH=$work/slow:$PATH "$tool" --jobs 1 --most 350 pipe > got 2> fault; then failed "damaged.sgf was accepted in parts"; fi
wait
same want.fault fault "the fault if line feeds are counted slowly"

# The cut that the program accepts is the one that is found game by game. So the rows are the same, and for a refused text, too, the fault and
# the rows before it, with any number of jobs. The texts have variations, comments that look like the ends of games, and damage at any byte.
# They come from a file, of which the system gives the bytes to the programs, or from a pipe. The system may refuse to give them, at once or
# later, or give a few bytes at a time. If the file is cut off meanwhile, the tool may say so. If several jobs split the slices of a part, or
# processes of their own raise the rows, that changes nothing either.
cat > cuts.py <<'PYTHON'
import errno
import os
import random
import sys

sys.path.insert(0, sys.argv[1] + "/recipes")
import parts
import sgfsplit

ROOTS = ["GM[1]", "FF[4]SZ[9]", "SZ[3]", "", "C[a]", " CA[UTF-8]"]
COMMENTS = ["", "C[) (;FF[4\\]]", "C[)\n(;GM[1\\]B[aa\\])(;]", "C[\\\\]", "C[x)]", "N[(;SZ]"]
BETWEEN = ["", "\n", "\n\n", " \r\n\t", "  "]


def tree(depth):
    text = "".join(";" + random.choice(["B[aa]", "W[]", ""]) + random.choice(COMMENTS) for _ in range(random.randrange(1, 3)))
    if depth and random.random() < 0.5:
        text += "".join(random.choice(BETWEEN) + "(" + tree(depth - 1) + ")" for _ in range(random.randrange(1, 4)))
    return text


def collection():
    text = "".join(random.choice(BETWEEN) + "(;" + random.choice(ROOTS) + random.choice(COMMENTS) + tree(2) + ")"
                   for _ in range(random.randrange(1, 12))) + random.choice(BETWEEN)
    data = bytearray(text.encode())
    for _ in range(random.choice([0, 0, 1, 4])):
        at = random.randrange(len(data))
        data[at:at + random.choice([0, 1])] = random.choice([b"(", b")", b"[", b"]", b"\\", b"x", b";", b" ", b"", b"\xef\xbb\xbf"])
    return bytes(data)


class System:
    """Gives the bytes of the file `text` to a program, or doesn't, as its way says. The file `given.WAY` gets a byte for each that it gives."""

    def __init__(self):
        self.way, self.plain, self.random = None, os.sendfile, random.Random(77)

    def sendfile(self, *words):
        *files, most = words
        if self.way == "refused" or self.way == "refused later" and self.random.random() < 0.2:
            raise OSError(errno.EINVAL, "refused")
        size = self.plain(*files, min(most, 40) if self.way in ("slow", "cut off", "refused later") else most)
        counted("given", self.way, size)
        if self.way == "cut off":
            os.truncate("text", min(CUT_OFF, os.path.getsize("text")))
        return size


def counted(what, way, size):
    with open(f"{what}.{way}", "ab") as file:
        file.write(bytes(size))


def many(what):
    """The ways in which more than a thousand bytes were given or read."""
    return (way for way in WAYS if os.path.exists(f"{what}.{way}") and os.path.getsize(f"{what}.{way}") > 1000)


WAYS = ["whole", "slow", "refused", "refused later", "cut off", "pipe"]
CUT_OFF = 120
system = System()
os.sendfile = system.sendfile


def opened(text, way):
    """The text in a file or a pipe."""
    system.way = way
    if way == "pipe":
        reads, writes = os.pipe()
        with open(writes, "wb") as file:
            file.write(text)
        return open(reads, "rb")
    with open("text", "wb") as file:
        file.write(text)
    return open("text", "rb")


def given(text, most, jobs, way):
    """The rows, and the fault or None."""
    rows = []
    sgfsplit.opened = lambda name: opened(text, way)
    try:
        rows.extend(parts.rows_of("text", most, jobs))
    except sgfsplit.Refused as refused:
        return b"".join(rows), str(refused)
    return b"".join(rows), None


def by_games(text, most):
    """The same in the old way, game by game."""
    new = parts.Parts.next
    parts.Parts.next = lambda self, tried: None
    try:
        return given(text, most, 1, "refused")
    finally:
        parts.Parts.next = new


def write(file, data, plain=parts.write):
    plain(file, data)
    if sys._getframe(1).f_code.co_name != "raise_and_end":  # that writes rows
        counted("read", system.way, len(data))


random.seed(77)
parts.write = write
refused, kept, again, short = 0, {"cut": 0, "by games": 0}, 0, 0
for way, name in (("next", "cut"), ("next_by_games", "by games")):
    def made(self, *words, plain=getattr(parts.Parts, way), name=name):
        global again
        part = plain(self, *words)
        kept[name] += part is not None
        again += part is not None and words not in ((), (0,))
        sliced[name] += part is not None and part.part < part.begin
        return part
    setattr(parts.Parts, way, made)


def raise_beside(self, plain=parts.Rows.raise_beside):
    global beside
    plain(self)
    beside += 1


sliced, beside = {"cut": 0, "by games": 0}, 0
parts.Rows.raise_beside = raise_beside
for number in range(240):
    text, most, way = collection(), random.choice([1, 30, 100, 200, 400, 1000]), WAYS[number % len(WAYS)]
    parts.SLICE, parts.MANY = random.choice([20, 70, 150, 1 << 24]), random.choice([0, 1 << 20])
    want = by_games(text, most)
    refused += want[1] is not None
    got = given(text, most, random.choice([1, 2, 5]), way)
    is_short = way == "cut off" and got[1] == "text: cut off while it was read" and want[0].startswith(got[0])
    short += is_short
    if got != want and not is_short:
        sys.exit(f"parts of {most} bytes, {way}, of {text}:\n{got}\nnot\n{want}")
print(60 < refused < 180 and kept["cut"] > 100 and again > 10 and short > 10 or (refused, kept, again, short))
print(sliced["cut"] > 100 and sliced["by games"] > 2 and beside > 100 or (sliced, beside))
print(*many("given"), "are given by the system")
print(*many("read"), "are read")
PYTHON
python3 cuts.py "$top" > got || failed "$(cat got)"
cat > want <<'WANT'
True
True
whole slow refused later cut off are given by the system
refused refused later pipe are read
WANT
same want got "how often the texts are refused and cut, and how their bytes are handed over"

# A library of 8 MB in parts of 1 MB is never gone through game by game, and the program is asked once for each part.
python3 - <<'PYTHON'
game = b"(;GM[1]FF[4]SZ[9]C[" + b"x" * 500 + b"]" + b";B[aa](;W[bb])\n(;W[cc]))\n"
with open("library.sgf", "wb") as file:
    file.writelines([game] * 15000)
PYTHON
cat > counts <<'COUNTS'
#!/bin/sh
echo "$1" >> calls
exec "$TRUE_SGFSPLIT" "$@"
COUNTS
chmod +x counts
: > calls
TRUE_SGFSPLIT=$SGFSPLIT SGFSPLIT=$work/counts "$tool" --most 1000000 library.sgf > got
"$SGFSPLIT" split library.sgf > want
same want got "the rows of a library in parts"
[ "$(grep -c split calls)" = 9 ] || failed "$(wc -c < library.sgf) bytes in parts of 1000000: $(grep -c split calls) calls"
# The tool doesn't go through each part token by token: 16 MB of moves take it less than three seconds of processor time.
python3 - <<'PYTHON'
game = b"(;GM[1]FF[4]SZ[19]" + b";B[aa];W[bb];B[cc];W[dd]" * 20 + b"(;B[ee])(;B[ff];W[gg]))\n"
with open("moves.sgf", "wb") as file:
    file.writelines([game] * ((16 << 20) // len(game)))
PYTHON
"$SGFSPLIT" split moves.sgf > want
python3 - "$tool" --most 4000000 moves.sgf 2> said <<'PYTHON' || failed "$(cat said)"
import os
import subprocess
import sys

for _ in range(3):  # a busy machine makes some runs longer
    with open("got", "wb") as got:
        run = subprocess.Popen(sys.argv[1:], stdout=got)
        _, status, used = os.wait4(run.pid, 0)
    seconds = used.ru_utime + used.ru_stime
    if status or seconds <= 3:
        break
if status or seconds > 3:
    sys.exit(f"status {status}, {seconds:.2f} seconds for 16 MB of moves")
PYTHON
same want got "the rows of 16 MB of moves"
# Of a pipe, a part is in memory for each job, and two more are, of however many: the one whose rows are written, and the one that is started
# next. The memory of the former is used again. Of a file none is in memory.
cat > held.py <<'PYTHON'
import subprocess
import sys

sys.path.insert(0, sys.argv[1] + "/recipes")
import parts

cut = 0


def counted_parts(self, tried, plain=parts.Parts.next):
    global cut
    cut += 1
    return plain(self, tried)


parts.Parts.next = counted_parts
for jobs in 1, 2, 5:
    files, most, cut, plain = [], 0, 0, parts.unnamed

    def counted():
        global most
        files.append(plain())
        most = max(most, sum(not file.closed for file in files))
        return files[-1]

    parts.unnamed, want = counted, open("want.library", "rb").read()
    is_same = b"".join(parts.rows_of("library.sgf", 500000, jobs)) == want
    print(cut > 15, len(files), is_same)
    cut = 0
    with subprocess.Popen(["cat", "library.sgf"], stdout=subprocess.PIPE) as source:
        rows = b"".join(parts.rows_of(f"/dev/fd/{source.stdout.fileno()}", 500000, jobs))
    parts.unnamed = plain
    print(cut > 15, most - jobs, len(files) - jobs, all(file.closed for file in files), rows == want)
PYTHON
"$SGFSPLIT" split library.sgf > want.library
python3 held.py "$top" > got
for _ in 1 2 5; do echo True 0 True; echo True 2 2 True True; done > want
same want got "how many of many parts are held, and how many files are made, beside one for each job"

# The process that gives the bytes of a file to a program may be ended, or not be started, or be unable to read, and the file may be cut off.
# Then the tool says so, and writes no row of that part or a later one. None is left behind.
cat > giving.py <<'PYTHON'
import errno
import os
import signal
import sys

sys.path.insert(0, sys.argv[1] + "/recipes")
import parts

plain, me = (os.fork, os.sendfile, os.pread), os.getpid()


def killed(*words):
    os.kill(os.getpid(), signal.SIGKILL)


def refused(*words):
    raise OSError(errno.EAGAIN, os.strerror(errno.EAGAIN))


def unreadable(*words):
    if os.getpid() != me:
        raise OSError(errno.EIO, os.strerror(errno.EIO))
    return plain[2](*words)


def cut_off(*words):
    os.truncate("copy.sgf", 2100000)
    return plain[1](*words)


want = open("want.library", "rb").read()
for way in killed, refused, unreadable, cut_off:
    with open("library.sgf", "rb") as file, open("copy.sgf", "wb") as copy:
        copy.write(file.read())
    if way is refused:
        os.fork = way
    elif way is unreadable:
        os.sendfile, os.pread = refused, way
    else:
        os.sendfile = way
    rows, fault = [], None
    try:
        rows.extend(parts.rows_of("copy.sgf", 1000000, 2))
    except (parts.sgfsplit.Failed, OSError) as error:
        fault = str(error)
    os.fork, os.sendfile, os.pread = plain
    try:
        left = os.waitpid(-1, os.WNOHANG)
    except ChildProcessError:
        left = "none left"
    print(way.__name__, fault, want.startswith(b"".join(rows)) and len(b"".join(rows)) < len(want), left)
PYTHON
timeout 60 python3 giving.py "$top" > got || failed "processes that give bytes: $(cat got)"
cat > want <<'WANT'
killed copy.sgf: the process that read it was ended by signal 9 True none left
refused [Errno 11] Resource temporarily unavailable True none left
unreadable copy.sgf: Input/output error True none left
cut_off copy.sgf: cut off while it was read True none left
WANT
same want got "how the tool fails if a process can't give the bytes of a file"

# With four jobs four programs run at a time, and no more.
cat > meets <<'MEETS'
#!/bin/sh
if [ "$1" = split ]; then
    : > "here.$$"
    ls here.* | wc -l >> met
    for _ in $(seq 100); do
        [ "$(ls here.* | wc -l)" -lt 4 ] || : > all_met
        [ ! -e all_met ] || break
        sleep 0.1
    done
    "$TRUE_SGFSPLIT" "$@"
    rm "here.$$"
else
    exec "$TRUE_SGFSPLIT" "$@"
fi
MEETS
chmod +x meets
TRUE_SGFSPLIT=$SGFSPLIT SGFSPLIT=$work/meets "$tool" --jobs 4 --most 1000000 library.sgf > got
same want.library got "the rows of four jobs"
[ "$(sort -n met | tail -n 1)" = 4 ] || failed "with four jobs $(sort -n met | tail -n 1) programs ran at a time"
# While the first part takes long, the other job splits those after it, as long as no more than two beside the jobs are held.
{ echo '(;FF[4]C[first])'; cat library.sgf; } > late.sgf
"$SGFSPLIT" split late.sgf > want
cat > late <<'LATE'
#!/bin/sh
[ "$1" = split ] || exec "$TRUE_SGFSPLIT" "$@"
cat > "text.$$"
exec < "text.$$"
if [ "$(head -c 16 "text.$$")" = '(;FF[4]C[first])' ]; then
    for _ in $(seq 100); do
        [ "$(cat ended 2> /dev/null | wc -l)" -lt 3 ] || break
        sleep 0.1
    done
    sleep 0.5
    cat ended > ended_before
    exec "$TRUE_SGFSPLIT" "$@"
fi
"$TRUE_SGFSPLIT" "$@"
echo "$$" >> ended
LATE
chmod +x late
TRUE_SGFSPLIT=$SGFSPLIT SGFSPLIT=$work/late "$tool" --jobs 2 --most 1000000 late.sgf > got
same want got "the rows after a part that takes long"
[ "$(wc -l < ended_before)" = 3 ] || failed "$(wc -l < ended_before) programs ended before the first one, which took long"

# With several jobs, processes raise the rows, several at a time. If the system starts none, or ends one, or one can't write, that costs no row.
# None is left behind.
cat > beside.py <<'PYTHON'
import errno
import os
import signal
import sys
import time

sys.path.insert(0, sys.argv[1] + "/recipes")
import parts

parts.MANY, parts.ROWS = 0, 1000  # any rows are raised by a process, few at a time
me, kept, heard, calls = os.getpid(), (parts.raised, parts.write, os.fork), [], 0


def hear(self, plain=parts.Rows.hear):
    plain(self)
    heard.append(self.is_raised)


def is_late():
    """Whether this is a process that has raised some rows."""
    global calls
    calls += os.getpid() != me
    return calls > 1


def killed(*words, plain=parts.raised):
    for piece in plain(*words):
        if is_late():
            os.kill(os.getpid(), signal.SIGKILL)
        yield piece


def full(*words, plain=parts.write):
    if is_late():
        raise OSError(errno.ENOSPC, "full")
    plain(*words)


def refused(plain=os.fork):
    if sys._getframe(1).f_code.co_name == "raise_beside":
        raise BlockingIOError(errno.EAGAIN, "refused")
    return plain()


def together(*words, plain=parts.raised):
    if os.getpid() != me:
        open(f"raises.{os.getpid()}", "w").close()
        while sum(name.startswith("raises.") for name in os.listdir()) < 3:
            time.sleep(0.01)
    yield from plain(*words)


def asleep(*words, plain=parts.raised):
    if os.getpid() != me:
        time.sleep(60)
    yield from plain(*words)


def children():
    try:
        return os.waitpid(-1, os.WNOHANG)
    except ChildProcessError:
        return "none left"


parts.Rows.hear = hear
want = open("want.library", "rb").read()
for way in (kept[0], killed, full, refused, together):
    if way is full:
        parts.write = way
    elif way is refused:
        os.fork = way
    else:
        parts.raised = way
    heard.clear()
    rows = b"".join(parts.rows_of("library.sgf", 1000000, 4))
    print(way.__name__, rows == want, heard.count(True), heard.count(False), children())
    parts.raised, parts.write, os.fork = kept
parts.raised = asleep
rows = parts.rows_of("library.sgf", 1000000, 4)
heard.clear()
begun = next(rows)
rows.close()
print("closed", want.startswith(begun), heard.count(True), heard.count(False) > 2, children())
PYTHON
timeout 60 python3 beside.py "$top" > got || failed "processes that raise rows: $(cat got)"
cat > want <<'WANT'
raised True 8 0 none left
killed True 0 8 none left
full True 0 8 none left
refused True 0 0 none left
together True 8 0 none left
closed True 0 True none left
WANT
same want got "what processes that raise rows have done"

# A collection with a line for every eight bytes, of which most of the work is to raise rows. That is the work of the processes.
python3 - <<'PYTHON'
game = b"(;GM[1]FF[4]SZ[9]" + b"(;B[aa])" * 5000 + b")\n"
with open("dense.sgf", "wb") as file:
    file.writelines([game] * 100)
PYTHON
"$SGFSPLIT" split dense.sgf > want.dense
cat > shares.py <<'PYTHON'
import resource
import sys
import time

sys.path.insert(0, sys.argv[1] + "/recipes")
import parts

begin = time.process_time()
rows = b"".join(parts.rows_of("dense.sgf", 1000000, 3))
own, others = time.process_time() - begin, resource.getrusage(resource.RUSAGE_CHILDREN)
print(rows == open("want.dense", "rb").read(), 2 * own < others.ru_utime + others.ru_stime or (own, others))
PYTHON
python3 shares.py "$top" > got
echo True True > want
same want got "the share of work that is left to the tool's first process"
# Whoever ends the tool, or reads no more, or kills what it has started: no process is left, and Python says nothing.
cat > ended.py <<'PYTHON'
import os
import signal
import subprocess
import sys
import time

tool, way = sys.argv[1:]
want = open("want.dense", "rb").read()
run = subprocess.Popen([tool, "--most", "1000000", "--jobs", "3", "dense.sgf"], start_new_session=True, stderr=subprocess.PIPE,
                       stdout=open("/dev/full", "wb") if way == "full" else subprocess.PIPE)


def raising():
    """The processes that raise rows: those that the tool has begun, that haven't become another program, and have worked for a while."""
    for number in filter(str.isdigit, os.listdir("/proc")):
        try:
            with open(f"/proc/{number}/stat") as status, open(f"/proc/{number}/cmdline") as command:
                words = status.read().rsplit(")", 1)[1].split()
                if int(words[1]) == run.pid and int(words[11]) > 2 and "parts.py" in command.read():
                    yield int(number)
        except OSError:
            pass


got, killed, ended = b"", 0, None
if way in ("INT", "HUP", "TERM", "kill"):
    while not killed:
        for process in raising():
            if way == "kill":
                os.kill(process, signal.SIGKILL)
            else:
                os.killpg(run.pid, getattr(signal, "SIG" + way))
            killed += 1
            break
if way == "close":
    got = run.stdout.read(100)
    run.stdout.close()
elif way != "full":
    got = run.stdout.read()
said = run.stderr.read().decode()
status = run.wait()
try:
    os.killpg(run.pid, signal.SIGKILL)
    left = "processes are left"
except ProcessLookupError:
    left = "none left"
print(way, status, got == want if way == "kill" else want.startswith(got), left, said.strip())
PYTHON
for way in INT HUP TERM kill close full; do timeout 60 python3 ended.py "$tool" "$way"; done > got
cat > want <<'WANT'
INT 130 True none left 
HUP 129 True none left 
TERM 143 True none left 
kill 0 True none left 
close 0 True none left 
full 3 True none left parts.py: No space left on device
WANT
same want got "how the tool ends while rows are raised"

# More than the program accepts: 48 games of about 1.5 MB, and the same once more.
python3 - <<'PYTHON'
game = b"(;SZ[9]C[" + b"x" * 1500000 + b"];B[aa](;W[bb])(;W[cc]))\n"
with open("large.sgf", "wb") as file:
    file.writelines([game] * 96)
with open("game.sgf", "wb") as file:
    file.write(game)
PYTHON
if "$SGFSPLIT" split large.sgf 2> fault; then failed "144 MB were accepted"; fi
"$tool" large.sgf > got
"$SGFSPLIT" split game.sgf | awk -v bytes="$(wc -c < game.sgf)" '
    { row[NR] = $0 }
    END { for (game = 0; game < 96; game++) for (n = 1; n <= NR; n++) { $0 = row[n]; $1 += bytes * game; $2 += game; print } }
    ' OFMT=%.0f CONVFMT=%.0f > want
same want got "the rows of 144 MB"
