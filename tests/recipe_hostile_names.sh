#!/usr/bin/env bash
# Each tool on files whose names are options, commands, replacement strings, rows of text, or not UTF-8: as words, below a folder, and from
# standard input. It treats each file like one with a plain name, and names the refused one. It never runs what a name says.
. "$(dirname "$0")/lib.sh"
needs python3
cat > hostile.py <<'PYTHON'
import csv
import io
import json
import os
import pty
import re
import shutil
import sqlite3
import subprocess
import sys

TOOLS, EXAMPLE = sys.argv[1] + "/recipes/", sys.argv[1] + "/examples/ko.sgf"
NAMES = [b"--sshlogin=touch x.sgf", b"--rpl={} touch pwned.sgf", b"--csv", b"--form=gtp", b"--.sgf", b"-0", b"-x.sgf", b"-", b"-h.sgf",
         b"$(touch pwned).sgf", b"`touch pwned`.sgf", b"; touch pwned;.sgf", b"| touch pwned.sgf", b"'; touch pwned; '.sgf",
         b"\"$(touch pwned)\".sgf", b"{}.sgf", b"{= system('touch pwned') =}.sgf", b"{.} {#} {%}.sgf", b"*.sgf", b"?.sgf", b"[a].sgf",
         b"a b.sgf", b" .sgf", b"~.sgf", b"#.sgf", b"line\nfeed.sgf", b"\n.sgf", b"forged.sgf:1:1: not SGF\nx.sgf", b"\xff\xfe.sgf",
         b"caf\xc3\xa9.sgf", b"\x1b[31mred.sgf", b"%s%n.sgf", b"back\\slash.sgf", b"\\n.sgf", b".sgf", b"..sgf", b"...sgf", b"x.rows",
         b"cr\rx.sgf", b"\xe2\x80\xae\xe2\x81\xa6bidi\xd8\x9c.sgf", b"\xc2\x9b1m\x9b1m.sgf",
         b"&.sgf", b"!!.sgf", b"a,b;c\td.sgf", b"=1+1.sgf", b"@list.sgf"]
BAD = b"$(touch pwned)\nbad.sgf"
GOOD_TEXT = open(EXAMPLE, "rb").read()
LISTED = [name for name in NAMES if name.endswith(b".sgf")]


def folder(path, names):
    os.makedirs(path)
    for name in names:
        with open(os.path.join(os.fsencode(path), name), "wb") as file:
            file.write(GOOD_TEXT if name != BAD else b"(;SZ[9]\n;B[aa]x")


def run(*words, fed=b"", status=1):
    done = subprocess.run(words, input=fed, stdout=subprocess.PIPE, stderr=subprocess.PIPE, timeout=300)
    wanted = b"$(touch pwned)\\nbad.sgf:2:7: not SGF\n"
    if done.returncode != status or status == 1 and (not done.stderr.endswith(wanted) or done.stderr.count(b"\n") != 1):
        sys.exit(f"{words}: status {done.returncode}, {done.stderr}")
    return done.stdout


def held(folder):
    """The bytes of each file below a folder."""
    return {os.path.relpath(os.path.join(path, file), os.fsencode(folder)): open(os.path.join(path, file), "rb").read()
            for path, _, files in os.walk(os.fsencode(folder)) for file in files}


def three_ways(tool, *first, out=None):
    """What the tool writes as words, for the folder, and from standard input; or what stands in the folder `out` after each."""
    for names, words, fed in ((NAMES, ["--", *first, *NAMES, BAD], b""),
                              (NAMES, ["-0", "--", *first], b"".join(name + b"\0" for name in [*NAMES, BAD])),
                              (LISTED, [*first, "."], b"")):
        if out:
            shutil.rmtree(out, ignore_errors=True)
            run(TOOLS + tool, *words, fed=fed)
            yield names, held(out)
        else:
            yield names, run(TOOLS + tool, *words, fed=fed)


def same(got, want, what):
    if got != want:
        sys.exit(f"{what}:\n{got}\nnot\n{want}")


def stem(name):
    return name[:-4] if name.endswith(b".sgf") and name[:-4] not in (b"", b".", b"..") else name


def shown(name):
    name = b"".join({10: b"\\n", 9: b"\\t", 13: b"\\x0d", 27: b"\\x1b", 92: b"\\\\"}.get(byte, bytes([byte])) for byte in name)
    for hidden, told in ("\u202e", b"\\u202e"), ("\u2066", b"\\u2066"), ("\u061c", b"\\u061c"), ("\x9b", b"\\x9b"):
        name = name.replace(hidden.encode(), told)
    return name.replace(b"\x9b1m", b"\\x9b1m")


rows = [b"123 1 3 illegal 2 123 repeat\n", b"185 1 5 score 5 7 open\n"]
HERE = "{} $(touch pwned) {= system('touch pwned') =}'\"\n&"
folder(HERE, [*NAMES, BAD])
os.chdir(HERE)
before = sorted(os.listdir(b"."))

def check_library(names, kept):
    del kept[b".done.jsonl"]
    fault = kept.pop(stem(BAD) + b".fault")
    same(kept, {stem(name) + b".rows": b"".join(rows) for name in names}, "library.py")
    same(fault.removeprefix(b"./"), b"$(touch pwned)\\nbad.sgf:2:7: not SGF\n", "its fault")


for names, kept in three_ways("library.py", "../out", out="../out"):
    check_library(names, kept)
for machines in ("--sshlogin=:", "--sshlogin=1/machine") if "parallel" in sys.argv[2:] else ():
    shutil.rmtree("../out")
    run(TOOLS + "library.py", machines, "--", "../out", *NAMES, BAD)
    check_library(NAMES, held("../out"))
same(run(TOOLS + "go_on.py", "../out", *NAMES, BAD), b"", "go_on.py")
for name in NAMES[::6]:
    run(TOOLS + "go_on.py", "../rows", name, status=0)
    same(open("../rows", "rb").read(), b"".join(rows), f"go_on.py, {name}")

dots = lambda names: names if names is NAMES else [b"./" + name for name in names]
for names, text in three_ways("verdicts.py"):
    same(text.count(b"\n"), 1 + 2 * len(names), "columns")
text = run(TOOLS + "verdicts.py", "--json", "--", *NAMES, BAD)
same(sorted({os.fsencode(json.loads(line)["file"]) for line in text.splitlines()}), sorted(NAMES), "names in JSON")
table = list(csv.reader(io.StringIO(run(TOOLS + "verdicts.py", "--csv", "--", *NAMES, BAD).decode("utf-8", "surrogateescape"), newline="")))
same(sorted({os.fsencode(row[0]) for row in table[1:]}), sorted(NAMES), "names in CSV")
for _ in range(2):
    run(TOOLS + "verdicts.py", "--sqlite", "../games.db", "--", *NAMES, BAD)
    with sqlite3.connect("../games.db") as base:
        base.text_factory = bytes
        same(sorted(name for name, in base.execute("SELECT file FROM lines")), sorted(2 * NAMES), "names in SQLite")

for names, text in three_ways("illegal_lines.py"):
    same(sorted(text.splitlines()), sorted(shown(name) + b":4:2: turn 2: W[bb]: repeat" for name in dots(names)), "illegal_lines.py")
# The shell command of docs/RECIPES.md shows each name in one row, as `ls -b` does, and the number of its game.
command = next(line[6:] for line in open(sys.argv[1] + "/docs/RECIPES.md", encoding="utf-8") if line.startswith("    $ find examples "))
command = command.replace("find examples ", "find . ").replace("sgfsplit split", '"$SGFSPLIT" split')
text = subprocess.run(["bash", "-c", command], stdout=subprocess.PIPE, stderr=subprocess.DEVNULL, timeout=300).stdout
plain = {b"n": b"\n", b"r": b"\r", b"t": b"\t"}
text = [re.sub(rb"\\([0-7]{3}|.)", lambda found: plain.get(found[1]) or (bytes([int(found[1], 8)]) if found[1].isdigit() else found[1]), row)
        for row in text.splitlines()]
same(sorted(text), sorted(b"./" + name + b" 1" for name in LISTED), "the shell command")
for names, text in three_ways("parts.py"):
    same(text, b"".join(rows) * len(names), "parts.py")
for names, text in three_ways("openings.py", "2"):
    same(text, b"", "openings.py")
same(run(TOOLS + "openings.py", "--setup", "2", *NAMES, BAD), b"%d 4 setup\n" % (2 * len(NAMES)), "openings.py --setup")
for names, kept in three_ways("files.py", "../out", out="../out"):
    same(sorted(kept), sorted(os.path.join(stem(name), place) for name in names for place in (b"123.sgf", b"185.sgf")), "files.py")
shutil.rmtree("../out")
run(TOOLS + "prose.py", "../out", *NAMES, BAD, status=0)
same(held("../out"), {stem(name) + b".sgf": open(b"./" + name, "rb").read() for name in [*NAMES, BAD]}, "prose.py")
shutil.rmtree("../out")
run(TOOLS + "picture.py", "--out", "../out", "--", *NAMES, BAD)
same(sum(len(files) for _, _, files in os.walk("../out")), 2 * len(NAMES), "picture.py")

# On a terminal the names in CSV are shown as in a row of text.
seen = []


def read(end):
    seen.append(os.read(end, 65536))
    return seen[-1]


pty.spawn([os.fsencode(TOOLS + "verdicts.py"), b"--csv", b"--", *NAMES], read)
if re.search(rb"[\x00-\x09\x0b\x0c\x0e-\x1f\x7f\x9b]|\xe2\x80\xae|\xe2\x81\xa6|\xd8\x9c", b"".join(seen)):
    sys.exit(f"a terminal gets hidden characters: {seen}")
if "gnugo" in sys.argv[2:]:
    same(run(TOOLS + "replay.py", "--", *NAMES, BAD), b"%d lines agree, 0 differ, 0 left out\n" % (2 * len(NAMES)), "replay.py")

# A bare name in the place of options: it is a file, unless it is also an option. Then the tool accepts neither.
for name in (b"--sshlogin=touch x.sgf", b"--rpl={} touch pwned.sgf", b"-x.sgf", b"--form=gtp", b"-"):
    same(run(TOOLS + "illegal_lines.py", name, status=0), shown(name) + b":4:2: turn 2: W[bb]: repeat\n", f"illegal_lines.py {name}")
for tool, name in (("verdicts.py", b"--csv"), ("library.py", b"--sshlogin=touch x.sgf"), ("files.py", b"--form=gtp"), ("parts.py", b"-0")):
    same(run(TOOLS + tool, name, "../out", "../out", status=2), b"", f"{tool} {name}")

same(sorted(os.listdir(b".")), before, "the folder")
for path, folders, files in os.walk(b".."):
    if b"pwned" in files or b"pwned" in folders or b"x.sgf" in files:
        sys.exit(f"a name was run: {path}, {files}")
PYTHON

# A machine that is reached as by ssh: a shell, named in SHELL, runs the joined words as a command.
cat > ssh <<'SSH'
#!/bin/sh
until [ "$1" = -- ]; do shift; done
shift
SHELL=/bin/sh exec sh -c "$*"
SSH
chmod +x ssh
programs=
if can parallel 'library.py on other machines'; then programs+=' parallel'; fi
if can gnugo replay.py; then programs+=' gnugo'; fi
PARALLEL_SSH=$work/ssh python3 hostile.py "$top" $programs
