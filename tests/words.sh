#!/usr/bin/env bash
# Every place that repeats a word of packaging/words.txt, or the version, agrees with it. In a copy of the table each field is changed in turn,
# and the order of two rows, and each change is found. In a copy of the whole tree the table gets a form, a reason and a message. Then
# `words.py --write` writes what the table determines, and names just the places with words that are left to a person. Other words in single
# files are found.
. "$(dirname "$0")/lib.sh"
needs python3
"$top/packaging/words.py" || failed 'these places differ from packaging/words.txt or from the file VERSION'

# A scratch repository: the table, its script and the version are copies, everything else is a link.
mkdir scratch
ln -s "$top"/* scratch
rm scratch/packaging scratch/VERSION
cp -R "$top/packaging" "$top/VERSION" scratch
python3 - scratch <<'PYTHON'
import re
import subprocess
import sys

table, version = f"{sys.argv[1]}/packaging/words.txt", f"{sys.argv[1]}/VERSION"
tried = 0
OTHERS = {"row": "game", "game": "row", "empty row": "row"}  # a record can't end otherwise


def found(path, changed, what):
    """The script names some place, or refuses the table, if the file has this text instead of its own."""
    global tried
    with open(path, encoding="utf-8") as file:
        whole = file.read()
    with open(path, "w", encoding="utf-8") as file:
        file.write(changed)
    ran = subprocess.run([f"{sys.argv[1]}/packaging/words.py"], capture_output=True, text=True)
    with open(path, "w", encoding="utf-8") as file:
        file.write(whole)
    if ran.returncode != 1 or not ran.stdout.strip() or ran.stderr:
        sys.exit(f"{what}: status {ran.returncode}, {ran.stdout}{ran.stderr}")
    tried += 1


with open(table, encoding="utf-8") as file:
    rows = file.read().splitlines(keepends=True)
for at, row in enumerate(rows):
    if not row.strip() or row.startswith("#"):
        continue
    for field in list(re.finditer(r"(?<=  )\S(?:\S| (?! ))*", row)):
        word = OTHERS.get(field[0]) or field[0] + ("1" if field[0].isdigit() else "x")
        found(table, "".join([*rows[:at], row[:field.start()] + word + row[field.end():], *rows[at + 1:]]), f"{word} in {row}")
    group = 2 if row.startswith("message") else 1
    if at + 1 < len(rows) and rows[at + 1].split()[:group] == row.split()[:group]:
        found(table, "".join([*rows[:at], rows[at + 1], row, *rows[at + 2:]]), f"the row after {row}")
found(version, "0.0\n", "another version")
print(f"{tried} changes of the table are found")
PYTHON

python3 - "$top" <<'PYTHON'
import os
import re
import shutil
import subprocess
import sys

# what a person changes for a new form, a new reason and a new message
BY_HAND = ["README.md", "crates/go_board/specs/Reason.antt", "crates/sgf*/specs/**/*.antt", "crates/sgf*/src/**/*.rt",
           "crates/sgf_lines/specs/Form.antt", "crates/sgf_lines_c/src/asked.rt", "docs/OUTPUT.md", "docs/PERFORMANCE.md", "docs/RULES.md",
           "docs/figures/growth.svg", "examples/illegal.sgf", "man/sgfsplit.1", "python/sgflines.py", "tests/library.c", "tests/program.sh"]
# and what is written then
WRITTEN = ["README.md", "bench/compare.py", "bench/growth.py", "bench/hostile.py", "completion/_sgfsplit", "completion/sgfsplit.bash",
           "completion/sgfsplit.fish", "crates/go_board/src/reason.rt", "crates/sgf_lines/src/form.rt",
           "crates/sgf_lines/src/options.rt", "crates/sgf_lines/src/run.rt",
           "crates/sgf_lines_c/src/answer.rt", "crates/sgfsplit_job/src/command.rt",
           "include/sgf_lines.h", "man/sgfsplit.1", "python/sgflines.py", "recipes/sgfsplit.py", "tests/help.sh", "tests/library.c"]
# words in files whose rows in the table other files have too, and other words there
OTHER_WORDS = [("crates/sgf_lines/src/fault.rt", "no line ends at {place}", "no line ends before {place}"),
               ("crates/tree_lines/src/seek.rt", "no line ends at {place}", "no line ends before {place}"),
               ("crates/tree_lines/src/seek.rt", "out of memory", "memory refused"),
               ("crates/sgf_lines_c/src/asked.rt", ", 2 as", ", 3 as"), ("docs/figures/growth.svg", ">gtp<", ">moves<")]
TABLE = "tree/packaging/words.txt"
shutil.copytree(sys.argv[1], "tree", symlinks=True, ignore=shutil.ignore_patterns("out", ".git", "__pycache__"))


def bytes_of(path):
    with open(path, "rb") as file:
        return file.read()


def tree():
    """The bytes of each file."""
    paths = [os.path.join(folder, name) for folder, _, names in os.walk("tree") for name in names]
    return {path: bytes_of(path) for path in paths if os.path.isfile(path)}


def changed(words):
    """Runs the script. Returns its status, what it says, and the files that it changed."""
    before = tree()
    ran = subprocess.run(["tree/packaging/words.py", *words], capture_output=True, text=True)
    after = tree()
    return ran.returncode, ran.stdout + ran.stderr, sorted(path for path in {*before, *after} if before.get(path) != after.get(path))


def wanted(what, want, got):
    if want != got:
        sys.exit(f"{what}: wanted {want}, got {got}")


status, told, files = changed(["--write"])
wanted("the status of a tree that agrees", 0, status)
wanted("what is written then", [], files)
for path, old, new in OTHER_WORDS:
    whole = bytes_of(f"tree/{path}")
    wanted(f"how often {path} has {old}", 1, whole.count(old.encode()))
    with open(f"tree/{path}", "wb") as file:
        file.write(whole.replace(old.encode(), new.encode()))
    status, told, _ = changed([])
    wanted(f"{new} in {path}", (1, [path]), (status, [re.match(r"[^ ,:]+", row)[0] for row in told.splitlines()]))
    with open(f"tree/{path}", "wb") as file:
        file.write(whole)
table = bytes_of(TABLE).decode()
for kind, row in [("form", "form     untried  row  a form that nobody has tried"),
                  ("reason", "reason   not-tried  nobody has tried the move"),
                  ("message", "message  1  no game begins at PLACE")]:
    last = re.findall(rf"^{kind} .*\n", table, re.MULTILINE)[-1 if kind != "message" else 3]
    table = table.replace(last, f"{last}{row}\n")
with open(TABLE, "w", encoding="utf-8") as file:
    file.write(table)
status, told, files = changed([])
wanted("what is written without --write", [], files)
status, told, files = changed(["--write"])
wanted("the status if places are left", 1, status)
wanted("the places that are left", BY_HAND, sorted({re.match(r"[^ ,:]+", row)[0] for row in told.splitlines()}))
wanted("the files that are written", WRITTEN, [path.removeprefix("tree/") for path in files])
wanted("the same again", (status, told, []), changed(["--write"]))
print(f"{len(files)} files are written, and {len(BY_HAND)} places are left")
PYTHON
