#!/usr/bin/env bash
# Each public call has a doc comment and a contract, which cites no definition of specs/inner/. tests/clauses.txt has the names of all clauses
# of these calls: if a call or a clause goes, or gets another name, this script fails. docs/PROVED.md names each law of the code. The calls,
# clauses, definitions and tests that docs/PROVED.md names exist. Each function that a table of rules in a lib.rt names is in the module that the
# table gives. Each definition that a table of docs/ names is in the file that the table gives. Each file that a table of CONTRIBUTING.md names
# exists.
. "$(dirname "$0")/lib.sh"
needs python3
status=0
"$top/tests/clauses.py" || status=1
python3 -B - "$top" <<'PYTHON' || status=1
import glob
import os
import re
import sys

top = sys.argv[1]
sys.path.insert(0, f"{top}/tests")
from clauses import functions, read

faults = []
page = read(f"{top}/docs/PROVED.md")
without = set(re.findall(r"`(\w+)`", re.search(r"Its functions (.*?) have no contract", page, re.DOTALL)[1]))


def is_defined(word, paths):
    """One of the files defines the word for other files."""
    return any(re.search(rf"^(?:\w+ )*pub (?:data |record )?{word}\b", read(path), re.MULTILINE) for path in paths)


def inner_words(path):
    """The words of specs/inner/ as the file calls them."""
    used = re.findall(r"ghost use [\w.]*\.specs\.inner\.[\w.]*\{([^}]*)\}", read(path))
    return {word.split()[-1] for words in used for word in words.split(",") if word.strip()}


public = functions()
calls = {function.call: function for function in public}
for function in public:
    name = function.call.split("::")[-1]
    where = f"{function.path}, {name}"
    if not function.is_said:
        faults.append(f"{where} has no doc comment")
    if not any(clause.kind == "ensures" for clause in function.clauses) and name not in without:
        faults.append(f"{where} has no contract")
    for clause in function.clauses:
        cited = inner_words(f"{top}/{function.path}") & set(re.findall(r"\w+", clause.text))
        if cited or ".specs.inner." in clause.text:
            faults.append(f"{where}: {clause.kind} {clause.name} cites {', '.join(sorted(cited))} of specs/inner/")
promises = page[page.index("| Promise | Call"):page.index("## What you may build on")]
for row in re.findall(r"^\|.*", promises, re.MULTILINE)[2:]:
    _, _, cell, promise, _ = re.split(r"(?<!\\)\|", row)
    call, *clauses = re.findall(r"`([\w:]+)`", cell)
    if call not in calls:
        faults.append(f"docs/PROVED.md: there is no {call}")
        continue
    stand = [clause.name for clause in calls[call].clauses if clause.kind == "ensures"]
    faults.extend(f"docs/PROVED.md: {call} has no clause {name}" for name in clauses if name not in stand)
    specs = glob.glob(f"{top}/crates/*/specs/**/*.antt", recursive=True)
    for word in re.findall(r"\(`([\w:]+)`\)", promise):
        if not (any(other.endswith(f"::{word}") for other in calls) if "::" in word else is_defined(word, specs)):
            faults.append(f"docs/PROVED.md: there is no {word}")
for path in glob.glob(f"{top}/crates/*/src/laws.rt") + glob.glob(f"{top}/crates/*/src/laws/*.rt"):
    laws = re.findall(r"^pub fn (\w+)\(", read(path), re.MULTILINE)
    faults.extend(f"{path[len(top) + 1:]}: docs/PROVED.md doesn't name the law {name}" for name in laws if f"`{name}`" not in page)
for name, path in re.findall(r"`(\w+)` \(`(crates/[\w/]+\.rt)`\)", page):
    if not os.path.exists(f"{top}/{path}") or not re.search(rf"\bfn {name}\b", read(f"{top}/{path}")):
        faults.append(f"docs/PROVED.md: there is no {name} in {path}")
decided = 0
for path in glob.glob(f"{top}/crates/*/src/lib.rt"):
    table = re.search(r"Function, and its module \|\n((?://! \|.*\n)*)", read(path))
    for names, owner, module in re.findall(r"((?:`[\w:]+`(?:, | and )?)+)(?: of `(\w+)`)?(?:, [^`(;|]*)? ?\(`([\w/]+)`\)", table[1] if table else ""):
        file = f"{os.path.dirname(path)}/{module}.rt" if not owner else f"{top}/crates/{owner}/src/{module}.rt"
        code = read(file) if os.path.exists(file) else ""
        for name in re.findall(r"(?:\w+::)?(\w+)`", names):
            decided += 1
            if not re.search(rf"\bfn {name}\b", code):
                faults.append(f"{path[len(top) + 1:]}: there is no {name} in {file[len(top) + 1:]}")
defined = 0
for path in glob.glob(f"{top}/docs/*.md"):
    for line in read(path).split("\n"):
        row = re.match(r"\|[^|]*\|([^|]*)\| `(\w+\.antt)` \|$", line)
        for word in re.findall(r"`(\w+)`", row[1]) if row else []:
            defined += 1
            if not is_defined(word, glob.glob(f"{top}/crates/*/specs/**/{row[2]}", recursive=True)):
                faults.append(f"{path[len(top) + 1:]}: {word} isn't in {row[2]}")
crate = ""
for row in re.findall(r"^\|.*", read(f"{top}/CONTRIBUTING.md").split("## Where things go")[1], re.MULTILINE):
    for word in re.findall(r"`([\w/.*]+/[\w/.*]*)`", row):
        crate = (re.match(r"crates/\w+/", word) or [crate])[0]
        path = crate + word if re.match("(src|specs|proofs)/", word) else word
        if not glob.glob(f"{top}/{path}"):
            faults.append(f"CONTRIBUTING.md: there is no {path}")
print("\n".join(faults) or f"{len(public)} calls, {decided} functions of rules, {defined} definitions")
sys.exit(bool(faults))
PYTHON
exit "$status"
