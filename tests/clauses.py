#!/usr/bin/env python3
"""clauses.py            compares the contracts of the public calls with tests/clauses.txt, and names each call and clause that differs
clauses.py --write    writes tests/clauses.txt anew

A row of tests/clauses.txt has a public call, and the names of its `requires` and `ensures` clauses, in the order of the code. `-` stands for a
clause without a name. If a type has a public trait, only those methods have a row that state clauses besides those of the trait.
"""
import collections
import glob
import os
import re
import sys

TOP = os.path.dirname(os.path.dirname(os.path.realpath(__file__)))
CRATES = ["sgf_properties", "sgf_outline", "sgf_tree", "tree_lines", "board_points", "key_trie", "board_stones", "board_past", "go_board",
          "judged_lines", "byte_streams", "sgf_lines", "sgf_lines_c", "sgfsplit_job", "sgfsplit", "sgfsplit_job_tests", "lines_in_memory"]  # the
# other crates of tests have no promises
PROGRAM = "sgfsplit::status"  # a program has no public function; this one has its contract
TABLE = "tests/clauses.txt"
NOTE = "# Made from the code by tests/clauses.py --write, which says what the rows mean.\n"
OPENS, CLOSES = "([{", ")]}"
Function = collections.namedtuple("Function", "path call is_said clauses")
Clause = collections.namedtuple("Clause", "kind name text")


def read(path):
    with open(path, encoding="utf-8") as file:
        return file.read()


def blanked(text):
    """The text with spaces for its comments, strings and characters, which may have brackets."""
    return re.sub(r"""//[^\n]*|"(?:[^"\\]|\\.)*"|'(?:[^'\\\n]|\\.)'""", lambda found: re.sub(r"[^\n]", " ", found[0]), text, flags=re.DOTALL)


def clauses_of(text, code, at):
    """The clauses of the function whose head goes on at this offset. `code` is the blanked text."""
    clauses, begun, depth = [], None, 0
    for token in re.compile(r"[(\[{;)\]}]|^ *(requires|ensures)\*? +(?:(\w+) +)?(?=\{)", re.MULTILINE).finditer(code, at):
        if token[1]:
            begun = (token[1], token[2] or "-", token.end())
        elif token[0] in OPENS:
            if not depth and not begun and token[0] == "{":
                break
            depth += 1
        elif token[0] in CLOSES:
            depth -= 1
            if not depth and begun:
                clauses.append(Clause(*begun[:2], text[begun[2]:token.end()]))
                begun = None
        elif not depth:
            break
    return clauses


def owner(line, hidden):
    """For the head of an `impl`, a trait or a module: its type, and which functions in it are public: those with `pub`, all, or those that
    state clauses."""
    implements = re.match(r" *impl\b(?:<(?:[^<>]|<[^<>]*>)*>)? (?:([\w:]+)(?:<.*>)? for )?(\w+)", line)
    if implements:
        return implements[2], "those with clauses" if implements[1] and implements[1].split("::")[-1] not in hidden else "those with pub"
    trait = re.match(r" *pub trait (\w+)", line)
    return (trait[1], "all") if trait else ("", "those with pub")


def functions_of(crate):
    """The public functions of a crate."""
    paths = sorted(glob.glob(f"{TOP}/crates/{crate}/src/**/*.rt", recursive=True))
    whole = "\n".join(map(read, paths))
    shown = set(re.findall(r"^ *pub mod (\w+);", whole, re.MULTILINE))
    hidden = set(re.findall(r"^ *(?:pub\(\w+\) )?trait (\w+)", whole, re.MULTILINE))
    for path in paths:
        text = read(path)
        code, lines = blanked(text), text.split("\n")
        modules = [part for part in path.split("/src/")[1][:-3].split("/") if part in shown]
        offset, left, within = 0, len(re.findall("^ *(?:requires|ensures)", code, re.MULTILINE)), [(-1, "", "those with pub")]
        for at, line in enumerate(lines):
            indent = len(line) - len(line.lstrip())
            if line.strip() == "}" and within[-1][0] == indent:
                within.pop()
            elif re.match(r" *(impl\b|(pub(\(\w+\))? )?(trait|mod) ).*\{$", line):
                within.append((indent, *owner(line, hidden)))
            named = re.match(r' *(pub )?(?:pub\(\w+\) )?(?:(?:const|unsafe|extern "C") )*fn (\w+)', line)
            if named:
                _, kind, public = within[-1]
                call = "::".join([crate, *modules, *filter(None, [kind]), named[2]])
                clauses = clauses_of(text, code, offset + named.end())
                left -= len(clauses)
                if named[1] or public == "all" or clauses and public == "those with clauses" or call == PROGRAM:
                    before = next(row for row in lines[at - 1::-1] if not re.match(r" *(#\[|ghost |// )", row))
                    said = "///" in before or public == "those with clauses"  # there the trait says it
                    yield Function(path[len(TOP) + 1:], call, said, clauses)
            offset += len(line) + 1
        if left:
            sys.exit(f"{path[len(TOP) + 1:]}: {left} clauses are in the head of no function")


def functions():
    return [function for crate in CRATES for function in functions_of(crate)]


def names(function, kind):
    return [clause.name for clause in function.clauses if clause.kind == kind]


def row(function):
    parts = [f"  {kind} {' '.join(names(function, kind))}" for kind in ("requires", "ensures") if names(function, kind)]
    return "".join([function.call, *parts, "\n"])


def parts(rows):
    """Each call, and each clause with its call."""
    counted = collections.Counter()
    for line in rows:
        call, *kinds = line.split("  ")
        counted[call] += 1
        for kind, *clauses in map(str.split, kinds):
            counted.update(f"{call} {kind} {clause}" for clause in clauses)
    return counted


def main(words):
    if words not in ([], ["--write"]):
        sys.exit(__doc__)
    rows = sorted(map(row, functions()))
    path = os.path.join(TOP, TABLE)
    if words:
        with open(path, "w", encoding="utf-8") as file:
            file.writelines([NOTE, *rows])
    kept = [f"{line}\n" for line in read(path).split("\n") if line and not line.startswith("#")]
    if kept == rows:
        print(f"{len(rows)} public calls, {sum(parts(rows).values()) - len(rows)} clauses")
        return
    had, has = parts(kept), parts(rows)
    changes = [f"{what}: {'is new' if had[what] < has[what] else 'is gone'}" for what in sorted((had - has) + (has - had))]
    print("\n".join(changes) or "some clauses stand in another order")
    print(f"The contracts of the public calls aren't those of {TABLE}. If the change is meant, run tests/clauses.py --write.")
    sys.exit(1)


if __name__ == "__main__":
    main(sys.argv[1:])
