#!/usr/bin/env python3
"""words.py                             compares every place that repeats a word of packaging/words.txt with that table
words.py --write                     first writes the places that the table alone determines; what is then named is for a person to change
words.py --help-of NAME [COMMAND]    prints the help that a program of this name has to show: the words of the table, laid out as clap
                                     does, and the texts after the options from the program's source

Each place that differs is named in a row, with what it lacks and what it has that the table doesn't. The status is then 1. A place that
`made` describes is written; those that `lists`, `holds` and `quotes` describe are only compared.
"""
import glob
import os
import re
import sys
import textwrap

TOP = os.path.dirname(os.path.dirname(os.path.realpath(__file__)))
FIELDS = {"limit": 1, "program": 2, "command": 2, "file": 2, "option": 3, "form": 3, "verdict": 3, "reason": 2, "status": 2, "message": 2,
          "result": 1}
ENDS = {"row": b"\n", "game": b")\n", "empty row": b"\n\n"}
NAMES = {"limit": r"\d+", "command": "[a-z]+", "option": "[a-z]+", "form": "[a-z]+", "reason": "[a-z]+(-[a-z]+)*"}
UNQUOTED = dict.fromkeys(["program", "command", "option"], r"""["'\\$`:\[\]]""")  # what shells read between quotation marks
COMMAND = "crates/sgfsplit_job/src/command.rt"
HELP = "tests/help.sh"
MANUAL = "man/sgfsplit.1"
HEADER = "include/sgf_lines.h"
MODULE = "python/sgflines.py"
BASH, ZSH, FISH = "completion/sgfsplit.bash", "completion/_sgfsplit", "completion/sgfsplit.fish"
writes = False  # whether places are written, and not compared
faults = []


def read(path):
    with open(os.path.join(TOP, path), encoding="utf-8") as file:
        return file.read()


def read_table(path):
    """The rows of each kind, each a list of its fields."""
    rows = {kind: [] for kind in FIELDS}
    for line in read(path).splitlines():
        if not line or line.startswith("#"):
            continue
        kind, *fields = re.split(r"  +", line)
        plain = re.fullmatch(NAMES.get(kind, ".+"), fields[0]) and not re.search(UNQUOTED.get(kind, r'["\\]'), line)
        if len(fields) != FIELDS.get(kind) or not plain or (kind == "form" and fields[1] not in ENDS):
            sys.exit(f"{path}: not a row of the table: {line}")
        if kind in NAMES and fields[0] in [row[0] for row in rows[kind]]:
            sys.exit(f"{path}: twice in the table: {kind} {fields[0]}")
        rows[kind].append(fields)
    return rows


def holds(path, *texts):
    """The file has each of these texts."""
    whole = read(path)
    faults.extend(f"{path} lacks: {text.strip()}" for text in texts if text not in whole)


def quotes(pattern, texts):
    """Each text stands between quotation marks in one of the files."""
    files = glob.glob(os.path.join(TOP, pattern), recursive=True)
    quoted = [text for file in files for text in re.findall(r'"([^"\n]*)"', read(file))]
    faults.extend(f"{pattern}: none has \"{text}\"" for text in texts if not any(text in other for other in quoted))


def places(path, name, within):
    """The path of a file, its text, and the places in it that match `within`. The path may be a pattern: then just one of its files has such
    places."""
    found = []
    for file in sorted(glob.glob(os.path.join(TOP, path), recursive=True)):
        whole = read(file)
        matches = list(re.finditer(within, whole, re.DOTALL | re.MULTILINE))
        if matches:
            found.append((os.path.relpath(file, TOP), whole, matches))
    if len(found) == 1:
        return found[0]
    faults.append(f"{path}: {len(found)} files with {name}")
    return path, "", []


def compare(path, name, got, wanted):
    """The rows are the wanted ones, in order."""
    if got != wanted:
        lacks, more = [row for row in wanted if row not in got], [row for row in got if row not in wanted]
        told = [f"lacks {', '.join(lacks)}"] * bool(lacks) + [f"has {', '.join(more)}"] * bool(more)
        faults.append(f"{path}, {name}: {'; '.join(told) or 'has ' + ', '.join(got) + ', not as the table has them'}")


def lists(path, name, within, item, wanted, any_order=False):
    """What `item` finds in the first place that matches `within` (see `places`) are the wanted words, in order."""
    path, _, matches = places(path, name, within)
    for match in matches[:1]:
        got = [" ".join(words) if isinstance(words, tuple) else words for words in re.findall(item, match[1], re.MULTILINE)]
        compare(path, name, *((sorted(set(got)), sorted(wanted)) if any_order else (got, wanted)))


def made(path, name, within, wanted):
    """The group of each place that matches `within` (see `places`) is the wanted text, or what this function makes of the group."""
    path, whole, matches = places(path, name, within)
    text = whole
    for match in reversed(matches):
        new = wanted(match[1]) if callable(wanted) else wanted
        text = text[:match.start(1)] + new + text[match.end(1):]
        if not writes and new != match[1]:
            compare(path, name, [row.strip() for row in match[1].splitlines()], [row.strip() for row in new.splitlines()])
    if writes and text != whole:
        with open(os.path.join(TOP, path), "w", encoding="utf-8") as file:
            file.write(text)


def in_c(word):
    """The word in a name for C."""
    return word.upper().replace("-", "_")


def in_rust(word):
    """The word as the name of a variant."""
    return "".join(part.capitalize() for part in re.split("[-_]", word))


def in_manual(row):
    """A row of the list form in the words of the manual page: those in capitals are arguments."""
    return re.sub(r"((?: [A-Z]+)+)(?: ([a-z]+))?", lambda found: f" Ar{found[1]}" + (f" Cm {found[2]}" if found[2] else ""), row)


def numbered(words, first):
    """Each word with its number, from the first number on."""
    return [f"{word} {number}" for number, word in enumerate(words, first)]


def joined(rows):
    """Each row with a line feed."""
    return "".join(f"{row}\n" for row in rows)


def quoted(words):
    return ", ".join(f'"{word}"' for word in words)


def columns(rows):
    """Rows of two fields, indented, the second ones below each other."""
    width = max(len(first) for first, _ in rows)
    return joined(f"  {first:{width}}  {second}" for first, second in rows)


def filled(message, at, limit, place):
    """The message with these words in place of its numbers."""
    return re.sub(r"\bPLACE\b", place, re.sub(r"\bLIMIT\b", limit, re.sub(r"\bAT\b", at, message)))


def number(wanted):
    """Makes the wanted number of another one, and groups its digits in the same way."""
    return lambda old: f"{wanted:,}" if "," in old else f"{wanted:_}" if "_" in old else str(wanted)


def variants(words, helps):
    """Makes the variants of an enum. Each keeps its comment; a new one gets the help of its word."""
    def make(old):
        said = {name: comment for comment, name in re.findall(r"((?:^    ///[^\n]*\n)*)^    (\w+),$", old, re.MULTILINE)}
        comments = [f"    /// {help[0].upper()}{help[1:]}.\n" for help in helps]
        return joined(said.get(word, comment) + f"    {word}," for word, comment in zip(words, comments))
    return make


def constants(words, first, helps):
    """Makes the constants of an enum of the header. Each keeps its comment; a new one gets the help of its word, if there is one."""
    def make(old):
        said = dict(re.findall(r"SGF_LINES_(\w+) = \d+,? */\* (.*?) \*/", old))
        names = [f"    SGF_LINES_{word} = {number}" + "," * (word != words[-1]) for number, word in enumerate(words, first)]
        width = max(map(len, names))
        comments = [f"/* {said.get(word, help)} */" if said.get(word, help) else "" for word, help in zip(words, helps)]
        return joined(f"{name:{width}} {comment}".rstrip() for name, comment in zip(names, comments))
    return make


def shown(kind, first, rows):
    """A part of the help of split: the rows after one that begins so."""
    for path in (COMMAND, HELP):
        made(path, f"the {kind} in the help of split", rf"^{first}[^\n]*:\n(.*?)\n\n", columns(rows)[:-1])


def check_limit(table):
    limit = int(table["limit"][0][0])
    for path, pattern in [
        (HEADER, r"#define SGF_LINES_MAX_LENGTH (\d+)"),
        (MODULE, r"MAX_LENGTH = (\d+)"),
        (MODULE, r"more than ([\d,]+) bytes"),
        (MANUAL, r"The input may have at most ([\d,]+) bytes"),
        ("docs/PROVED.md", r"more than ([\d,]+) bytes"),
        ("docs/GRAMMAR.md", r"at most ([\d,]+) bytes"),
        ("recipes/sgfsplit.py", r"LIMIT = (\d+)"),
        ("recipes/parts.py", r"without --most it is (\d+)"),
        ("bench/hostile.py", r"LIMIT = ([\d_]+)"),
        ("crates/sgf_outline/src/**/*.rt", r"pub const MAX_LENGTH: usize = ([\d_]+);"),
    ]:
        made(path, "the limit", pattern, number(limit))
    if limit % (1 << 20):
        faults.append("packaging/words.txt: the limit isn't a number of MiB")
    for path, before in [(COMMAND, r"at most\s"), (HELP, r"at most\s"), (HEADER, "length of a text in bytes: "), (MANUAL, r"bytes \("),
                         ("docs/GRAMMAR.md", "(?:which is|limit of) "), ("README.md", "(?:at most|more than) "), ("docs/PROVED.md", "at most "),
                         ("docs/RECIPES.md", r"(?:reads at most|(?:collection|game) of more than)\s"),
                         ("recipes/parts.py", "(?:takes|more than|once) "), ("crates/sgf_outline/src/limit.rt", "may have: "),
                         ("crates/sgf_outline/src/lib.rt", "at most "), ("crates/sgf_tree/src/lib.rt", "at most ")]:
        made(path, "the limit in MiB", before + r"(\d+)\s+MiB", number(limit >> 20))
    for path in sorted(glob.glob(f"{TOP}/tests/*.*")):
        if re.search(r"input is longer than \d", read(path)):
            made(os.path.relpath(path, TOP), "the limit", r"input is longer than (\d+) bytes", number(limit))


def check_commands(table):
    program, *_ = table["program"][0]
    commands = [name for name, _ in table["command"]]
    forms = [word for word, *_ in table["form"]]
    (form, *_), *others = table["option"]
    file = table["file"][0][0]
    values = [f"[--{form} {'|'.join(forms)}]", *(f"[--{name} {value}]" for name, value, _ in others)]
    usage = [f"{program} {commands[0]} {' '.join(values)} [{file}]", f"{program} {commands[1]} [{file}]"]
    made("README.md", "the usage", r"((?:^    \w+ \w+ [^\n]*\[\w+\]\n)+)", joined(f"    {row}" for row in usage))
    made(COMMAND, "the usage", r"((?:^//! \w+ \w+ [^\n]*\[\w+\]\n)+)", joined(f"//! {row}" for row in usage))
    lists(COMMAND, "the commands", r"(.*)", r'Command::new\(alloc, "(\w+)"\)', [program, *commands])
    for name, about in table["program"] + table["command"]:
        made(COMMAND, f"the first row of the help of {name}", rf'Command::new\(alloc, "{name}"\)\s*\.about\("([^"]*)"\)', about)
    lists("crates/sgfsplit_job/specs/CommandLine.antt", "the commands", r"(.*)", r'new_app \(codes "(\w+)"\)', [program, *commands])
    lists(MANUAL, "the commands", r"^\.Sh DESCRIPTION(.*?)^The options of", r"^\.It Cm (\w+)$", commands)


def check_options(table):
    forms = [word for word, *_ in table["form"]]
    form, *others = table["option"]
    names = [name for name, *_ in table["option"]]
    given = [f"-{form[0]} Cm {' | '.join(forms)}", *(f"-{name} Ar {value}" for name, value, _ in others)]
    made(MANUAL, "the words after --form", rf"^\.(?:Op|It) Fl -{form[0]} Cm ([^\n]*)$", " | ".join(forms))
    lists(MANUAL, "the synopsis", r"^\.Sh SYNOPSIS(.*?)^\.Cm count", r"^\.Op Fl (.*)$", given)
    lists(MANUAL, "the options", r"^The options of(.*?)^\.Sh FORMS", r"^\.It Fl (-\w+ .*)$", given)
    lists(COMMAND, "the options", r"(.*)", r'"(\w+)",\s*"([A-Z]+)",\s*"', [f"{name} {value}" for name, value, _ in others])
    lists(COMMAND, "--form", r"fn form_option(.*?)^}", r'\.(?:long|value_name)\("([^"]*)"\)', form[:2])
    lists(COMMAND, "FILE", r"fn file_argument(.*?)^}", r'\.value_name\("([^"]*)"\)', table["file"][0][:1])
    for where, text in [(r'fn form_option(?:(?!^}).)*?\.help', form[2]), (r'fn form_option(?:(?!^}).)*?\.default_value', forms[0]),
                        (r'fn file_argument(?:(?!^}).)*?\.help', table["file"][0][1])]:
        made(COMMAND, "the help of an option", where + r'\("([^"]*)"\)', text)
    for name, value, help in others:
        made(COMMAND, f"the help of --{name}", rf'"{name}",\s*"{value}",\s*"([^"]*)"', help)
    made(HELP, "the words after --form", r"\[possible values: ([^\]]*)\]", ", ".join(forms))
    flags = [f"has_{name}" for name in names[1:]]
    lists(HEADER, "struct sgf_lines_asked", r"struct sgf_lines_asked \{(.*?)^\}", r"^ *\w+ (\w+);", [form[0], *flags, *names[1:]])
    lists("crates/sgf_lines_c/src/**/*.rt", "Asked", r"pub struct Asked \{(.*?)^\}", r"pub (\w+):", [form[0], *flags, *names[1:]])
    lists("crates/sgf_lines/src/**/*.rt", "Options", r"pub struct Options \{(.*?)^\}", r"pub (\w+):", names)
    arguments = [f"{name}: Optional[SupportsIndex] = None" for name in names[1:]]
    with_form = f"{form[0]}: {form[0].capitalize()}"
    for call, wanted in [("output", [f'{with_form} = "{forms[0]}"', *arguments]), ("records", [with_form, *arguments]),
                         ("iter_rows", arguments), ("rows", arguments)]:
        made(MODULE, call, rf"^def {call}\(text: _Text, ([^)]*)\) ->", ", ".join(wanted))
    made(MODULE, "the forms of output", r'^    form: ("[^.\n]*)\.', " or ".join([quoted(forms[:-1]), quoted(forms[-1:])]))


def check_completions(table):
    program = table["program"][0][0]
    commands, ((form, value, help), *others) = table["command"], table["option"]
    forms = " ".join(word for word, *_ in table["form"])
    words = " ".join(name for name, _ in commands)
    flags = " ".join(f"--{name}" for name, *_ in table["option"])
    for what, within, text in [
        ("the commands", r"-eq 1 \][^']*-W '([^']*)'", f"{words} --help"),
        ("the options", r"-W '(--\w+ [^']*)'", f"{flags} --help"),
        ("the form", r"^ +(--\w+)\)\n", f"--{form}"),
        ("the forms", r"^ +--\w+\)\n[^']*-W '([^']*)'", forms),
        ("the numbers", r"^ +(--[^)\n]*)\) return", " | ".join(f"--{name}" for name, *_ in others)),
        ("the program", r"_sgfsplit (\w+)\n\Z", program),
    ]:
        made(BASH, what, within, text)
    described = " ".join(f'{name}\\:"{about}"' for name, about in commands)
    offered = [f"'--{form}=[{help}]:{value}:({forms})' \\", *(f"'--{name}=[{help}]:{value}: ' \\" for name, value, help in others)]
    made(ZSH, "the program", r"\A#compdef (\w+)$", program)
    made(ZSH, "the commands", r"'1:command:\(\(([^\n]*)\)\)'", described)
    made(ZSH, "the options", r"((?:^ +'--[^\n]*\n)+)", joined(" " * 12 + row for row in offered))
    before = f"complete -c {program} -n"
    in_split = f"{before} '__fish_seen_subcommand_from {commands[0][0]}' -l"
    offered = [f"{in_split} {form} -x -a '{forms}' -d '{help}'", *(f"{in_split} {name} -x -d '{help}'" for name, _, help in others)]
    made(FISH, "the commands", r"((?:^complete -c \w+ -n __fish_use_subcommand -a [^\n]*\n)+)",
         joined(f"{before} __fish_use_subcommand -a {name} -d '{about}'" for name, about in commands))
    made(FISH, "the options", r"((?:^complete -c \w+ -n '[^']*' -l [^\n]*\n)+)", joined(offered))
    made(FISH, "the files", r"^(complete -c \w+ -n '[^']*' -F)$", f"{before} '__fish_seen_subcommand_from {words}' -F")


def check_forms(table):
    forms = [word for word, *_ in table["form"]]
    ends = {word: end for word, end, _ in table["form"]}
    helps = [[word, help] for word, _, help in table["form"]]
    names = [in_rust(word) for word in forms]
    modules = [word.replace("-", "_") for word in forms]
    code = "crates/sgf_lines/src/**/*.rt"
    made(code, "the words of forms", r"const WORDS: (\[&str; \d+\] = \[[^\]]*\]);", f"[&str; {len(forms)}] = [{quoted(forms)}]")
    made(code, "the forms", r"^pub enum Form \{\n(.*?)^\}", variants(names, [help for _, help in helps]))
    made(code, "Form::named", r"pub fn named.*?match word \{\n(.*?)^ *_ =>",
         joined(f'            "{form}" => Some(Form::{name}),' for form, name in zip(forms, names)))
    made(code, "Form::numbered", r"pub fn numbered.*?match number \{\n(.*?)^ *_ =>",
         joined(f"            {number} => Some(Form::{name})," for number, name in enumerate(names)))
    made(code, "the types of forms", r"((?:^use crate::form::\w+::\w+Form;\n)+)",
         joined(sorted(f"use crate::form::{module}::{name}Form;" for module, name in zip(modules, names))))
    made(code, "the case of each form", r"((?:^ *Form::\w+ => write_page::[^\n]*\n)+)",
         joined(f"        Form::{name} => write_page::<{name}Form, T>(alloc, cursor, limit, sink, plays)," for name in names))
    made("crates/sgf_lines/src/form.rt", "the modules", r"((?:^pub\(crate\) mod \w+;\n)+)",
         lambda old: joined(sorted({*old.splitlines(), *(f"pub(crate) mod {module};" for module in modules)})))
    made("crates/sgf_lines/src/form.rt", "the forms", r"^//! \| ([^|\n]*) \| the forms:", ", ".join(f"`{module}`" for module in modules))
    lists("crates/sgf_lines/specs/*.antt", "forms", r"^forms = ([^\n]*)", r"form\.(\w+)", names)
    lists("crates/sgf_lines/specs/*.antt", "entry_of", r"^entry_of form(.*?)^(?:\n|\Z)", r'word = codes "([^"]+)"', forms)
    shown("forms", "Forms", helps)
    lists(MANUAL, "the forms", r"^\.Sh FORMS(.*?)^\.Sh", r"^\.It Cm (\w+)$", forms)
    lists("crates/sgf_lines_c/src/**/*.rt", "the numbers of forms", r"pub struct Asked \{(.*?)pub form:", r"\b(\d+) as\b",
          [str(number) for number in range(len(forms))])
    lists("docs/OUTPUT.md", "the headings", r"(.*)", r"^## The (\w+) form$", forms)
    for path in ("README.md", "tests/program.sh"):
        used = re.findall(r"--form[ =]([\w-]+)", read(path))
        faults.extend(f"{path} lacks: --form {form}" for form in forms[1:] if form not in used)
    made(HEADER, "enum sgf_lines_form", r"^enum sgf_lines_form \{\n(.*?)^\}", constants([in_c(form) for form in forms], 0, [help for _, help in helps]))
    made(MODULE, "Form", r"^Form = Literal\[([^\]]*)\]", quoted(forms))
    made(MODULE, "FORMS", r"^FORMS: dict\[Form, int\] = \{(.*?)\}", ", ".join(f'"{form}": {number}' for number, form in enumerate(forms)))
    made(MODULE, "_ENDS", r"^_ENDS = \{(.*?)\}", ", ".join(f'"{form}": b"{ENDS[end].decode()}"'.replace("\n", "\\n") for form, end in ends.items()))
    made("recipes/sgfsplit.py", "ENDS", r"^ENDS = \{(.*?)\}", ", ".join(f'"{form}": "{end}"' for form, end in ends.items()))


def check_measures(table):
    """What is measured: each form, and a count."""
    in_benches = [*(word for word, *_ in table["form"]), table["command"][1][0]]
    for path in ("bench/hostile.py", "bench/growth.py"):
        made(path, "FORMS", r"^FORMS = \[(.*?)\]", quoted(in_benches))
    for path, within in [("bench/hostile.py", r"--forms ([a-z,]+)\]"), ("bench/compare.py", r"--forms ([a-z,]+)\]"),
                         ("bench/compare.py", r'"--forms", default="([a-z,]+)"')]:
        made(path, "--forms", within, ",".join(in_benches))
    path, _, matches = places("docs/PERFORMANCE.md", "a table of the forms", rf"^\| Input \| ((?:[\w-]+ \| )+{in_benches[-1]}) \|")
    for match in matches:
        compare(path, "a table of the forms", match[1].split(" | "), in_benches)
    lists("docs/figures/growth.svg", "the names of the curves", r"(.*)", r'<path [^>]*stroke-width="2"/><text [^>]*>(\w+)</text>', in_benches)


def check_verdicts(table):
    names = list(dict.fromkeys(name for name, _, _ in table["verdict"]))
    helps = [next(help for other, _, help in table["verdict"] if other == name) for name in names]
    rows = [words for _, words, _ in table["verdict"]]
    variants = [in_rust(name) for name in names]
    lists("crates/judged_lines/src/**/*.rt", "the verdicts", r"pub enum Verdict \{(.*?)^\}", r"^    (\w+)[, ]", variants)
    lists("crates/sgf_lines_c/src/**/*.rt", "the numbers of verdicts", r"fn of\(verdict(.*?)^    \}",
          r"Verdict::(\w+)[^=]*=> \{?\s*answer\.verdict = (\d+)", numbered(variants, 1))
    shown("verdicts", "Verdicts", [[words, help] for _, words, help in table["verdict"]])
    lists(MANUAL, "the verdicts", r"^\.Sh FORMS(.*?)^\.Sh REASONS", r"^\.It Li (.*)$", [in_manual(row) for row in rows])
    for path in ("README.md", "docs/OUTPUT.md"):
        lists(path, "the verdicts", r"(.*)", r"`((?:score|illegal|unjudged) [A-Za-z ]+)`", rows, any_order=True)
    made(HEADER, "enum sgf_lines_verdict", r"^enum sgf_lines_verdict \{\n(.*?)^\}", constants(["NO_VERDICT", *names], 0, ["", *helps]))
    made(MODULE, "the numbers of verdicts", r"^(NO_VERDICT, [^\n]*)", f"{', '.join(['NO_VERDICT', *names])} = range({len(names) + 1})")
    lists(MODULE, "the classes of verdicts", r"(.*)", rf"^class ({'|'.join(variants)})\((?:NamedTuple|_Unjudged)\)", variants)
    made(MODULE, "Verdict", r"^Verdict = Union\[([^\]]*)\]", ", ".join(variants))


def check_reasons(table):
    reasons = [word for word, _ in table["reason"]]
    helps = [help for _, help in table["reason"]]
    names = [in_rust(word) for word in reasons]
    pairs = [f"{name} {word}" for name, word in zip(names, reasons)]
    code = "crates/go_board/src/**/*.rt"
    made(code, "the reasons", r"^pub enum Reason \{\n(.*?)^\}", variants(names, helps))
    made(code, "the words of reasons", r'((?:^ *Reason::\w+ => "[^\n]*\n)+)',
         joined(f'            Reason::{name} => "{word}",' for name, word in zip(names, reasons)))
    lists("crates/go_board/specs/*.antt", "word_of", r"^word_of(.*)", r'^(?:word_of)? (\w+) = codes "([^"]+)"', pairs)
    lists("crates/go_board/specs/*.antt", "rank_of", r" rank_of :(.*?)\n\n", r"rank_of (\w+) = (\d+)", numbered(names, 0))
    made("crates/sgf_lines_c/src/**/*.rt", "the numbers of reasons", r"((?:^ *Reason::\w+ => \d+,\n)+)",
         joined(f"        Reason::{name} => {number}," for number, name in enumerate(names, 1)))
    shown("reasons", "Reasons, ", table["reason"])
    lists(MANUAL, "the reasons", r"^\.Sh REASONS(.*?)^\.Sh", r"^\.It Cm (\S+)$", reasons)
    made(HEADER, "enum sgf_lines_reason", r"^enum sgf_lines_reason \{\n(.*?)^\}", constants(["NO_REASON", *map(in_c, reasons)], 0, ["", *helps]))
    made(MODULE, "Reason", r"^Reason = Literal\[([^\]]*)\]", quoted(reasons))
    made(MODULE, "REASONS", r"^REASONS = \[(.*?)\]", quoted(["", *reasons]))
    lists("docs/RULES.md", "the reasons", r"(.*)", r"^ *\| `([a-z-]+)` \|", reasons, any_order=True)
    lists("docs/OUTPUT.md", "the rows of the reasons", r"(.*)", r"^    \d+ \d+ \d+ illegal \d+ \d+ (\S+)$", reasons)
    lists("examples/illegal.sgf", "the reasons", r"(.*)", r"C\[([a-z-]+)[:\]]", reasons)
    lists("tests/program.sh", "the reasons", r"(.*)", r" illegal \d+ \d+ ([a-z-]+)", reasons, any_order=True)
    made("tests/library.c", "the reasons", r'((?:^    \[SGF_LINES_\w+\] = "[^\n]*\n)+)',
         joined(f'    [SGF_LINES_{in_c(word)}] = "{word}",' for word in reasons))


def tells(path, name, messages):
    """What each variant of an enum of faults tells is one of the messages."""
    path, whole, matches = places(path, name, rf"pub enum {name} \{{(.*?)^\}}")
    wrongs = re.findall(r'^        "([^"]*)"$', whole, re.MULTILINE)  # what stands for the {} of a message
    for match in matches:
        told = [row.replace("{}", wrong) for row in re.findall(r'error\("([^"]*)"', match[1]) for wrong in (wrongs if "{}" in row else [""])]
        faults.extend(f"{path} has {row}, which isn't a message" for row in told if row not in messages)
        if len(told) < len(re.findall(r"^    [A-Z]", match[1], re.MULTILINE)):
            faults.append(f"{path}: a variant of {name} tells no message")


def check_ends(table):
    statuses = [number for number, _ in table["status"]]
    messages = [(status, filled(text, "AT", table["limit"][0][0], "PLACE")) for status, text in table["message"]]
    said = textwrap.fill(f"Exit status: {', '.join(' '.join(row) for row in table['status'])}.", 79, break_on_hyphens=False)
    for path in (COMMAND, HELP):
        made(path, "the exit statuses", r"^(Exit status: .*?)\n\n", said)
    for status in statuses:
        rows = [f".It\n.Ql sgfsplit: {text}" for number, text in messages if number == status]
        if len(rows) > 1:
            made(MANUAL, f"the messages of status {status}", rf"^\.It {status}\n(?:(?!^\.It \d).)*?^\.Bl -item -compact\n(.*?)^\.El", joined(rows))
    lists(MANUAL, "the exit statuses and messages", r"^\.Sh EXIT STATUS(.*?)^\.Sh", r"^\.(It|Ql) (?:sgfsplit: )?(\S.*?)(?: \.)?$",
          [row for number in statuses for row in [f"It {number}", *(f"Ql {text}" for status, text in messages if status == number)]])
    lists("README.md", "the exit statuses", r"The exit status(.*?)\n\n", r"(\d) if", statuses)
    parts = [part for _, text in table["message"] for part in re.split(r"\b(?:AT|LIMIT|PLACE)\b", text) if part]
    for kind in ("src/**/*.rt", "specs/**/*.antt"):
        quotes(f"crates/sgf*/{kind}", parts)
    told = [filled(text, "{at}", "{MAX_LENGTH}", "{place}") for _, text in table["message"]]
    tells("crates/sgf_lines/src/**/*.rt", "RunFault", told)
    tells("crates/tree_lines/src/**/*.rt", "SeekFault", told)
    refused = [text for status, text in table["message"] if status == "1"]
    holds(MODULE, *(f'f"{filled(text, "{self.at}", "{MAX_LENGTH}", "{self.place}")}"' for text in refused))
    holds("tests/library.c", *(f'"sgfsplit: {filled(text, "%llu", "%d", "%llu")}\\n"' for text in refused))
    results = [name for name, in table["result"]]
    made(HEADER, "enum sgf_lines_status", r"^enum sgf_lines_status \{\n(.*?)^\}", constants(results, 0, [""] * len(results)))
    made(MODULE, "the numbers of statuses", r"^(DONE, [^\n]*)", f"{', '.join(results)} = range({len(results)})")
    lists("crates/sgf_lines_c/src/**/*.rt", "Status::number", r"^impl Status \{(.*?)^\}", r"Status::(\w+) => (\d+)",
          numbered(map(in_rust, results), 0))
    lists("crates/sgf_lines_c/specs/*.antt", "number_of", r" number_of :(.*)", r"number_of (\w+) = (\d+)",
          numbered(map(in_rust, results), 0))


def check_version():
    version = read("VERSION").strip()
    made(COMMAND, "the version", r'^sgfsplit ([\d.]+)";', version)
    made(MANUAL, "the version", r"^\.Os sgfsplit (\S+)$", version)
    lists("packaging/changelog", "the version", r"\Asgfsplit \((\S+)\)", r".+", [version])
    lists("CHANGELOG.md", "the version", r"^## (\S+)$", r".+", [version])


def check(table):
    for check in (check_limit, check_commands, check_options, check_completions, check_forms, check_measures, check_verdicts, check_reasons,
                  check_ends):
        check(table)
    check_version()


def help_of(table, name, command=None):
    """The help of the program, or of a command of it. clap lays it out."""
    constants = dict(re.findall(r'^const (\w+): &str = "\\\n(.*?)";$', read(COMMAND), re.DOTALL | re.MULTILINE))
    file, file_help = table["file"][0]
    options = [("-h, --help", "Print help")]
    if command is None:
        texts = [table["program"][0][1], f"Usage: {name} <COMMAND>",
                 "Commands:\n" + columns(table["command"] + [["help", "Print this message or the help of the given subcommand(s)"]])]
    else:
        texts = [dict(table["command"])[command], f"Usage: {name} {command} {'[OPTIONS] ' if command == 'split' else ''}[{file}]",
                 "Arguments:\n" + columns([[f"[{file}]", file_help]])]
    if command == "split":
        forms = [word for word, *_ in table["form"]]
        options = [(f"    --{option} <{value}>", help) for option, value, help in table["option"]] + options
        options[0] = (options[0][0], f"{options[0][1]} [default: {forms[0]}] [possible values: {', '.join(forms)}]")
    texts += ["Options:\n" + columns(options), constants[f"{command}_EXAMPLE".upper() if command else "EXAMPLE"]]
    return "\n\n".join(text.rstrip("\n") for text in texts)


def main(words):
    global writes
    table = read_table("packaging/words.txt")
    if words[:1] == ["--help-of"]:
        print(help_of(table, *words[1:]))
        return
    if words == ["--write"]:
        writes = True
        check(table)
        writes = False
        faults.clear()
    elif words:
        sys.exit(__doc__)
    check(table)
    print("\n".join(faults) or f"{sum(map(len, table.values()))} rows, and every place agrees")
    sys.exit(bool(faults))


main(sys.argv[1:])
