"""The command line that the tools of this folder share: options, names of files and folders, paths of outputs, messages and the status.
A tool imports this module first, so that Ctrl-C ends it without a traceback while other modules are loaded."""
import sys


def silently(kind, error, trace):
    """Python's report of an error that nothing has caught, but none of Ctrl-C."""
    if not issubclass(kind, KeyboardInterrupt):
        sys.__excepthook__(kind, error, trace)


sys.excepthook = silently

import contextlib
import errno
import functools
import os
import re
import select
import signal

import sgfsplit
from sgfsplit import Refused, Trouble, is_same, shown

MOST_LINKS = 40  # the system follows no more links on the way to a file


class Words(Exception):
    """The words of a command line are wrong. The text says what is wrong with them."""


class Job:
    """One call of a tool: its options, its first words and its files, and whether a file was refused."""

    def __init__(self, options, first, names):
        self.options, self.first, self.names, self.status = options, first, names, 0
        self.left_out = None

    def refuse(self, row):
        """Says that a file was refused. The tool goes on, and ends with status 1."""
        sys.stdout.flush()
        sgfsplit.say(row)
        self.status = 1

    @contextlib.contextmanager
    def going_on(self):
        """For the work on one file. If that work raises Refused, reports it, and the tool goes on."""
        try:
            yield
        except Refused as refused:
            self.refuse(refused)

    def files(self):
        """The name of each file: the words themselves, and each .sgf file below a folder."""
        for name in self.names:
            if os.path.isdir(name):
                yield from self.below(name)
            else:
                yield name

    def below(self, folder):
        """The .sgf files below a folder, in the order of their names. Those below `left_out`, the tool's own outputs, are left out."""
        waiting = [folder]
        while waiting:
            path = waiting.pop()
            try:
                with os.scandir(path) as entries:
                    inner = sorted(entries, key=lambda entry: os.fsencode(entry.name))
            except OSError as error:
                self.refuse(f"{shown(path)}: {error.strerror}")
                continue
            folders = []
            for entry in inner:
                if is_folder(entry):
                    folders.append(entry)
                elif entry.name.lower().endswith(".sgf"):
                    if os.path.exists(entry.path) and not os.path.isfile(entry.path):
                        self.refuse(f"{shown(entry.path)}: not a file")
                    else:
                        yield entry.path
            waiting += [entry.path for entry in reversed(folders) if not entry.is_symlink() and not is_same(entry.path, self.left_out)]

    def outputs(self, out, ending, *endings):
        """The name of each file, and the path of its output below the folder `out`: out/dir/name.ending. `endings` are those of the files
        that the tool writes below `out`. A file there with such an ending could be overwritten, so the tool doesn't begin at all."""
        if not out:
            raise Words("the folder for outputs has an empty name")
        self.left_out, inside = out, real(out)
        names, taken = list(self.files()), {}
        for name in names:
            with contextlib.suppress(OSError):  # no file stands at the end of too many links
                if any(is_below(place, inside) and place.lower().endswith((*endings, ".part")) for place in places(name)):
                    raise Words(f"{shown(name)} stands below the folder {shown(out)}, in which files are written")
        for name in names:
            path = kept(out, name, ending)
            first = taken.setdefault(path, name)
            try:
                leads_out = not all(is_below(place, inside) for place in places(path))
            except OSError as error:
                self.refuse(f"{shown(path)}: {error.strerror}")
                continue
            if leads_out:
                self.refuse(f"{shown(name)}: left out, since links lead from {shown(path)} out of the folder {shown(out)}")
            elif first is name:
                yield name, path
            elif not is_same(first, name):
                self.refuse(f"{shown(name)}: left out, since what {shown(first)} gives is kept at {shown(path)}")


def is_folder(entry):
    """Whether an entry of a folder is a folder or leads to one."""
    try:
        return entry.is_dir()
    except OSError:
        return False


@functools.lru_cache(maxsize=1024)  # many files share a folder
def real(path):
    """The path without links on the way. (os.path.realpath calls itself for each link before Python 3.13, and fails for a thousand.) Raises
    OSError if there are more links than the system follows."""
    at, waiting, links = os.sep, os.path.join(os.getcwd(), path).split(os.sep)[::-1], 0
    while waiting:
        part = waiting.pop()
        if part == os.pardir:
            at = os.path.dirname(at)
        elif part not in ("", os.curdir):
            inner = os.path.join(at, part)
            leads = link_at(inner)
            if leads is None:
                at = inner
                continue
            links += 1
            if links > MOST_LINKS:
                raise OSError(errno.ELOOP, os.strerror(errno.ELOOP), path)
            at = os.sep if os.path.isabs(leads) else at
            waiting += leads.split(os.sep)[::-1]
    return at


def link_at(path):
    """Where the link at the path leads, or None if no link stands there."""
    try:
        return os.readlink(path)
    except OSError:
        return None


def places(path):
    """Where a path stands, and where it leads if it is a link, both without links on the way. Raises OSError as `real` does."""
    yield os.path.join(real(os.path.dirname(path)), os.path.basename(path))
    if os.path.islink(path):
        yield real(path)


def is_below(place, folder):
    """Whether a place is below a folder, or is that folder, both without links on the way."""
    return os.path.commonpath([place, folder]) == folder


def kept(out, name, ending):
    """The path out/dir/name.ending for a file dir/name.sgf. A name that doesn't end in .sgf stays whole. So do `.sgf` and `...sgf`,
    because the rest of such a name would mean a folder. The path never leaves `out`."""
    path = os.path.normpath(name)
    if os.path.isabs(path) or path.split(os.sep)[0] == os.pardir:
        path = os.path.relpath(os.path.abspath(path), os.sep)
    folder, last = os.path.split(path)
    if last.endswith(".sgf") and last[:-4] not in ("", os.curdir, os.pardir):
        last = last[:-4]
    return os.path.join(out, folder, last + ending)


def check_fault(path):
    """Raises Failed if path.fault isn't a row of library.py about the file dir/name.sgf."""
    name = re.escape(shown(os.path.basename(path)).encode("utf-8", "surrogateescape"))
    check(path + ".fault", re.compile(rb"(.*/)?" + name + rb"(\.sgf)?: ?.+\n\Z"))


def check(path, pattern):
    """Raises Failed if a file stands at the path that doesn't begin as one of library.py."""
    if os.path.isfile(path):
        begin = sgfsplit.read(path, sgfsplit.PIECE).data
        if begin and not pattern.match(begin):
            raise sgfsplit.Failed(f"{shown(path)}: library.py didn't write this file, so it stays as it is")


def remove(path):
    """Removes the file at the path, if there is one."""
    try:
        if os.path.isfile(path):
            os.unlink(path)
    except OSError as error:
        raise sgfsplit.Failed(f"{shown(path)}: {error.strerror}") from error


def number_of(word, least, most, what):
    """The number in a word, from `least` to `most`. Raises Words for any other word, and that message begins with `what`."""
    if not re.fullmatch("[0-9]{1,18}", word) or not least <= int(word) <= most:
        raise Words(f"{what}, from {least} to {most}")
    return int(word)


def options_of(words, flags, values):
    """The options at the front of a command line, and how many words they are. The options end at `--` or at the first other word. So no name
    after that is taken for an option. A word that is an option and also a file's name is refused, unless `--` is among the words."""
    options, at, known = {}, 0, {"-h", "--help", "-0", *flags, *values}
    is_sure = "--" in words and not os.path.lexists("--")
    while at < len(words) and words[at].startswith("-") and words[at] != "-":
        whole = words[at]
        option, sign, value = whole.partition("=")
        is_option = whole == "--" or option in known and (not sign or option in values)
        is_name = os.path.lexists(whole) and not is_sure
        if is_name and is_option:
            raise Words(f"{shown(whole)} is an option and a file's name; write ./ before the name, or -- after the options")
        if is_name:
            break
        if not is_option:
            raise Words(f"no option {shown(whole)}")
        at += 1
        if whole == "--":
            break
        if option in values and not sign:
            if at == len(words):
                raise Words(f"{option} wants a word after it")
            value, at = words[at], at + 1
        options[option] = value
    return options, at


def job_of(words, flags, values, first, is_filter):
    """The job of a command line, or None for help."""
    options, at = options_of(words, flags, values)
    if "-h" in options or "--help" in options:
        return None
    if is_filter and not words:
        return Job({}, [], [])
    names = words[at + first:]
    if len(words) - at < first or not names and "-0" not in options:
        raise Words("too few words")
    if "-0" in options:
        more = sgfsplit.read_from(sys.stdin.buffer, "standard input", sgfsplit.MOST)
        if len(more) == sgfsplit.MOST:
            raise Words("standard input has too many names")
        names += [os.fsdecode(name) for name in more.split(b"\0") if name]
    return Job(options, words[at:at + first], names)


def ended(tool, usage, *takes):
    """Does the job of the command line. Returns the status, and a row about the failure, or None."""
    try:
        job = job_of(sys.argv[1:], *takes)
        if job is None:
            print(usage.strip())
        else:
            tool(job)
        sys.stdout.flush()
        return (0 if job is None else job.status), None
    except Words as wrong:
        me = os.path.basename(sys.argv[0])
        return 2, f"{wrong} ({me} -h says what it takes)"
    except (Trouble, Refused) as trouble:
        return 3, trouble
    except MemoryError:
        return 3, "no memory is left"
    except RuntimeError as error:
        if "start new thread" not in str(error):  # Python has no exception for this alone
            raise
        return 3, "the system starts no more threads"
    except OSError as error:
        is_unread = isinstance(error, BrokenPipeError) and has_no_reader(sys.stdout.fileno())
        os.dup2(os.open(os.devnull, os.O_WRONLY), sys.stdout.fileno())  # so Python doesn't try to write the lost output again
        told = error.strerror if error.filename is None else f"{shown(os.fsdecode(error.filename))}: {error.strerror}"
        return (0, None) if is_unread else (3, told)
    except KeyboardInterrupt:
        return 130, None


def has_no_reader(pipe):
    """Whether nobody can read any more what is written to a pipe."""
    asked = select.poll()
    asked.register(pipe, 0)
    return any(events & (select.POLLERR | select.POLLHUP) for _, events in asked.poll(0))


def end_by(*signals):
    """Lets these signals end the tool as an exception does, so that no file remains that is half written. Ignored ones stay ignored."""
    for number in signals:
        if signal.getsignal(number) != signal.SIG_IGN:
            signal.signal(number, lambda number, frame: sys.exit(128 + number))


def start(tool, usage, flags=(), values=(), first=0, is_filter=False):
    """Runs a tool with the Job of the command line, and ends with the tool's status. `flags` are its options without a value, and `values` are
    those with a value. `first` is how many words come before the names of files. A filter may be called without words.
    Status 1: a file was refused; 2: wrong words; 3: the program or the system failed."""
    if None in (sys.stdin, sys.stdout, sys.stderr):
        status, fault = 3, "a standard stream is closed"
    else:
        end_by(signal.SIGTERM, signal.SIGHUP)
        sys.stdout.reconfigure(encoding="utf-8", errors="surrogateescape")
        status, fault = ended(tool, usage, flags, values, first, is_filter)
    if fault is not None:
        sgfsplit.say(f"{os.path.basename(sys.argv[0])}: {fault}")
    sys.exit(status)
