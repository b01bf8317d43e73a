#!/usr/bin/env bash
# The completions that bash offers for the words of the program: the commands, options and forms of packaging/words.txt, and files. A name with
# spaces or a line feed stays whole, and after `--` there are only files.
. "$(dirname "$0")/lib.sh"
. "$top/completion/sgfsplit.bash"

# In place of the builtin, which works only while bash completes a word.
compopt() {
    [ "$*" = '-o default' ] || failed "compopt $*"
    COMPREPLY=(files)
}

# The completions of the last word.
offered() {
    COMP_WORDS=(sgfsplit "$@")
    COMP_CWORD=$#
    _sgfsplit
    printf '%s\n' "${COMPREPLY[@]}" | sort | tr '\n' ' '
}

wants() {
    local want=$1
    shift
    [ "$(offered "$@")" = "$want " ] || failed "offered for '$*': $(offered "$@")"
}

commands=$(words command) options=$(words option --) forms=$(words form)
wants "$(sorted --help $commands)" ''
wants 'split' s
wants "$(sorted --help $options)" split --
wants "$(sorted $forms)" split --form ''
wants "$(sorted $forms)" split --form =
wants 'sgf' split --form = s
wants '' split --limit ''
wants '' split --limit =
wants 'files' split --form sgf g
wants 'files' split --form = sgf g
wants 'files' count ''
wants 'files' split -- --
wants 'files' split --form sgf -- -
wants 'files' count -- --h
wants "$(sorted --help $options)" split --limit 3 --
wants "$(sorted --help $options)" split --limit = 3 --

# A shell that completes words, and a program that says which words it gets.
needs python3
cat > keys.py <<'PYTHON'
import os
import pty
import select
import sys

os.mkdir("here")
os.chdir("here")
for name in ("game.sgf", "line\nfeed.sgf", "a b.sgf", "-x.sgf", "it's.sgf"):
    open(name, "w").close()
with open("../sgfsplit", "w") as program:
    program.write("#!/bin/sh\nprintf '<%s>' \"$@\" > ../words\n")
os.chmod("../sgfsplit", 0o755)
os.environ.update(PS1="$ ", TERM="dumb", PATH=os.path.abspath("..") + ":" + os.environ["PATH"], HOME=os.getcwd())
shell, keys = pty.fork()
if shell == 0:
    os.execvp("bash", ["bash", "--norc", "--noprofile", "-i"])


def seen(end):
    """Reads what the shell writes, until it ends so."""
    text = b""
    while not text.endswith(end):
        if not select.select([keys], [], [], 30)[0]:
            sys.exit(f"the shell writes {text}, and not {end}")
        text += os.read(keys, 65536)
    return text


seen(b"$ ")
os.write(keys, b". " + os.fsencode(sys.argv[1]) + b"\n")
seen(b"$ ")
for typed, want in ((b"count ga", b"<count><game.sgf>"), (b"count li", b"<count><line\nfeed.sgf>"), (b"split --form sgf a", b"<split><--form><sgf><a b.sgf>"),
                    (b"split -- -", b"<split><--><-x.sgf>"), (b"count it", b"<count><it's.sgf>"), (b"count ../sgf", b"<count><../sgfsplit>")):
    os.write(keys, b"sgfsplit " + typed + b"\t\n")
    seen(b"$ ")
    with open("../words", "rb") as words:
        got = words.read()
    if got != want:
        sys.exit(f"{typed} and a tabulator gives {got}, not {want}")
PYTHON
python3 keys.py "$top/completion/sgfsplit.bash" > said || failed "$(cat said)"
