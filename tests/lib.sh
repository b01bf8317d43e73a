# The scripts of tests/ begin with this file: `. "$(dirname "$0")/lib.sh"`. Each runs in a new folder, which is removed when it ends.
# Status 0 means passed, 77 skipped, anything else failed.
set -euo pipefail
top=$(cd "$(dirname "${BASH_SOURCE[0]}")/.." && pwd)
export SGFSPLIT=${SGFSPLIT:-$top/crates/sgfsplit/out/sgfsplit}
export LC_ALL=C HOME=${HOME:-/} SHELL=${SHELL:-/bin/sh}  # GNU Parallel needs both, and a bare environment has neither
PATH=$PATH:/usr/games
work=$(mktemp -d)
left_out=0
trap ended EXIT
cd "$work"

# If cases were left out, the last line counts them, in the form of tests/all.sh.
ended() {
    local status=$?
    rm -rf "$work"
    [ "$status" != 0 ] || [ "$left_out" = 0 ] || echo "1 passed, 0 failed, $left_out skipped"
}

failed() {
    echo "failed: $*" >&2
    exit 1
}

skipped() {
    echo "skipped: $*"
    exit 77
}

# Goes on only if the programs are installed. If only some cases need a program, `can` leaves out these.
needs() {
    local program
    for program; do
        command -v "$program" > /dev/null || skipped "$program isn't installed"
    done
}

# Whether the program is installed. If it isn't, the case that needs it is left out: can PROGRAM CASE
can() {
    command -v "$1" > /dev/null && return
    left_out=$((left_out + 1))
    echo "left out: $2, since $1 isn't installed"
    return 1
}

# asked BASE QUERY: the rows that answer a query of an SQLite database, with `|` between their cells.
asked() {
    python3 -c '
import sqlite3, sys
for row in sqlite3.connect(sys.argv[1]).execute(sys.argv[2]):
    print(*("" if cell is None else cell for cell in row), sep="|")' "$@"
}

# words KIND [BEFORE]: the words of this kind in packaging/words.txt, one a row, each with this text before it.
words() { awk -v kind="$1" -v before="${2-}" '$1 == kind { print before $2 }' "$top/packaging/words.txt"; }

# sorted WORD..: the words in one row, sorted.
sorted() { printf '%s\n' "$@" | sort | paste -s -d ' '; }

# The files WANT and GOT have the same bytes.
same() {
    diff "$1" "$2" >&2 || failed "${3:-$2} isn't ${1##*/}"
}

[ -x "$SGFSPLIT" ] || skipped "no program at $SGFSPLIT: run make first"
