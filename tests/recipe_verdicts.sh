#!/usr/bin/env bash
# The table of a library. Columns, CSV, objects and SQLite have the same cells. A repeated call makes no duplicates in SQLite, and a file that
# changed or is now refused keeps no old row.
. "$(dirname "$0")/lib.sh"
needs python3
tool=$top/recipes/verdicts.py
cp -R "$top/examples" games
printf '(;SZ[2];B[];W[])' > games/over.sgf

cat > want <<'WANT'
file,place,game,nodes,verdict,black,white,ended,turn,fault,reason
games/corner.sgf,95,1,4,score,2,1,open,,,
games/corner.sgf,159,1,5,score,2,2,open,,,
games/corner.sgf,170,1,4,score,2,1,open,,,
games/corner.sgf,237,1,3,score,1,1,open,,,
games/handicap.sgf,53,1,4,score,3,2,open,,,
games/handicap.sgf,68,1,5,score,4,2,open,,,
games/illegal.sgf,45,1,3,illegal,,,,1,45,mixed
games/illegal.sgf,87,1,2,illegal,,,,1,87,two-moves
games/illegal.sgf,113,1,2,illegal,,,,1,113,bad-setup
games/illegal.sgf,150,1,2,illegal,,,,1,150,bad-point
games/illegal.sgf,194,1,4,illegal,,,,3,194,over
games/illegal.sgf,237,1,2,illegal,,,,1,237,turn
games/illegal.sgf,273,1,3,illegal,,,,2,273,occupied
games/illegal.sgf,309,1,3,illegal,,,,1,309,repeat
games/illegal.sgf,366,2,1,unjudged,,,,,,game
games/illegal.sgf,390,3,1,unjudged,,,,,,size
games/ko.sgf,123,1,3,illegal,,,,2,123,repeat
games/ko.sgf,185,1,5,score,5,7,open,,,
games/over.sgf,11,1,3,score,0,0,over,,,
games/two_games.sgf,24,1,3,score,1,1,open,,,
games/two_games.sgf,32,1,3,score,9,0,open,,,
games/two_games.sgf,68,2,3,score,2,1,open,,,
WANT
"$tool" --csv games > got
same want got
"$tool" games | sed 's/  */,/g; s/,-/,/g' > got
same want got "the table as columns"
tail -n +2 want > cells
"$tool" --json games | python3 -c '
import json, sys
for line in sys.stdin:
    print(*("" if cell is None else cell for cell in json.loads(line).values()), sep=",")' > got
same cells got "the objects"
"$tool" --json games | head -n 1 > got
echo '{"file": "games/corner.sgf", "place": 95, "game": 1, "nodes": 4, "verdict": "score", "black": 2, "white": 1, "ended": "open",' \
    '"turn": null, "fault": null, "reason": null}' > want
same want got

table() { asked games.db 'SELECT * FROM lines ORDER BY file, place' | tr '|' ,; }
for _ in 1 2 3; do
    "$tool" --sqlite games.db games
    table > got
    same cells got "the table in SQLite"
done
asked games.db "SELECT typeof(place), typeof(black), typeof(file), count(*) FROM lines WHERE black > white" > got
echo 'integer|integer|text|6' > want.types
same want.types got "what the cells are"

# A file that lost a line, one that is refused now, and one that isn't named.
printf '(;SZ[2];B[aa])' > games/over.sgf
printf '(' > games/ko.sgf
if "$tool" --sqlite games.db games/over.sgf games/ko.sgf 2> faults; then failed "a refused file isn't in the status"; fi
echo 'games/ko.sgf:1:2: input ends too early' > want
same want faults
grep -v -e ko.sgf cells | sed 's/over.sgf,11,.*/over.sgf,7,1,2,score,4,0,open,,,/' > want
table > got
same want got

# A run that is killed while it waits for its last file, a pipe, doesn't change the table.
mkdir more
for number in $(seq 50); do cp games/corner.sgf "more/$number.sgf"; done
mkfifo pipe
python3 - "$tool" --sqlite games.db more games pipe 2> faults <<'PYTHON' || failed "$(cat faults)"
import os
import subprocess
import sys
import time

tool = subprocess.Popen(sys.argv[1:])
while True:
    try:
        os.open("pipe", os.O_WRONLY | os.O_NONBLOCK)  # fails until the tool has opened the pipe
        break
    except OSError:
        if tool.poll() is not None:
            sys.exit("the tool ended before it read the pipe")
        time.sleep(0.01)
tool.kill()
sys.exit(tool.wait() != -9)
PYTHON
table > got
same want got "the table after a killed run"

# Another process has the database locked. The tool says that it waits, and goes on when the lock is gone.
python3 - "$tool" --sqlite games.db games/over.sgf <<'PYTHON' || failed "a locked database isn't waited for"
import sqlite3
import subprocess
import sys

# The first lock keeps the tool from its first row, and the second one from its commit.
for command in "BEGIN IMMEDIATE", "SELECT * FROM lines":
    base = sqlite3.connect("games.db", isolation_level=None)
    reading = base.execute(command)
    reading.fetchone()
    tool = subprocess.Popen(sys.argv[1:], stderr=subprocess.PIPE)
    said = tool.stderr.readline()
    del reading
    base.close()
    if tool.wait() or said != b"games.db: another process has it locked; waiting\n":
        sys.exit(f"{command}: status {tool.returncode}, {said}")
PYTHON
table > got
same want got "the table after the lock"

# A comma, a quote and a line feed in a name stay in its cell.
cp games/over.sgf $'a,"b"\nc.sgf'
"$tool" --csv $'a,"b"\nc.sgf' | tail -n +2 > got
printf '"a,""b""\nc.sgf",7,1,2,score,4,0,open,,,\n' > want
same want got

# A name that begins with `=` is written as it is. A spreadsheet may run it, so the help and the documents say so.
cp games/over.sgf '=1+1.sgf'
"$tool" --csv '=1+1.sgf' | tail -n +2 > got
printf '=1+1.sgf,7,1,2,score,4,0,open,,,\n' > want
same want got
"$tool" -h | tr '\n' ' ' | grep -q 'A spreadsheet may take .* that begins with `=` for a formula and run it' || failed "the help says nothing of spreadsheets"
grep -q '^A spreadsheet may take .* that begins with `=`.* for a formula, and run it' "$top/docs/RECIPES.md" || failed "RECIPES.md says nothing of spreadsheets"

# A table that has more columns, in another order, takes the rows. A table or view of others is refused, and stays as it is.
base() { python3 -c 'import sqlite3, sys; sqlite3.connect(sys.argv[1]).executescript(sys.argv[2])' "$@"; }
base own.db 'CREATE TABLE lines (note DEFAULT "none", place, file, reason, fault, turn, ended, white, black, verdict, nodes, game, PRIMARY KEY (place, file))'
"$tool" --sqlite own.db games/over.sgf games/illegal.sgf
asked own.db 'SELECT file, place, game, nodes, verdict, black, white, ended, turn, fault, reason, note FROM lines ORDER BY file DESC, place LIMIT 2' > got
printf 'games/over.sgf|7|1|2|score|4|0|open||||none\ngames/illegal.sgf|45|1|3|illegal||||1|45|mixed|none\n' > want
same want got
columns=file,place,game,nodes,verdict,black,white,ended,turn,fault,reason
for statement in "CREATE TABLE lines (a, b, c, d, e, f, g, h, i, j, k)" "CREATE TABLE lines (${columns/file/name}, PRIMARY KEY (place))" \
    "CREATE TABLE lines ($columns)" "CREATE TABLE lines ($columns, PRIMARY KEY (file))" \
    "CREATE TABLE x ($columns); CREATE VIEW lines AS SELECT * FROM x" 'CREATE TABLE lines (file, place, PRIMARY KEY (file, place))'; do
    rm -f other.db
    base other.db "$statement"
    asked other.db 'SELECT * FROM sqlite_master' > want
    status=0
    "$tool" --sqlite other.db games/over.sgf 2> faults || status=$?
    [ "$status" = 3 ] && [ "$(cat faults)" = 'verdicts.py: other.db: its table `lines` isn'"'"'t one of this tool' ] ||
        failed "$statement: status $status, $(cat faults)"
    asked other.db 'SELECT * FROM sqlite_master' > got
    same want got "$statement, afterwards"
    [ -z "$(asked other.db 'SELECT * FROM lines')" ] || failed "$statement: it has rows"
done
