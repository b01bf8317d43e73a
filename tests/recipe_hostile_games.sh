#!/usr/bin/env bash
# Games that are made to slow a tool down: comments full of brackets and backslashes, setups again and again on a large board, moves beside a
# large group, an illegal node that many lines share. Each tool takes less than a second of processor time and 100 MB for each of them. The
# shortest of three runs counts, since a busy machine makes some runs longer.
# And the boards of pictures, which the program answers for, are those on which the tools capture themselves.
. "$(dirname "$0")/lib.sh"
needs python3
cat > games.py <<'PYTHON'
BRACKETS = b"[" * 120000
GAMES = {
    "brackets": b"(;SZ[9]C[" + BRACKETS + b"\n];B[aa])",
    "brackets_in_lines": b"(;SZ[9]C[" + b"[\n" * 60000 + b"];B[aa])",
    "backslashes": b"(;SZ[9]C[" + b"\\]\\\\" * 30000 + b"\n" + b"\\" * 120000 + b"\n];B[aa])",
    "values": b"(;SZ[9]C" + b"[]" * 60000 + b";B[aa])",
    "setups": b"(;SZ[52]AB[aa:ZY]" + b";AE[ZZ]" * 14000 + b")",
    "rectangles": b"(;SZ[52]" + b";AB[aa:ZZ]" * 10000 + b")",
    "group": b"(;SZ[52]AB[aa:ZY][aZ:XZ]PL[W];W[ZZ])",
    "snake": b"(;SZ[19]" + b"".join(b"AB[a%c:s%c]" % (row, row) for row in b"acegikmoqs") + b";AE[aa]PL[B];B[aa]" * 50 + b")",
    "shared": b"(;SZ[9]B[aa]W[bb]C" + b"[]" * 20000 + b"(;)" * 300 + b")",
    "shut_in": b"(;SZ[52]AB[aa:ZZ]PL[W]" + b";AW[aa];AB[aa]" * 5000 + b")",
}
TOOLS = ["files.py out", "verdicts.py --csv", "illegal_lines.py", "openings.py 1", "openings.py --setup 1000", "parts.py", "picture.py --out out",
         "prose.py out", "library.py out", "go_on.py out/", "replay.py"]
ONLY = {"shared": ["illegal_lines.py", "openings.py 1", "verdicts.py --csv"]}  # the other tools write this node for each line
PYTHON
cat > limits.py <<'PYTHON'
import os
import resource
import shutil
import subprocess
import sys

from games import GAMES, ONLY, TOOLS

resource.setrlimit(resource.RLIMIT_CPU, (20, 20))
for name, text in GAMES.items():
    with open(name + ".sgf", "wb") as file:
        file.write(text)
    for tool in ONLY.get(name, TOOLS):
        if tool == "replay.py" and "gnugo" not in sys.argv[2:]:
            continue
        path, *words = tool.split()
        seconds = []
        while len(seconds) < 3 and (not seconds or seconds[-1] > 1):
            with open("said", "wb") as said:
                run = subprocess.Popen([os.path.join(sys.argv[1], path), *words, name + ".sgf"], stdout=subprocess.DEVNULL, stderr=said)
                _, status, used = os.wait4(run.pid, 0)
            seconds.append(used.ru_utime + used.ru_stime)
            shutil.rmtree("out", ignore_errors=True)
            if status or used.ru_maxrss > 100000 or os.path.getsize("said"):
                sys.exit(f"{tool} {name}: status {status}, {used.ru_maxrss} KB, {open('said').read()[:500]}")
        if min(seconds) > 1:
            sys.exit(f"{tool} {name}: {seconds} seconds")
print(len(GAMES), "games")
PYTHON
programs=
if can gnugo replay.py; then programs=gnugo; fi
python3 limits.py "$top/recipes" $programs > counted
echo '10 games' > want
same want counted

cat > boards.py <<'PYTHON'
import os
import random
import sys

sys.path.insert(0, sys.argv[1] + "/recipes")
import goboard
import sgfsplit

LETTERS = goboard.LETTERS


def game(side):
    """A game of random moves and setups, some of them illegal, with variations."""
    point = lambda: random.choice(LETTERS[:side]) + random.choice(LETTERS[:side])
    area = lambda: "{0}{2}:{1}{3}".format(*(letter for _ in "xy" for letter in sorted(random.choices(LETTERS[:side], k=2), key=LETTERS.index)))
    text, depth, colour = f"(;SZ[{side}]", 1, 0
    for _ in range(random.randrange(60)):
        chance = random.random()
        if chance < 0.1:
            text, depth = text + "(", depth + 1
        elif chance < 0.15 and depth > 1 and not text.endswith("("):
            text, depth = text + ")(;", depth
        elif chance < 0.25:
            text += f";{random.choice(['AB', 'AW', 'AE'])}[{random.choice([point, area])()}]{random.choice(['', f'AB[{point()}]AW[{area()}]'])}"
        elif chance < 0.27:
            text += ";B[]"
        text, colour = text + f";{'BW'[colour]}[{point()}]C[a \\] ;B[aa\\]]", 1 - colour
    return text + ")" * depth


random.seed(77)
lines = stones = 0
text = "".join(game(random.choice([1, 2, 3, 4, 5, 9, 19, 26, 52])) for _ in range(400)).encode()
for row, line in goboard.lines(sgfsplit.Text("games", text)):
    board = goboard.played(line.record, line.end)
    if board.stones != line.board.stones or row.verdict == "score" and board.area() != (row.black, row.white):
        sys.exit(f"the board of the line at {row.place} differs")
    if any(line.moves[number - 1][1] != point for point, number in line.numbers.items()):
        sys.exit(f"the numbers of the line at {row.place} are those of other moves")
    if (line.illegal is None) != (row.verdict == "score"):
        sys.exit(f"the illegal node of the line at {row.place}")
    lines, stones = lines + 1, stones + len(board.stones)
print(lines > 500 and stones > 10000 or (lines, stones))
PYTHON
python3 boards.py "$top" > got || failed "$(cat got)"
echo True > want
same want got
