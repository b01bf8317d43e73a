"""Runs the examples of documents as they stand. After each line `$ COMMAND` come the lines that the command writes. Commands of make, rt,
git and apt-get aren't run. In a manual page, whose name ends in .1, a command without such lines isn't run either. Nor is one with a WORD.

  tests/examples.py [--without=WORD].. DOCUMENT..
"""
import re
import subprocess
import sys

LEFT_OUT = re.compile(r"(sudo |make|rt |git |apt-get |\(cd )")
WITHOUT = [word.partition("=")[2] for word in sys.argv[1:] if word.startswith("--without=")]
ran = wrong = 0
for path in sys.argv[1 + len(WITHOUT):]:
    with open(path, encoding="utf-8") as file:
        lines = [line.rstrip("\n") for line in file]
    if path.endswith(".1"):
        lines = [line.replace("\\e", "\\").removeprefix(".Dl ") for line in lines if not line.startswith(".Ed")]
    number = 0
    while number < len(lines):
        begins = re.match(r"( *)\$ (.*)", lines[number])
        number += 1
        if not begins or LEFT_OUT.match(begins[2]) or any(word in begins[2] for word in WITHOUT):
            continue
        want = []
        while number < len(lines) and lines[number].strip() not in ("", "```", ".Pp") and not re.match(r" *(\$ |\.)", lines[number]):
            want.append(lines[number].removeprefix(begins[1]))
            number += 1
        if path.endswith(".1") and not want:
            continue
        run = subprocess.run(["bash", "-c", begins[2]], stdin=subprocess.DEVNULL, stdout=subprocess.PIPE, stderr=subprocess.STDOUT)
        got = run.stdout.decode("utf-8", "replace").rstrip("\n").split("\n")
        ran += 1
        if [line for line in got if line] != want:
            wrong += 1
            print(f"{path}: $ {begins[2]}\n  stands: {want}\n  comes:  {got}")
print(f"{ran} examples, {wrong} wrong")
sys.exit(wrong > 0 or ran == 0)
