#!/usr/bin/env bash
# Runs the built program on inputs that are made to hurt: cut, deep, wide, or with one huge part. Each has its expected answer, and no run takes
# a minute. bench/hostile.py measures such inputs up to the limit. The last line is `N passed, N failed, N skipped`.
. "$(dirname "$0")/lib.sh"
set +e
passed=0 failed=0 skipped=0

check() {
    if [ "$2" = "$3" ]; then
        passed=$((passed + 1))
    else
        failed=$((failed + 1))
        printf 'FAILED: %s\n  wanted: %s\n  got:    %s\n' "$1" "$2" "$3"
    fi
}

# answer NAME TEXT WORDS..: on input.sgf the run ends with status 0, writes this text and a line feed, and nothing to standard error.
answer() {
    local name=$1 text=$2
    shift 2
    timeout 60 "$SGFSPLIT" "$@" < input.sgf > out 2> err
    check "$name: status" 0 $?
    check "$name: output" "$text" "$(cat out)"
    check "$name: fault row" '' "$(cat err)"
}

# fault NAME LINE WORDS..: on standard input the run ends with status 1 and this line, and writes nothing.
fault() {
    local name=$1 line=$2
    shift 2
    timeout 60 "$SGFSPLIT" "$@" > out 2> err
    check "$name: status" 1 $?
    check "$name: output" '' "$(cat out)"
    check "$name: fault row" "sgfsplit: $line" "$(cat err)"
}

# times COUNT TEXT
times() { yes "$2" | head -n "$1" | tr -d '\n'; }

# ---- cut after each byte
two='(;SZ[3](;B[aa])(;B[bb];W[aa]))'
for length in $(seq 0 29); do
    printf '%s' "${two:0:length}" > input.sgf
    fault "cut at $length" "byte $length: input ends too early" split < input.sgf
    fault "counted, cut at $length" "byte $length: input ends too early" count < input.sgf
done
fault 'spaces without end' 'input is longer than 67108864 bytes' split < <(tr '\0' ' ' < /dev/zero)
fault 'parentheses without end' 'input is longer than 67108864 bytes' count < <(yes '(;' | tr -d '\n')

# ---- deep: games inside one another, and a variation at each node of a long line
{ times 100000 '(;'; times 100000 ')'; } > input.sgf
answer 'deep' '199999 1 100000 score 0 0 open' split
answer 'deep, after its line' '' split --after 199999
fault 'deep, after its root' 'no line ends at 1' split --after 1 < input.sgf
answer 'deep, counted' '1 100000 1' count
ulimit -S -s 256
answer 'deep, on a stack of 256 KiB' '199999 1 100000 score 0 0 open' split
ulimit -S -s 8192
answer 'deep, as a game' "(\
$(times 100000 ';'))" split --form sgf
{ times 100000 '(;(;)'; times 100000 ')'; } > input.sgf
answer 'a variation at each node, the last line' '499998 1 100001 score 0 0 open' split --after 499993
answer 'a variation at each node, counted' '1 200000 100000' count
{ times 200000 '(;(;)'; times 200000 ')'; } > input.sgf
for form in list gtp; do
    timeout 60 "$SGFSPLIT" split --form "$form" input.sgf > out 2> err
    check "a variation at each node, $form: status" 0 $?
    check "a variation at each node, $form: the last row" '999998 1 200001 score 0 0 open' "$(grep '^[#0-9]' out | tail -n 1 | sed 's/^# //')"
    check "a variation at each node, $form: rows" 200000 "$(grep -c '^[#0-9]' out)"
done

# ---- wide: variations of one node, and games
{ printf '(;'; times 100000 '(;)'; printf ')'; } > input.sgf
answer 'wide, the last line' '300000 1 2 score 0 0 open' split --after 299997
answer 'wide, counted' '1 100001 100000' count
games=1200000
times "$games" '(;)' > input.sgf
answer 'games, the last one' "$((3 * games - 2)) $games 1 score 0 0 open" split --after "$((3 * games - 5))"
answer 'games, counted' "$games $games $games" count
timeout 60 "$SGFSPLIT" split input.sgf > out 2> err
check 'games: status' 0 $?
check 'games: each has its row' '' "$(seq "$games" | awk '{ print 3 * $1 - 2, $1, 1, "score 0 0 open" }' | cmp - out 2>&1)"

# ---- one huge part
{ printf '(;C['; head -c 67108858 /dev/zero | tr '\0' x; printf '])'; } > input.sgf
answer 'a huge value' '1 1 1 score 0 0 open' split
timeout 60 "$SGFSPLIT" split --form sgf input.sgf > out 2> err
check 'a huge value as a game: status' 0 $?
check 'a huge value as a game' '' "$( { cat input.sgf; echo; } | cmp - out 2>&1)"
{ printf '(;SZ[19]AB'; times 1000000 '[aa]'; printf ')'; } > input.sgf
answer 'a million values' '1 1 1 score 361 0 open' split
{ printf '(;SZ[19]'; times 1000000 'C[]'; printf ')'; } > input.sgf
answer 'a million properties' '1 1 1 score 0 0 open' split
{ printf '(;G'; head -c 4000000 /dev/zero | tr '\0' a; printf 'M[1])'; } > input.sgf
answer 'a huge name' '1 1 1 score 0 0 open' split
answer 'a huge name as a game' '(;GM[1])' split --form sgf
{ printf '(;'; times 500000 'Aa'; printf '[1])'; } > input.sgf
answer 'a name whose every second letter is in lower case' "(;$(times 500000 A)[1])" split --form sgf
# As many segments as there can be: half as many as a text of the greatest length has bytes. List form keeps them too.
{ printf '(;'; times 33554429 'Aa'; printf '[1])'; } > input.sgf
check 'such a name in the longest text' 67108864 "$(stat -c %s input.sgf)"
answer 'such a name in the longest text' '1 1 1 score 0 0 open' split
{ printf '(;A'; times 500000 '[] '; printf ')'; } > input.sgf
answer 'white space between values' "(;A$(times 500000 '[]'))" split --form sgf
# No room is taken at first for as many sequences as the longest text can have.
{ printf '(;C['; head -c 67108857 /dev/zero | tr '\0' x; printf '])'; } > input.sgf
(ulimit -v 131072 && exec timeout 60 "$SGFSPLIT" split input.sgf) > out 2> err
check 'the longest value, in 128 MiB: status' 0 $?
check 'the longest value, in 128 MiB' '1 1 1 score 0 0 open' "$(cat out)"
times 16384 "$(printf %063d 7)n" | tr n '\n' > comment
{ printf '(;SZ[3]C['; cat comment; printf ']AB[aa];W[bb])'; } > input.sgf
timeout 60 "$SGFSPLIT" split --form gtp input.sgf > out 2> err
check 'a comment of a megabyte, as a script: status' 0 $?
{
    echo "# $((9 + 16384 * 64 + 7)) 1 2 score 1 1 open"
    printf 'boardsize 3\nclear_board\n'
    sed 's/^/# /' comment
    printf '# \nclear_board\nplay B A3\nplay W B2\n\n'
} > want
check 'a comment of a megabyte, as a script' '' "$(cmp want out 2>&1)"

# ---- long lines: passes and setups that never end a game, and moves after one that isn't allowed
{ printf '(;SZ[9]'; times 100000 ';B[];W[];AE[aa]'; printf ')'; } > input.sgf
answer 'passes and setups' '1500000 1 300001 score 0 0 open' split
{ printf '(;SZ[52]'; times 40000 ';AB[aa:ZZ];AE[aa:ZZ]'; printf ')'; } > input.sgf
(ulimit -v 131072 && exec timeout 60 "$SGFSPLIT" split input.sgf) > out 2> err
check 'whole boards set up in turn, in 128 MiB: status' 0 $?
check 'whole boards set up in turn, in 128 MiB' '799998 1 80001 score 0 0 open' "$(cat out)"
# 70,304 stones in one stretch. 26 times Black plays on all points of side 52 but one, while White passes. Then White plays on that point and
# takes them all. No colouring comes twice. White's stone is on another point each time. The last but one of Black's stones takes it. Then Black
# has all points but two, later all but one, and these points differ each time.
awk '
    function add(x, y) { moves[++count] = substr(letters, x + 1, 1) substr(letters, y + 1, 1) }
    BEGIN {
        letters = "abcdefghijklmnopqrstuvwxyzABCDEFGHIJKLMNOPQRSTUVWXYZ"
        printf "(;SZ[52]"
        for (free = 0; free < 52; free += 2) {
            count = 0
            for (y = 51; y >= 0; y--) for (x = 51; x >= 0; x--) if (y > 0 || x > free || x < free - 2) add(x, y)
            if (free > 0) { add(free - 1, 0); add(free - 2, 0) }
            for (i = 1; i < count; i++) printf ";B[%s];W[]", moves[i]
            printf ";B[%s];W[%sa]", moves[count], substr(letters, free + 1, 1)
        }
        printf ")"
    }' > input.sgf
check 'stones in one stretch' 70304 "$(grep -o '\[[a-zA-Z][a-zA-Z]\]' input.sgf | wc -l)"
answer 'stones in one stretch' "$(($(stat -c %s input.sgf) - 7)) 1 140557 score 0 2704 open" split
{ printf '(;SZ[1];B[aa]'; times 300000 ';B[aa]'; printf ')'; } > input.sgf
answer 'moves after an illegal one' '1800007 1 300002 illegal 1 7 repeat' split

# ---- the past, and labyrinths: inputs of bench/hostile.py in small. A separate referee judges them.
# small KIND BYTES END [LAST]: the rows of the input of this kind, with END before its last parenthesis. The last row ends with the word LAST
# (`repeat`: its last stone repeats a colouring).
small() {
    python3 -B - "$1" "$2" "$3" "$top/bench" > input.sgf <<'PROGRAM'
import sys
sys.path.insert(0, sys.argv[4])
import hostile
sys.stdout.write(hostile.INPUTS[sys.argv[1]][1](int(sys.argv[2]))[:-1] + sys.argv[3] + ")")
PROGRAM
    python3 -B "$top/tests/verdicts.py" < input.sgf > want
    check "$1: the last row" "${4:-repeat}" "$(tail -n 1 want | cut -d ' ' -f 7)"
    answer "$1" "$(cat want)" split
}

# scored KIND SCORES: each variation of the smallest input of this kind ends with these scores.
scored() {
    python3 -B - "$1" "$top/bench" > input.sgf <<'PROGRAM'
import sys
sys.path.insert(0, sys.argv[2])
import hostile
sys.stdout.write(hostile.INPUTS[sys.argv[1]][1](0))
PROGRAM
    answer "$1" "$(grep -ob '(;[^()]*)' input.sgf | sed -E "s/:.*/ + 1/; s/.*/echo \$((&)) 1 2 score $2 open/" | sh)" split
}

if command -v python3 > /dev/null; then
    small costly 0 '(;B[bf];W[];B[cf])'
    small walks 0 '(;W[eZ];B[];W[dZ])'
    small shifts 0 '(;B[aU];W[];B[bU])'
    # The stones of the last set come back, one after another. So the last one makes a colouring whose print 192 others have.
    small shifts 0 "($(python3 -B - "$top/bench" <<'PROGRAM'
import sys
sys.path.insert(0, sys.argv[1])
from hostile import point, shifted
print(";W[]".join(f";B[{point(3 * col + which, 2 * row)}]" for (col, row), which in sorted(shifted(11, 15).items())), end="")
PROGRAM
    ))"
    small low 12000 ';B[nb]'
    small restarts 1000 ';AE[aa:ZZ]AW[ab][ba];B[aa]'
    for kind in eye19 eye19s eye52 eye52s; do
        small "$kind" 0 '(;AE[aa];B[cc])'
    done
    # A score is kept while the board stays: not over a stone, a setup, or the way back from them.
    small maze19 0 '(;B[])(;B[ba](;)(;W[]))(;)(;AW[ba];PL[B])(;)' open
    small maze19s 0 '(;B[ab])(;)' open
    small turns 0 '(;B[ab];W[])(;)' open
    # Each of these variations asks whether it repeats a colouring.
    small shafts 0 '(;W[aZ];B[];W[cZ])' open
    small asked 0 '(;W[yZ];B[];W[ab])' open
    small same 0 '' open
    small blinks 0 '' open
    # White has the walls, and Black her stones. Both reach the corridor. In `siege` Black's own group is left without a liberty.
    scored maze52 '1 1327'
    scored maze52s '1 1327'
    scored paces '2 1327'
    scored siege '0 2704'
else
    skipped=21
fi

echo "$passed passed, $failed failed, $skipped skipped"
[ "$failed" = 0 ]
