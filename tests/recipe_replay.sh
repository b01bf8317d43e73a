#!/usr/bin/env bash
# GNU Go as a second referee. It agrees on every line of the examples, of a ko and of a suicide, and refuses the illegal moves. A program and
# engines that lie are found. A refused file is named, and the tool goes on with the others. Comments never reach the engine.
. "$(dirname "$0")/lib.sh"
needs gnugo python3
tool=$top/recipes/replay.py
{
    printf '(;SZ[9]C[%s];B[cc])' "$(head -c 3000 /dev/zero | tr '\0' 'x')"
    printf '(;SZ[4]AB[ba][ab][bc]AW[ca][db][cc][bb];B[cb];W[bb])'
    printf '(;SZ[3]AB[aa]AW[ab][bb][ca]PL[B];B[ba])'
    printf '(;SZ[1];B[];W[])(;SZ[52];B[zZ])'
} > more.sgf
"$tool" "$top/examples" more.sgf > got
echo '23 lines agree, 0 differ, 3 left out' > want
same want got
env PATH="${PATH//:\/usr\/games/}" "$tool" "$top/examples/ko.sgf" > got
echo '2 lines agree, 0 differ, 0 left out' > want
same want got "where /usr/games isn't in PATH, it"
printf '(;SZ[9]' > broken.sgf
if "$tool" broken.sgf "$top/examples/ko.sgf" > got 2> faults; then failed "a refused file isn't in the status"; fi
same want got
echo 'broken.sgf:1:8: input ends too early' > want
same want faults

# A script sets up black stones before white ones, each row by row. Here White takes A1. Black takes it back together with another stone, the
# last one of the setup. The move is legal, but the engine has seen the resulting position, because it plays a setup as moves. So the line
# is left out.
printf '(;SZ[3]AB[bb][cb][ac]AW[ab][cc]PL[W];W[bc];B[ac])' > setup.sgf
[ "$("$SGFSPLIT" split setup.sgf)" = '42 1 3 score 5 1 open' ] || failed "the row of the setup"
"$tool" setup.sgf > got
echo '0 lines agree, 0 differ, 1 left out' > want
same want got

# differs PROGRAM-OR-ENGINE ROW: the tool reports a difference, and this is its first row.
differs() {
    if "$tool" one.sgf > got 2> faults; then failed "$1 wasn't found"; fi
    head -n 1 got > first
    echo "$2" > want
    same want first "what is said of $1"
    [ "$(tail -n 1 got)" = '0 lines agree, 1 differ, 0 left out' ] || failed "$1: $(tail -n 1 got)"
}

# A program that lies about the score, about a reason, or about the stones.
cat > liar <<'LIAR'
#!/bin/sh
"$TRUE_SGFSPLIT" "$@" | sed "$LIE"
LIAR
chmod +x liar
export TRUE_SGFSPLIT=$SGFSPLIT LIE
printf '(;SZ[3];B[bb])' > one.sgf
(export SGFSPLIT=./liar; LIE='s/score 9 0/score 8 0/'
    differs 'a wrong score' 'one.sgf: 7 1 2 score 8 0 open: the area of its stones is (9, 0)')
(export SGFSPLIT=./liar; LIE='s/^play B B2/play B A1/'
    differs 'a wrong script' "one.sgf: 7 1 2 score 9 0 open: other stones stand on the engine's board, at A1 B2")
printf '(;SZ[3];B[bb];W[aa])' > one.sgf
(export SGFSPLIT=./liar; LIE='s/score 1 1 open/illegal 2 13 occupied/; /^play W/d'
    differs 'a wrong reason' 'one.sgf: 13 1 3 illegal 2 13 occupied: the engine accepts play W A3: occupied')
(export SGFSPLIT=./liar; LIE='s/score 1 1 open/illegal 2 13 repeat/; /^play W/d'
    differs 'a wrong repeat' 'one.sgf: 13 1 3 illegal 2 13 repeat: the engine accepts play W A3: repeat')

# An engine with other rules, which forbid suicide; one that forgets a stone; a program that isn't an engine.
printf '(;SZ[3]AB[aa]AW[ab][bb][ca]PL[B];B[ba])' > one.sgf
(export ENGINE='gnugo --mode gtp'
    differs 'an engine without suicide' 'one.sgf: 32 1 2 score 0 9 open: the engine refuses play B B3: illegal move')
printf '(;SZ[3];B[bb])' > one.sgf
cat > engine <<'ENGINE'
#!/bin/sh
gnugo --mode gtp | sed -u 's/^= B2$/= /'
ENGINE
chmod +x engine
(export ENGINE=./engine; differs 'a forgetful engine' "one.sgf: 7 1 2 score 9 0 open: other stones stand on the engine's board, at B2")
for engine in cat true 'no-such-engine --gtp' "'"; do
    if ENGINE=$engine timeout 60 "$tool" one.sgf > got 2> faults; then failed "$engine was taken for an engine"; fi
    [ "$(wc -l < faults)" = 1 ] && ! grep -q Traceback faults || failed "$engine: $(cat faults)"
done
# Engines that answer with odd points, without an end, and with a row without an end.
for answer in B99B Q ß 5 pass; do
    cat > engine <<ENGINE
#!/bin/sh
gnugo --mode gtp | sed -u 's/^= B2\$/= $answer/'
ENGINE
    status=0
    ENGINE=./engine "$tool" one.sgf > got 2> faults || status=$?
    [ "$status" = 3 ] && grep -q "^replay.py: the engine lists stones at points that" faults ||
        failed "$answer: status $status, $(cat faults)"
done
for engine in 'cat /dev/zero' 'yes ='; do
    status=0
    (ulimit -v 4000000; ENGINE=$engine timeout 60 "$tool" one.sgf > got 2> faults) || status=$?
    [ "$status" = 3 ] && [ "$(wc -l < faults)" = 1 ] || failed "$engine: status $status, $(tail -n 1 faults)"
done
# An engine without list_stones judges only moves.
cat > engine <<'ENGINE'
#!/bin/sh
sed -u 's/list_stones/no_such_command/' | gnugo --mode gtp --allow-suicide --positional-superko
ENGINE
ENGINE=./engine "$tool" "$top/examples/ko.sgf" > got
echo '2 lines agree, 0 differ, 0 left out' > want
same want got

# An attack by a comment whose end GNU Go takes for a row of its own (docs/OUTPUT.md says when). In a script a comment comes after `# `.
attack() { printf '(;SZ[9]C[%s%s];B[cc])' "$(head -c 997 /dev/zero | tr '\0' x)" "printsgf $1" > attack.sgf; }
attack "$work/plain.sgf"
"$SGFSPLIT" split --form gtp attack.sgf | gnugo --mode gtp > /dev/null
[ -e plain.sgf ] || failed "the attack does nothing without the filter, so it shows nothing"
attack "$work/filtered.sgf"
"$SGFSPLIT" split --form gtp attack.sgf | grep -v '^#' | gnugo --mode gtp > replies
[ ! -e filtered.sgf ] || failed "a comment was run through the filter"
[ "$(grep -c '^=' replies)" = 3 ] && ! grep -q '^?' replies || failed "through the filter come other commands: $(cat replies)"
attack "$work/replayed.sgf"
"$tool" attack.sgf > got
echo '1 lines agree, 0 differ, 0 left out' > want
same want got
[ ! -e replayed.sgf ] || failed "a comment was run by the replay tool"
for text in '\nprintsgf replayed.sgf\n' '\rprintsgf replayed.sgf\r' '\n\nplay W A1\n' 'x\\\nprintsgf replayed.sgf'; do
    printf "(;SZ[9]C[$text];B[cc]C[$text])" > attack.sgf
    "$tool" attack.sgf > got
    same want got "a comment of other rows"
    [ ! -e replayed.sgf ] || failed "a comment was run by the replay tool"
done
