#!/usr/bin/env bash
# Runs the built program as users do, and compares every byte that it writes. First come rows, games, scripts and counts of small texts, each with
# its answer worked out by hand. Then come files, pipes, full devices, closed streams, endless inputs and wrong words.
# The last line is `N passed, N failed, N skipped`. A run that lost output may never end with status 0.
. "$(dirname "$0")/lib.sh"
set +e
passed=0 failed=0 not_run=0

# run WANTED-STATUS NAME COMMAND..: runs it with its streams in the files out and err, and compares the status.
run() {
    local wanted=$1 name=$2
    shift 2
    rm -f out err
    timeout 60 "$@" > out 2> err
    local status=$?
    verdict "$name: status" "$wanted" "$status"
}

# verdict NAME WANTED GOT
verdict() {
    if [ "$2" = "$3" ]; then
        passed=$((passed + 1))
    else
        failed=$((failed + 1))
        printf 'FAILED: %s\n  wanted: %s\n  got:    %s\n' "$1" "$2" "$3"
    fi
}

# writes NAME TEXT: the last run wrote exactly this text to standard output; says NAME TEXT: to standard error.
writes() { verdict "$1: output" "$2." "$(cat out; printf .)"; }
says() { verdict "$1: fault row" "$2." "$(cat err; printf .)"; }

# fault NAME STATUS LINE COMMAND..: the run ends with this status and line, and nothing on standard output.
fault() {
    local name=$1 wanted=$2 line=$3
    shift 3
    run "$wanted" "$name" "$@"
    writes "$name" ''
    says "$name" "sgfsplit: $line"$'\n'
}

# answer NAME TEXT COMMAND..: the run ends with status 0, writes this text, and nothing to standard error.
answer() {
    local name=$1 text=$2
    shift 2
    run 0 "$name" "$@"
    writes "$name" "$text"
    says "$name" ''
}

fed() { "$SGFSPLIT" "${@:2}" < "$1"; }
export -f fed

two='(;SZ[3](;B[aa])(;B[bb];W[aa]))'
rows=$'8 1 2 score 9 0 open\n22 1 3 score 1 1 open\n'
printf '%s' "$two" > two.sgf
printf '(;SZ[3])x' > tail.sgf
printf '(;SZ[3]' > early.sgf
: > empty.sgf
mkdir folder

# ---- where the input comes from
answer 'a file' "$rows" "$SGFSPLIT" split two.sgf
answer 'standard input' "$rows" bash -c 'fed two.sgf split'
answer 'a hyphen for standard input' "$rows" bash -c 'fed two.sgf split -'
answer 'a pipe that writes in parts' "$rows" bash -c '(head -c 10 two.sgf; sleep 0.2; tail -c +11 two.sgf) | "$SGFSPLIT" split'
answer 'a file of a name with a space' "$rows" bash -c 'cp two.sgf "a b.sgf"; "$SGFSPLIT" split "a b.sgf"'
answer 'a file of a name with white space at both ends' "$rows" bash -c 'cp two.sgf " two.sgf "; printf x > "two.sgf "; "$SGFSPLIT" split " two.sgf "'
fault 'a file of a name with white space at one end more' 3 'open failed' "$SGFSPLIT" split '  two.sgf '
fault 'a line feed after a name' 3 'open failed' "$SGFSPLIT" split $'two.sgf\n'
answer 'a file of a name in other alphabets' "$rows" bash -c 'cp two.sgf "碁 Ёж é.sgf"; "$SGFSPLIT" split "碁 Ёж é.sgf"'
fault 'a file of a name in other letters' 3 'open failed' "$SGFSPLIT" split '碁 ёж é.sgf'
answer 'counts of a file of a name in another alphabet' $'1 4 2\n' bash -c 'cp two.sgf 棋.sgf; "$SGFSPLIT" count 棋.sgf'
latin=$'caf\xe9.sgf'
cp two.sgf "$latin"
fault 'a file of a name that is not UTF-8' 2 "a word isn't UTF-8" "$SGFSPLIT" split "$latin"
fault 'another word that is not UTF-8' 2 "a word isn't UTF-8" "$SGFSPLIT" $'\xff'
answer 'that file as standard input' "$rows" bash -c 'fed "$0" split' "$latin"
answer 'a file after two hyphens' "$rows" bash -c 'cp two.sgf ./-x; "$SGFSPLIT" split -- -x'
answer 'a file and standard input' "$rows" bash -c 'fed empty.sgf split two.sgf'
fault 'a missing file' 3 'open failed' "$SGFSPLIT" split none.sgf
fault 'a missing file to count' 3 'open failed' "$SGFSPLIT" count none.sgf
fault 'an empty name' 3 'open failed' "$SGFSPLIT" split ''
run 3 'a directory' "$SGFSPLIT" split folder
writes 'a directory' ''
verdict 'a directory: fault row' 1 "$(grep -cxE 'sgfsplit: (open|read) failed' err)"
fault 'a closed standard input' 3 'read failed' bash -c '"$SGFSPLIT" split <&-'
if [ "$(id -u)" = 0 ]; then
    not_run=$((not_run + 1))
    echo 'skipped: a file without permission to read, as root may read all'
else
    touch locked.sgf
    chmod 000 locked.sgf
    fault 'a file without permission to read' 3 'open failed' "$SGFSPLIT" split locked.sgf
fi

# ---- forms and pages
answer 'form list' "$rows" "$SGFSPLIT" split --form list two.sgf
answer 'form sgf' $'(;SZ[3];B[aa])\n(;SZ[3];B[bb];W[aa])\n' "$SGFSPLIT" split --form sgf two.sgf
answer 'form gtp' $'# 8 1 2 score 9 0 open\nboardsize 3\nclear_board\nplay B A3\n\n' "$SGFSPLIT" split --form gtp --limit 1 two.sgf
answer 'after the first line' $'22 1 3 score 1 1 open\n' "$SGFSPLIT" split --after 8 two.sgf
answer 'after the last line' '' "$SGFSPLIT" split --after 22 two.sgf
answer 'no line' '' "$SGFSPLIT" split --limit 0 two.sgf
answer 'one line' $'8 1 2 score 9 0 open\n' "$SGFSPLIT" split --limit 1 two.sgf
answer 'one line after the first' $'22 1 3 score 1 1 open\n' "$SGFSPLIT" split --after 8 --limit 1 two.sgf
answer 'one line after the last' '' "$SGFSPLIT" split --after 22 --limit 1 two.sgf
answer 'all options' $'(;SZ[3];B[bb];W[aa])\n' "$SGFSPLIT" split --form sgf --after 8 --limit 1 two.sgf
answer 'options in another order, with =' $'(;SZ[3];B[bb];W[aa])\n' "$SGFSPLIT" split two.sgf --limit=1 --after=8 --form=sgf
answer 'options with = after the file' $'(;SZ[3];B[aa])\n(;SZ[3];B[bb];W[aa])\n' "$SGFSPLIT" split two.sgf --limit=18446744073709551615 --form=sgf
answer 'the limit before the place' $'(;SZ[3];B[bb];W[aa])\n' "$SGFSPLIT" split --limit 1 --after 8 --form sgf two.sgf
answer 'the place before the form' $'(;SZ[3];B[bb];W[aa])\n' "$SGFSPLIT" split --after 8 --form sgf --limit 1 two.sgf
answer 'the file between options' $'(;SZ[3];B[bb];W[aa])\n' "$SGFSPLIT" split --form sgf two.sgf --after 8
answer 'the file before options' $'22 1 3 score 1 1 open\n' "$SGFSPLIT" split two.sgf --after 8 --limit 1
answer 'a place with a plus sign' $'22 1 3 score 1 1 open\n' "$SGFSPLIT" split --after +8 two.sgf
answer 'a limit with a plus sign' $'8 1 2 score 9 0 open\n' "$SGFSPLIT" split --limit=+1 two.sgf
answer 'a place with zeros in front' $'22 1 3 score 1 1 open\n' "$SGFSPLIT" split --after 0000000000000000000000000000008 two.sgf
answer 'the greatest limit' "$rows" "$SGFSPLIT" split --limit 18446744073709551615 two.sgf
answer 'counts' $'1 4 2\n' "$SGFSPLIT" count two.sgf
answer 'counts of standard input' $'1 4 2\n' bash -c 'fed two.sgf count -'
fault 'after an inner node' 1 'no line ends at 16' "$SGFSPLIT" split --after 16 two.sgf
fault 'after an inner node, with a limit' 1 'no line ends at 16' "$SGFSPLIT" split --after 16 --limit 0 two.sgf
fault 'after a place before the first node, in a file of a name with a space' 1 'no line ends at 0' \
    "$SGFSPLIT" split --form gtp --after 0 --limit 7 'a b.sgf'
fault 'after the greatest place' 1 'no line ends at 18446744073709551615' "$SGFSPLIT" split --after 18446744073709551615 two.sgf

# ---- inputs that are refused
fault 'bytes after the collection' 1 'byte 8: not SGF' "$SGFSPLIT" split tail.sgf
fault 'an input that ends too early' 1 'byte 7: input ends too early' "$SGFSPLIT" split early.sgf
fault 'an empty input' 1 'byte 0: input ends too early' "$SGFSPLIT" split empty.sgf
fault 'an empty input to count' 1 'byte 0: input ends too early' "$SGFSPLIT" count empty.sgf
fault 'bytes after the collection, to count' 1 'byte 8: not SGF' "$SGFSPLIT" count tail.sgf
(printf '(;)'; head -c 67108861 /dev/zero | tr '\0' ' ') > full.sgf
answer 'the greatest input' $'1 1 1 score 0 0 open\n' "$SGFSPLIT" split full.sgf
printf ' ' >> full.sgf
fault 'one byte more' 1 'input is longer than 67108864 bytes' "$SGFSPLIT" split full.sgf
rm full.sgf
fault 'zeros without end' 1 'input is longer than 67108864 bytes' bash -c 'fed /dev/zero split'
fault 'zeros without end to count' 1 'input is longer than 67108864 bytes' "$SGFSPLIT" count /dev/zero
fault 'games without end' 1 'input is longer than 67108864 bytes' bash -c "yes '(;B[aa])' | \"\$SGFSPLIT\" split"

# ---- the answer to a text on standard input
# gives TEXT OUTPUT WORDS..: the program writes this output for this text and these words.
gives() {
    local text=$1 output=$2
    shift 2
    printf '%s' "$text" > input.sgf
    answer "$* on $text" "$output" "$SGFSPLIT" "$@" < input.sgf
}

# tells TEXT LINE WORDS..: the program refuses this text with these words, and this line says why.
tells() {
    local text=$1 line=$2
    shift 2
    printf '%s' "$text" > input.sgf
    fault "$* on $text" 1 "$line" "$SGFSPLIT" "$@" < input.sgf
}

# judged games: the points of both players, and whether two passes ended the game
gives '(;SZ[3];B[bb])' $'7 1 2 score 9 0 open\n' split
gives ' ( ; SZ [3] ; B [bb] ) ' $'12 1 2 score 9 0 open\n' split
gives $'\xef\xbb\xbf(;)' $'4 1 1 score 0 0 open\n' split
gives $'(;C[]\x0b[a]\x0c\r\n;)\t' $'12 1 2 score 0 0 open\n' split
gives $'(;)\n(;(;)(;;))(;)' $'1 1 1 score 0 0 open\n7 2 2 score 0 0 open\n11 2 3 score 0 0 open\n15 3 1 score 0 0 open\n' split
gives '(;SZ[007];B[gg])' $'9 1 2 score 49 0 open\n' split
gives '(;SZ[+7];B[gg])' $'8 1 2 score 49 0 open\n' split
gives '(;SZ[1])(;SZ[2])' $'1 1 1 score 0 0 open\n9 2 1 score 0 0 open\n' split
gives '(;SZ[1])(;SZ[2])' $'9 2 1 score 0 0 open\n' split --after 1
gives '(;SZ[3]AB[aa:ca])' $'1 1 1 score 9 0 open\n' split
gives '(;SZ[3]AB[aa]AW[ab][bb][ca]PL[B];B[ba])' $'32 1 2 score 0 9 open\n' split
gives '(;SZ[3]AB[aa]AW[ba][ab]AE[cc];B[cc])' $'29 1 2 score 1 3 open\n' split
gives '(;SZ[3]PL[W];W[aa])' $'12 1 2 score 0 9 open\n' split
gives '(;SZ[3];C[x]SZ[2])' $'7 1 2 score 0 0 open\n' split
gives '(;SZ[9];B[];W[])' $'11 1 3 score 0 0 over\n' split
gives '(;SZ[3];B[];W[];AE[aa];W[bb])' $'22 1 5 score 0 9 open\n' split
passes='(;SZ[3];B[](;W[])(;W[bb])(;AE[aa];W[]))'
gives "$passes" $'12 1 3 score 0 0 over\n18 1 3 score 0 9 open\n33 1 4 score 0 0 open\n' split

# boards of up to 52 points a side: columns and rows have capital letters from 27 on, and `tt` is a point from side 20 on
gives '(;SZ[19];B[tt])' $'8 1 2 score 0 0 open\n' split
gives '(;SZ[20];B[tt])' $'8 1 2 score 400 0 open\n' split
gives '(;SZ[26])' $'1 1 1 score 0 0 open\n' split
gives '(;SZ[27];B[zA])' $'8 1 2 score 729 0 open\n' split
gives '(;SZ[52];B[ZZ])' $'8 1 2 score 2704 0 open\n' split
gives '(;SZ[52];B[tt])' $'8 1 2 score 2704 0 open\n' split

# games that aren't judged
gives '(;GM[2]SZ[26])' $'1 1 1 unjudged game\n' split
gives '(;GM[x])' $'1 1 1 unjudged game\n' split
gives '(;GM[2](;)(;))' $'8 1 2 unjudged game\n11 1 2 unjudged game\n' split
gives '(;SZ[19:19])' $'1 1 1 unjudged size\n' split
gives '(;SZ[53])' $'1 1 1 unjudged size\n' split
gives '(;SZ[-0])' $'1 1 1 unjudged size\n' split
gives '(;SZ[7 ])' $'1 1 1 unjudged size\n' split

# lines with an illegal node: each reason, in the order of checking
gives '(;SZ[9]AB[aa];B[bb]PL[W])' $'13 1 2 illegal 1 13 mixed\n' split
gives '(;B[aa]W[bb])' $'1 1 1 illegal 1 1 two-moves\n' split
gives '(;SZ[9]AB[jj])' $'1 1 1 illegal 1 1 bad-setup\n' split
gives '(;SZ[3]AB[ca:aa])' $'1 1 1 illegal 1 1 bad-setup\n' split
gives '(;SZ[3];B[aa];PL[b])' $'13 1 3 illegal 2 13 bad-setup\n' split
gives '(;SZ[9];B[jj])' $'7 1 2 illegal 1 7 bad-point\n' split
gives '(;SZ[26];B[zA])' $'8 1 2 illegal 1 8 bad-point\n' split
gives '(;SZ[9];B[];W[];B[aa])' $'15 1 4 illegal 3 15 over\n' split
gives '(;SZ[3];B[];W[];PL[W];W[aa])' $'21 1 5 illegal 3 21 over\n' split
gives '(;SZ[9];W[aa])' $'7 1 2 illegal 1 7 turn\n' split
gives '(;SZ[9];B[aa];W[aa])' $'13 1 3 illegal 2 13 occupied\n' split
gives '(;SZ[1];B[aa])' $'7 1 2 illegal 1 7 repeat\n' split
gives '(;SZ[1];B[aa](;W[])(;C[x]))' $'14 1 3 illegal 1 7 repeat\n20 1 3 illegal 1 7 repeat\n' split
gives '(;SZ[4]AB[ba][ab][bc]AW[ca][db][cc][bb];B[cb];W[bb])' $'45 1 3 illegal 2 45 repeat\n' split
gives '(;SZ[2];B[aa];W[bb];B[ba];W[ab];B[aa];W[ba];B[aa])' $'43 1 8 illegal 7 43 repeat\n' split

# lines as games
gives '(;)' $'(;)\n' split --form sgf
gives '(;SZ[1])(;SZ[2])' $'(;SZ[1])\n(;SZ[2])\n' split --form sgf
gives '(;GaMe[1]C[a\]b] ;B[aa])' $'(;GM[1]C[a\\]b];B[aa])\n' split --form sgf
gives $'(; AB [aa]\n[bb] C[x\\]y] ;PL[B])' $'(;AB[aa][bb]C[x\\]y];PL[B])\n' split --form sgf
gives $'(;C[a\\]b\\\\] [] [c:d ; ( e\n])' $'(;C[a\\]b\\\\][][c:d ; ( e\n])\n' split --form sgf
gives "$passes" $'(;SZ[3];B[];W[])\n(;SZ[3];B[];W[bb])\n(;SZ[3];B[];AE[aa];W[])\n' split --form sgf

# scripts: the row, the board, the comments, the stones of each setup and the moves, up to the first illegal node
gives '(;SZ[3];B[bb])' $'# 7 1 2 score 9 0 open\nboardsize 3\nclear_board\nplay B B2\n\n' split --form gtp
gives $'(;SZ[5]AB[ab][ba]AW[cc]C[one\ntwo];W[];B[ee])' $'# 37 1 3 score 4 1 open
boardsize 5\nclear_board\n# one\n# two\nclear_board
play B B5\nplay B A4\nplay W C3\nplay W pass\nplay B E1\n\n' split --form gtp
gives '(;SZ[1];B[aa])' $'# 7 1 2 illegal 1 7 repeat\nboardsize 1\nclear_board\n\n' split --form gtp
gives '(;SZ[3]AB[aa]AW[ba][ab]AE[cc];B[cc])' $'# 29 1 2 score 1 3 open\n\n' split --form gtp
gives '(;SZ[3]C[x];B[aa]C[y];W[aa]C[z])' $'# 21 1 3 illegal 2 21 occupied
boardsize 3\nclear_board\n# x\n# y\nplay B A3\n\n' split --form gtp
gives $'(;SZ[1]C[a\n\nb])' $'# 1 1 1 score 0 0 open\nboardsize 1\nclear_board\n# a\n# \n# b\n\n' split --form gtp
gives '(;SZ[3];B[];W[];AE[aa];W[bb])' $'# 22 1 5 score 0 9 open
boardsize 3\nclear_board\nplay B pass\nplay W pass\nclear_board\nplay W B2\n\n' split --form gtp
gives '(;SZ[1])(;SZ[2])' $'# 1 1 1 score 0 0 open\nboardsize 1\nclear_board\n
# 9 2 1 score 0 0 open\nboardsize 2\nclear_board\n\n' split --form gtp
gives '(;SZ[26]C[x];B[aa])' $'# 12 1 2 score 676 0 open\n\n' split --form gtp
gives '(;GM[2]SZ[26])' $'# 1 1 1 unjudged game\n\n' split --form gtp

# games, nodes and lines
gives '(;SZ[1])(;SZ[2])' $'2 2 2\n' count
gives '(;GM[2](;)(;))' $'1 3 2\n' count

# places at which no line ends, and first faulty bytes
tells '(;SZ[3];B[bb])' 'no line ends at 1' split --after 1
early='input ends too early'
tells ' ' "byte 1: $early" split
tells '(;' "byte 2: $early" split
tells '(;C[a\' "byte 6: $early" split
tells '(;C[\]' "byte 6: $early" split
tells '(;C[\\\]' "byte 8: $early" split
tells '(;C[0123456789abcdefg\];)' "byte 25: $early" split
tells $'\xef' "byte 1: $early" split
tells $'\xef\xbb' "byte 2: $early" split
tells '()' 'byte 1: not SGF' split
tells ')' 'byte 0: not SGF' split
tells '(B[aa])' 'byte 1: not SGF' split
tells '(;[1])' 'byte 2: not SGF' split
tells '(;a[1])' 'byte 2: not SGF' split
tells '(;B)' 'byte 3: not SGF' split
tells '(;B B[aa])' 'byte 4: not SGF' split
tells '(;B[aa](;W[bb]);B[cc])' 'byte 15: not SGF' split
tells '(;SZ[3](;B[aa])(;B[bb];W[aa])))' 'byte 30: not SGF' split
tells $'\xefx' 'byte 1: not SGF' split
tells $'\xef\xbb\xbf\xef\xbb\xbf(;)' 'byte 3: not SGF' split
tells $' \xef\xbb\xbf(;)' 'byte 1: not SGF' split
tells '()' 'byte 1: not SGF' count
tells '(;C[a\' "byte 6: $early" count

# ---- outputs that fail: never status 0 if output was lost
# lost NAME COMMAND: the run ends with status 3 and says so.
lost() {
    run 3 "$1" bash -c "$2"
    says "$1" $'sgfsplit: write failed\n'
}
if [ -w /dev/full ]; then
    lost 'a full device' '"$SGFSPLIT" split two.sgf > /dev/full'
    lost 'a full device, counting' '"$SGFSPLIT" count two.sgf > /dev/full'
    lost 'a full device, for the help' '"$SGFSPLIT" --help > /dev/full'
    run 3 'a full device for both streams' bash -c '"$SGFSPLIT" split two.sgf > /dev/full 2> /dev/full'
    run 2 'a full device for wrong words' bash -c '"$SGFSPLIT" split --form xml two.sgf 2> /dev/full'
    writes 'a full device for wrong words' ''
    run 2 'a full device for no word' bash -c '"$SGFSPLIT" 2> /dev/full'
    run 2 'a full device for a word that is not UTF-8' bash -c '"$SGFSPLIT" $'"'\\xff'"' 2> /dev/full'
    run 1 'a full device for the fault row' bash -c '"$SGFSPLIT" split tail.sgf 2> /dev/full'
    writes 'a full device for the fault row' ''
else
    not_run=$((not_run + 8))
    echo 'skipped: there is no /dev/full'
fi
lost 'a closed standard output' '"$SGFSPLIT" split two.sgf >&-'
lost 'a closed standard output, counting' '"$SGFSPLIT" count two.sgf >&-'
lost 'a closed standard output, for the help' '"$SGFSPLIT" split --help >&-'
run 0 'a closed standard error' bash -c '"$SGFSPLIT" split two.sgf 2>&-'
writes 'a closed standard error' "$rows"
run 2 'a closed standard error, at wrong words' bash -c '"$SGFSPLIT" split --form xml two.sgf 2>&-'
writes 'a closed standard error, at wrong words' ''
run 2 'a closed standard error, at no word' bash -c '"$SGFSPLIT" 2>&-'
run 2 'both streams closed, at wrong words' bash -c '"$SGFSPLIT" count --limit 1 >&- 2>&-'
run 1 'a closed standard error, at a fault' bash -c '"$SGFSPLIT" split tail.sgf 2>&-'
{
    printf '(;SZ[9]'
    for _ in $(seq 20000); do printf '(;B[aa])'; done
    printf ')'
} > many.sgf
lost 'a reader that goes away' 'exec 3> >(exec head -c 10 > /dev/null); sleep 0.2; trap "" PIPE; "$SGFSPLIT" split many.sgf >&3'
run 0 'a slow reader' bash -c '"$SGFSPLIT" split many.sgf | (sleep 0.3; cat) | tail -n 1; exit "${PIPESTATUS[0]}"'
writes 'a slow reader' $'160000 1 2 score 81 0 open\n'

# ---- words
# refused NAME TEXT WORDS..: status 2, `error: TEXT` is the first line on standard error, nothing on standard output.
refused() {
    local name=$1 text=$2
    shift 2
    run 2 "$name" "$SGFSPLIT" "$@"
    writes "$name" ''
    verdict "$name: text" "error: $text" "$(head -n 1 err)"
}
form="for '--form <FORM>'" after="for '--after <PLACE>'" limit="for '--limit <N>'"
twice='cannot be used multiple times'
refused 'no word' "'sgfsplit' requires a subcommand but one was not provided"
refused 'an unknown command' "unrecognized subcommand 'divide'" divide
refused 'a file without a command' "unrecognized subcommand 'two.sgf'" two.sgf
refused 'an unknown form' "invalid value 'xml' $form" split --form xml
refused 'a form in capitals' "invalid value 'SGF' $form" split --form SGF
refused 'no form' "a value is required $form but none was supplied" split --form
refused 'no number' "invalid value 'x' $after: invalid digit found in string" split --after x
refused 'a negative number' "invalid value '-1' $after: invalid digit found in string" split --after=-1
refused 'a number of more than 64 bits' "invalid value '18446744073709551616' $limit: number too large to fit in target type" \
    split --limit 18446744073709551616
refused 'an option given twice' "the argument '--form <FORM>' $twice" split --form sgf --form sgf
refused 'a number given twice' "the argument '--limit <N>' $twice" split --limit 1 --limit 2
refused 'two files' "unexpected argument 'two.sgf' found" split two.sgf two.sgf
refused 'an option before the command' "unexpected argument '--form' found" --form sgf split
refused 'an option of split after count' "unexpected argument '--form' found" count --form sgf
refused 'a limit of a count' "unexpected argument '--limit' found" count --limit 1
refused 'an unknown option' "unexpected argument '--colour' found" split --colour
refused 'no version' "unexpected argument '--version' found" --version
run 2 'wrong words open nothing' bash -c 'mkfifo pipe; "$SGFSPLIT" split --form xml pipe'

echo "$passed passed, $failed failed, $not_run skipped"
[ "$failed" = 0 ]
