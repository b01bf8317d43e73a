#!/usr/bin/env bash
# Refuses each request of the built program in turn: each growth of memory, each read, each write. Then it runs the program under a limit on
# memory, in steps. After refused memory a run writes its whole answer, or it ends after whole records with the status and the line for
# refused memory. After a refused read or write it always ends with the status and line for that. It doesn't read or write that stream
# again, and its output is all that was written before. The last line is `N passed, N failed, N skipped`.
. "$(dirname "$0")/lib.sh"
needs cc
set +e
cc -shared -fPIC -O1 -o refuse.so "$top/tests/refuse.c" -ldl 2> cc.txt || skipped 'the C compiler makes no shared library'
passed=0 failed=0

check() {
    if [ "$2" = "$3" ]; then
        passed=$((passed + 1))
    else
        failed=$((failed + 1))
        printf 'FAILED: %s\n  wanted: %s\n  got:    %s\n' "$1" "$2" "$3"
    fi
}

# Says what is wrong with the files out and err after a run with this status. NAME names the files of the whole answer, and a refusal may end
# the run with STATUS and LINE. Nothing is wrong if the refusal came after whole records, or if the whole answer came. It can't come if a read
# or a write was refused.
wrong() {
    local name=$1 status=$2 line=$3 got=$4 end=$5
    if [ "$status" = 3 ] && [ -e mark ] && [ "$(cat mark)" != refused ]; then
        echo 'asked again after the refusal'
        return
    fi
    if [ "$status" = 4 ] || [ ! -e mark ]; then
        if [ "$got" = "$(cat "$name.status")" ] && cmp -s out "$name.out" && cmp -s err "$name.err"; then
            return
        fi
    fi
    [ "$got" = "$status" ] || { echo "status $got"; return; }
    [ "$(cat err)" = "sgfsplit: $line" ] || { echo "line $(cat err)"; return; }
    head -c "$(stat -c %s out)" "$name.out" | cmp -s - out || { echo 'no front of the answer'; return; }
    [ ! -s out ] || [ "$(tail -c "${#end}" out; printf .)" = "$end." ] || [ "$status" = 3 ] || echo 'a record is cut'
}

# each NAME VARIABLE STATUS LINE END WORDS..: the whole answer first, then runs with one refused request each, until a run meets no refusal.
# The files of a run without refusals are NAME.out, NAME.err and NAME.status.
each() {
    local name=$1 variable=$2 status=$3 line=$4 end=$5 number=0 problem problems=''
    shift 5
    "$SGFSPLIT" "$@" < input.sgf > "$name.out" 2> "$name.err"
    echo $? > "$name.status"
    while :; do
        number=$((number + 1))
        rm -f mark
        env LD_PRELOAD="$PWD/refuse.so" REFUSE_MARK=mark "$variable=$number" "$SGFSPLIT" "$@" < input.sgf > out 2> err
        problem=$(wrong "$name" "$status" "$line" $? "$end")
        [ -z "$problem" ] || problems+="$number: $problem; "
        [ -e mark ] && [ "$number" -lt 3000 ] || break
    done
    check "$name, $variable 1 to $number" '' "$problems"
    check "$name, $variable: some were refused, and none in the last run" 1 "$([ "$number" -gt 1 ] && [ ! -e mark ] && echo 1)"
    echo "$number" > "$name.runs"
}

nl=$'\n'
memory='out of memory'
declare -A ends=()  # the bytes after which an output in each form may be cut
for form in $(words form); do
    case $(sed -n "s/^form  *$form  *\(row\|game\|empty row\)  .*/\1/p" "$top/packaging/words.txt") in
        row) ends[$form]=$nl ;;
        game) ends[$form]=")$nl" ;;
        'empty row') ends[$form]=$nl$nl ;;
        *) failed "$form: no end" ;;
    esac
done
printf '(;SZ[5]AB[ab][ba]AW[cc]C[one\ntwo];W[](;B[ee](;W[ed])(;W[de]))(;B[dd]C[%0400d]))(;GM[2])(;SZ[3];B[aa];W[aa])' 7 > input.sgf
for form in $(words form); do
    each "$form" REFUSE_MEMORY 4 "$memory" "${ends[$form]}" split --form "$form" input.sgf
    for error in 4 5; do
        export REFUSE_ERROR=$error
        each "$form" REFUSE_READ 3 'read failed' '' split --form "$form"
        each "$form of a file" REFUSE_READ 3 'read failed' '' split --form "$form" input.sgf
        each "$form" REFUSE_WRITE 3 'write failed' '' split --form "$form"
        check "$form: one write for an answer that fits the buffer" 2 "$(cat "$form.runs")"
    done
done
for error in 4 5; do
    export REFUSE_ERROR=$error
    each help REFUSE_WRITE 3 'write failed' '' --help
    each 'help of split' REFUSE_WRITE 3 'write failed' '' split --help
done
unset REFUSE_ERROR
each page REFUSE_MEMORY 4 "$memory" "$nl" split --after 42 --limit 2
each count REFUSE_MEMORY 4 "$memory" "$nl" count
each count REFUSE_WRITE 3 'write failed' '' count
cp input.sgf good.sgf
printf ')' >> input.sgf
each faulty REFUSE_MEMORY 4 "$memory" '' split
each faulty REFUSE_READ 3 'read failed' '' split
cp good.sgf input.sgf

# grown LARGE SMALL LEAST: the runs LARGE asked for memory at least LEAST times more than the runs SMALL. Their inputs differ only in what
# outgrows the room that is taken for it at first. If this fails because that room became larger, make the input of LARGE larger too.
grown() {
    local more=$(($(cat "$1.runs") - $(cat "$2.runs")))
    check "$1: $3 requests more than $2" yes "$([ "$more" -ge "$3" ] && echo yes || echo "$more")"
}

# grown_by_form LARGE SMALL FORM LEAST: the same of the runs `LARGE, FORM` and `SMALL, FORM`. What the form list asks for more isn't
# counted.
grown_by_form() {
    local more=$(($(cat "$1, $3.runs") - $(cat "$2, $3.runs") - $(cat "$1, list.runs") + $(cat "$2, list.runs")))
    check "$1, $3: $4 requests more than $2, $3" yes "$([ "$more" -ge "$4" ] && echo yes || echo "$more")"
}

times() { printf "%.0s$2" $(seq "$1"); }  # TEXT, N times

# Games without a referee, in list form: more nodes with white space between them than there is room for at first, and more variations. A comment
# makes each text long enough for the most room.
remark=$(times 1200 x)
for count in 3 300; do
    printf '(;GM[2]C[%s]%s)' "$remark" "$(times "$count" ' ;')" > input.sgf
    each "$count nodes apart" REFUSE_MEMORY 4 "$memory" "$nl" split
done
grown '300 nodes apart' '3 nodes apart' 7
for count in 10 140; do
    printf '(;GM[2]C[%s]%s)' "$remark" "$(times "$count" '(;)')" > input.sgf
    each "$count variations" REFUSE_MEMORY 4 "$memory" "$nl" split
done
grown '140 variations' '10 variations' 4

# turns N: Black fills the points with odd numbers one after another, and White those with even numbers. From the second row on, each black
# stone takes off the stone above it.
letters=$(printf '%s' {a..s})
turns() {
    local at number player
    for ((at = 0; at < $1; at++)); do
        if ((at % 2)); then number=$((at - 1)) player=W; else number=$((at + 1)) player=B; fi
        printf ';%s[%s%s]' "$player" "${letters:number % 19:1}" "${letters:number / 19:1}"
    done
}

# More turns than there is room for at first: in the referee, in the past, and in scripts. In the second game only the first 100 of 304 nodes
# have a move. The comment makes the longer script as long as needed.
printf '(;SZ[19]C[%s]%s)' "$remark" "$(turns 304)" > input.sgf
for form in list gtp; do
    each "304 turns, $form" REFUSE_MEMORY 4 "$memory" "${ends[$form]}" split --form "$form"
done
check '304 turns' 'score 295 9 open' "$(cut -d ' ' -f 4- '304 turns, list.out')"
printf '(;SZ[19]C[%s]%s%s)' "$remark" "$(turns 100)" "$(times 204 ';')" > input.sgf
for form in list gtp; do
    each "100 turns, $form" REFUSE_MEMORY 4 "$memory" "${ends[$form]}" split --form "$form"
done
grown '304 turns, list' '100 turns, list' 6
grown_by_form '304 turns' '100 turns' gtp 1

# After these turns a ko is taken in the last rows, and White retakes it in turn 312.
ko=';B[cs];W[ds];B[dr];W[er];B[];W[fs];B[es]'
printf '(;SZ[19]%s%s;W[ds])' "$(turns 304)" "$ko" > input.sgf
each 'ko after 304 turns' REFUSE_MEMORY 4 "$memory" "$nl" split
place=$((8 + 304 * 6 + ${#ko}))
check 'ko after 304 turns' "$place 1 313 illegal 312 $place repeat" "$(cat 'ko after 304 turns.out')"

# More setups than there is room for at first: white stones on each point of every other row, and then black ones in place of the first of
# them. In the second game only the first 100 of 300 nodes are setups.
setups() {
    local at
    for ((at = 0; at < $1; at++)); do
        if ((at < 190)); then printf ';AW'; else printf ';AB'; fi
        printf '[%s%s]' "${letters:at % 19:1}" "${letters:at % 190 / 19 * 2:1}"
    done
}
for count in 100 300; do
    printf '(;SZ[19]%s%s)' "$(setups "$count")" "$(times "$((301 - count))" ';')" > input.sgf
    each "$count setups" REFUSE_MEMORY 4 "$memory" "$nl" split
done
check '300 setups' 'score 186 137 open' "$(cut -d ' ' -f 4- '300 setups.out')"
grown '300 setups' '100 setups' 5

# More pieces of a record than there is room for at first: 300 sequences of a node each on one line, and on two lines.
for form in $(words form); do
    printf '(;%s%s)' "$(times 299 '(;')" "$(times 299 ')')" > input.sgf
    each "300 sequences on a line, $form" REFUSE_MEMORY 4 "$memory" "${ends[$form]}" split --form "$form"
    printf '(;%s%s%s%s)' "$(times 150 '(;')" "$(times 150 ')')" "$(times 149 '(;')" "$(times 149 ')')" > input.sgf
    each "300 sequences on two lines, $form" REFUSE_MEMORY 4 "$memory" "${ends[$form]}" split --form "$form"
done
grown '300 sequences on a line, sgf' '300 sequences on two lines, sgf' 1
grown_by_form '300 sequences on a line' '300 sequences on two lines' gtp 1

# More bytes of a record: 16 nodes on one line, and on two lines.
comment=";C[$(times 400 x)]"
printf '(;GM[2]%s)' "$(times 15 "$comment")" > input.sgf
each 'one long line' REFUSE_MEMORY 4 "$memory" "$nl" split --form sgf
printf '(;GM[2]%s(%s)(%s))' "$(times 1 "$comment")" "$(times 7 "$comment")" "$(times 7 "$comment")" > input.sgf
each 'two lines' REFUSE_MEMORY 4 "$memory" "$nl" split --form sgf
grown 'one long line' 'two lines' 1

# A text that fits the buffer, and two that are longer. Each read is refused, too: there must be no read after the one that gives nothing.
for count in 3000 66000 140000; do
    printf '(%s)' "$(times "$((count - 2))" ';')" > input.sgf
    each "$count bytes" REFUSE_MEMORY 4 "$memory" '' count
    each "$count bytes read" REFUSE_READ 3 'read failed' '' count
done
grown '66000 bytes' '3000 bytes' 1
grown '140000 bytes' '66000 bytes' 1
check 'reads of 3000 bytes, and one at the end' 2 "$(($(cat '3000 bytes read.runs') - 1))"
check 'reads of 66000 bytes, and one at the end' 3 "$(($(cat '66000 bytes read.runs') - 1))"
check 'reads of 140000 bytes, and one at the end' 4 "$(($(cat '140000 bytes read.runs') - 1))"

# Values whose lengths are kept, and values just too short for that.
for length in 4095 4096; do
    printf '(;C%s)' "$(times 6 "[$(times "$length" x)]")" > input.sgf
    each "6 values of $length bytes" REFUSE_MEMORY 4 "$memory" '' count
done
grown '6 values of 4096 bytes' '6 values of 4095 bytes' 2
cp good.sgf input.sgf

# Short reads and short writes change nothing. Each of many reads fails in turn, and each failure is reported.
for short in SHORT_READS SHORT_WRITES; do
    for form in $(words form); do
        env LD_PRELOAD="$PWD/refuse.so" "$short=1" "$SGFSPLIT" split --form "$form" input.sgf > out 2> err
        check "$short, $form: status" 0 $?
        check "$short, $form: output" '' "$(cmp out "$form.out" 2>&1)"
    done
done
printf '(;SZ[3](;B[aa])(;B[bb];W[aa]))' > input.sgf
each two REFUSE_MEMORY 4 "$memory" "$nl" split
export SHORT_READS=1
each bytes REFUSE_READ 3 'read failed' '' split
each 'counted bytes' REFUSE_READ 3 'read failed' '' count
unset SHORT_READS
check 'each byte is a read' 32 "$(cat bytes.runs)"

# A failure after each byte of the output, and of the row of a fault. If that row is cut, the status is still that fault's.
export SHORT_WRITES=1
each 'written bytes' REFUSE_WRITE 3 'write failed' '' split
check 'each byte is a write' 44 "$(cat 'written bytes.runs')"
row='sgfsplit: byte 30: not SGF'
printf ')' >> input.sgf
for number in $(seq 0 ${#row}); do
    env LD_PRELOAD="$PWD/refuse.so" "REFUSE_WRITE=$((number + 1))" "$SGFSPLIT" split < input.sgf > out 2> err
    check "a row of which $number bytes are written: status" 1 $?
    check "a row of which $number bytes are written" "${row:0:number}." "$(cat out err; printf .)"
done
unset SHORT_WRITES

# Under a limit on memory, in steps of 64 KiB and then wider: the answer, or refused memory after whole records. The last line is much longer than
# the others, so memory also runs out after some records.
{
    printf '(;SZ[19]'
    for at in $(seq 1000); do printf '(;B[%c%c];W[ss]C[%d])' "$(printf "\\$(printf %o $((97 + at % 18)))")" c "$at"; done
    printf '('
    yes ';B[]C[x];W[]C[y];AE[aa]' | head -n 10000 | tr -d '\n'
    printf '))'
} > input.sgf
for form in $(words form); do
    "$SGFSPLIT" split --form "$form" input.sgf > large.out 2> large.err
    echo $? > large.status
    whole=0 cut=0 none=0 problems=''
    for limit in $(seq 2304 64 8192) $(seq 9216 1024 32768); do
        (ulimit -v "$limit" && exec "$SGFSPLIT" split --form "$form" input.sgf) > out 2> err
        status=$?
        # The program doesn't start if the loader finds no memory for its libraries.
        [ "$status" != 127 ] && ! grep -q 'error while loading' err || continue
        case $status in 0) whole=$((whole + 1)) ;; 4) if [ -s out ]; then cut=$((cut + 1)); else none=$((none + 1)); fi ;; esac
        problem=$(wrong large 4 "$memory" "$status" "${ends[$form]}")
        [ -z "$problem" ] || problems+="$limit KiB: $problem; "
    done
    check "$form: limits on memory, of which $none leave nothing, $cut some records and $whole all" '' "$problems"
    check "$form: all of these come" 1 "$([ "$none" -gt 0 ] && [ "$cut" -gt 0 ] && [ "$whole" -gt 0 ] && echo 1)"
done

echo "$passed passed, $failed failed, 0 skipped"
[ "$failed" = 0 ]
