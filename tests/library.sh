#!/usr/bin/env bash
# The shared library exports what its header declares and no more, and needs only the C library. On the examples and on inputs made to hurt it
# says what the program says, in every form and on pages. Each request for memory is refused in turn, under the address sanitizer. Four
# threads run at once. The last line is `N passed, N failed, N skipped`.
. "$(dirname "$0")/lib.sh"
library=$top/out/libsgflines.so.0
needs cc nm objdump python3
[ -e "$library" ] || failed "no library at $library: run make lib first"
[ "$SGFSPLIT" = "$top/crates/sgfsplit/out/sgfsplit" ] || skipped "another program than the built one is tried"
set +e
passed=0 failed=0

check() {
    if [ "$2" = "$3" ]; then
        passed=$((passed + 1))
    else
        failed=$((failed + 1))
        printf 'FAILED: %s\n  wanted: %s\n  got:    %s\n' "$1" "$2" "$3"
    fi
}

# ---- header and exports
grep -oE '\bsgf_lines_[a-z]+\(' "$top/include/sgf_lines.h" | tr -d '(' | sort > declared
nm -D --defined-only "$library" | cut -d ' ' -f 3 | sort > exported
check 'it exports what the header declares' "$(cat declared)" "$(cat exported)"
check 'it needs the C library alone' libc.so.6 "$(objdump -p "$library" | awk '$1 == "NEEDED" { print $2 }')"
allowed='^(free|malloc|realloc|memcpy|memmove|memset|memcmp|bcmp|__.*|_ITM_.*)$'
check 'it calls for memory, copies, and no more' '' "$(nm -D --undefined-only "$library" | awk '{ sub(/@.*/, "", $2); print $2 }' | grep -vE "$allowed")"
forms=($(words form))
strict=(-std=c11 -Wall -Wextra -Werror -pedantic -O1 -I "$top/include" -D "FORMS=${#forms[@]}")
cc "${strict[@]}" -o called "$top/tests/library.c" "$library" -Wl,-rpath,"$top/out" -pthread 2> cc.txt
check 'the test compiles with every warning' '' "$(cat cc.txt)"
cc "${strict[@]}" -o rows "$top/examples/rows.c" "$library" -Wl,-rpath,"$top/out" 2> cc.txt
check 'the example compiles with every warning' '' "$(cat cc.txt)"
if command -v c++ > /dev/null; then
    printf '#include <sgf_lines.h>\nint main() { sgf_lines_counts counts; const uint8_t text[] = "(;)"; return int(sgf_lines_count(text, 3, &counts)); }\n' > plus.cc
    c++ -std=c++11 -Wall -Wextra -Werror -pedantic -I "$top/include" -o plus plus.cc "$library" -Wl,-rpath,"$top/out" 2> cc.txt && ./plus
    check 'it is called from C++' '0 ' "$? $(cat cc.txt)"
fi

# ---- the program's answers
mkdir inputs
"$top/tests/inputs.py" inputs
cp "$top"/examples/*.sgf inputs

# agrees NAME WORDS.. -- WORDS..: the test with the first words and the program with the others have the same outputs and status.
agrees() {
    local name=$1 words=()
    shift
    while [ "$1" != -- ]; do words+=("$1"); shift; done
    shift
    ./called "${words[@]}" > got 2> got.err
    local status=$?
    "$SGFSPLIT" "$@" > want 2> want.err
    [ "$status" = $? ] && cmp -s want got && cmp -s want.err got.err || { echo "$name: status $status, $(cat got.err)"; return; }
}

# judged FILE: the verdicts of its first lines and of its last, by their places, stand in their rows; the fault of a faulty file is the program's.
judged() {
    "$SGFSPLIT" split "$1" > rows.txt 2> want.err
    local status=$?
    sed -n '1,200p;$p' rows.txt | cut -d ' ' -f 4- > want
    sed -n '1,200p;$p' rows.txt | cut -d ' ' -f 1 > places
    [ -s places ] || echo 0 > places
    ./called judge "$1" < places > got 2> got.err
    [ "$status" = $? ] && cmp -s want got && cmp -s want.err got.err || echo "judged: status $status, $(cat got.err)"
}

for file in inputs/*.sgf; do
    name=$(basename "$file" .sgf)
    problems=$(agrees count count "$file" -- count "$file")
    for form in "${!forms[@]}"; do
        problems+=$(agrees "${forms[form]}" split $form - - "$file" -- split --form ${forms[form]} "$file")
    done
    places=(0 $("$SGFSPLIT" split "$file" 2> /dev/null | cut -d ' ' -f 1 | awk 'NR <= 3 { print } { last = $1 } END { print last }'))
    for place in "${places[@]}"; do
        for form in "${!forms[@]}"; do
            for limit in 0 1 2; do
                problems+=$(agrees "${forms[form]} after $place, limit $limit" split $form "$place" $limit "$file" \
                    -- split --form ${forms[form]} --after "$place" --limit $limit "$file")
            done
        done
    done
    problems+=$(agrees 'limit 2' split 1 - 2 "$file" -- split --form sgf --limit 2 "$file")
    check "$name: as the program" '' "$problems$(judged "$file")"
done
kinds=$(for file in inputs/*.sgf; do "$SGFSPLIT" split "$file" 2> /dev/null | sed -n '1,200p'; done | awk '{ print $4, $4 == "score" ? $7 : $NF }' | sort -u)
check 'verdicts of every kind were judged' $(($(words verdict | wc -l) - 1 + $(words reason | wc -l))) "$(wc -l <<< "$kinds")"
problems=
for place in $(seq 0 31) 4294967304 18446744073709551615; do
    case $place in 8 | 22) continue ;; esac
    "$SGFSPLIT" split --after $place --limit 0 inputs/two.sgf 2> want.err
    ./called judge inputs/two.sgf <<< $place > got 2> got.err
    [ $? = 1 ] && cmp -s want.err got.err && [ ! -s got ] || problems+="$place: $(cat got got.err); "
done
check 'no line there to judge' '' "$problems"
check 'the example writes the rows' "$("$SGFSPLIT" split "$top/examples/ko.sgf")" "$(./rows "$top/examples/ko.sgf")"
./called split ${#forms[@]} - - "$top/examples/ko.sgf"
check 'a form that there is none of' 8 $?
./called split 4294967295 7 7 "$top/examples/ko.sgf"
check 'another one' 8 $?
for more in 0 1; do
    { printf '(;C['; head -c $((67108864 - 6 + more)) /dev/zero | tr '\0' x; printf '])'; } > limit.sgf
    check "64 MiB and $more: counted" '' "$(agrees count count limit.sgf -- count limit.sgf)"
    check "64 MiB and $more: a row" '' "$(agrees list split 0 - - limit.sgf -- split limit.sgf)$(judged limit.sgf)"
done
rm limit.sgf

# ---- threads, refusals and the bytes beside the room
for file in two ko corner deep large_board; do
    ./called threads inputs/$file.sgf
    check "$file: four threads at once" 0 $?
done
kit=$(dirname "$(dirname "$(readlink -f "$(command -v rt)")")")
static=("$top/crates/sgf_lines_c/out/libsgf_lines_c.a" "$kit/c/liblibc_c.a")
wrap=(-DREFUSED -Wl,--wrap=malloc -Wl,--wrap=realloc -Wl,--wrap=free)
skipped=0
if cc "${strict[@]}" -g -fsanitize=address -o sanitized "$top/tests/library.c" "${static[@]}" "${wrap[@]}" -pthread 2> cc.txt; then
    most=0
    for file in two ko corner handicap illegal two_games escapes blank_comment dead_setup repeat cut20 rest other_game; do
        ./sanitized refused inputs/$file.sgf > out 2> err
        check "$file: each request refused" '0 ' "$? $(cat err)"
        check "$file: some were" 1 "$(grep -cE '^[1-9][0-9]* requests refused' out)"
        lines=$(sed 's/.*memory for //; s/ lines.*//' out)
        [ "$lines" -le "$most" ] || most=$lines
    done
    check 'some after a line' 1 "$([ "$most" -gt 0 ] && echo 1)"
    { printf '(;SZ[9]C['; head -c 20000 /dev/zero | tr '\0' x; printf ']'; yes '(;B[aa])' | head -n 1000; printf ')'; } > lines.sgf
    ./sanitized memory lines.sgf > out 2> err
    check 'the memory of a split into no room' "0  ${#forms[@]}" "$? $(cat err) $(grep -c '^form' out)"
    for file in inputs/*.sgf; do
        for form in "${!forms[@]}"; do
            ./sanitized split $form - - "$file" > out 2> err
            [ $? -lt 2 ] && ! grep -q Sanitizer err || { check "$file, form $form, sanitized" '' "$(cat err)"; }
        done
        { "$SGFSPLIT" split "$file" 2> /dev/null | cut -d ' ' -f 1 | head -n 20; echo 1; } | ./sanitized judge "$file" > out 2> err
        [ $? -lt 2 ] && ! grep -q Sanitizer err || { check "$file, judged, sanitized" '' "$(cat err)"; }
    done
else
    echo "skipped: the C compiler has no address sanitizer"
    skipped=$((skipped + 1))
fi
if command -v valgrind > /dev/null; then
    for file in ko corner escapes cut20; do
        for form in "${!forms[@]}"; do
            valgrind -q --error-exitcode=9 --leak-check=full ./called split $form - - inputs/$file.sgf > out 2> err
            [ $? -lt 2 ] && ! grep -q '^==' err
            check "$file, form $form: each byte that is read was written, and all memory is given back" 0 $?
        done
        "$SGFSPLIT" split inputs/$file.sgf 2> /dev/null | cut -d ' ' -f 1 > places
        valgrind -q --error-exitcode=9 --leak-check=full ./called judge inputs/$file.sgf < places > out 2> err
        [ $? -lt 2 ] && ! grep -q '^==' err
        check "$file, judged: each byte that is read was written, and all memory is given back" 0 $?
    done
else
    echo "skipped: valgrind isn't installed"
    skipped=$((skipped + 1))
fi

echo "$passed passed, $failed failed, $skipped skipped"
[ "$failed" = 0 ]
