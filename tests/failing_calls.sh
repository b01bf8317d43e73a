#!/usr/bin/env bash
# Refuses each request for memory of the program `sgf_lines_tests` in turn. The program makes the libraries' calls, each once more after refused
# memory, and runs between ends that fail, once each. Its status says whether everything was right (crates/sgf_lines_tests/src/main.rt).
. "$(dirname "$0")/lib.sh"
tried=$top/crates/sgf_lines_tests/out/sgf_lines_tests
needs cc
cc -shared -fPIC -O1 -o refuse.so "$top/tests/refuse.c" -ldl 2> cc.txt || skipped 'the C compiler makes no shared library'
[ -x "$tried" ] || skipped "no program at $tried: run make sgf_lines_tests first"

# Some calls are there because they need more room than is taken at first (crates/sgf_lines_tests/src/seen.rt). At least so many of their
# requests must have been refused, and reported. If there are fewer, some room became larger: make the text or the game larger too.
declare -A wants least=(
    ['reading games']=77 ['reading variations']=80 ['reading nodes']=41 ['measuring long values']=4 ['counting long texts']=52
    ['turns of a list']=9 ['setups of a list']=9 ['turns of prints']=10 ['setups of prints']=9
)
number=0 wanted=0
while :; do
    number=$((number + 1))
    rm -f mark
    status=0
    LD_PRELOAD="$PWD/refuse.so" REFUSE_MARK=mark REFUSE_MEMORY=$number "$tried" > out 2> err || status=$?
    case $status in
        0) said='0 wants of memory' ;;
        4)
            said='1 wants of memory\( by .*\)\?' wanted=$((wanted + 1))
            name=$(sed -n 's/.* wants of memory by //p' out)
            [ -z "$name" ] || wants[$name]=$((${wants[$name]:-0} + 1))
            ;;
        *) failed "request $number refused: status $status, $(cat err)" ;;
    esac
    grep -q ", $said\$" out || failed "request $number refused: status $status, but $(cat out)"
    if [ ! -e mark ]; then
        [ "$status" = 0 ] || failed "want of memory in run $number, in which no request was refused"
        break
    fi
    [ "$number" -lt 20000 ] || failed 'there is no end of requests'
done
[ "$wanted" -gt 0 ] || failed 'no call wanted memory'
for name in "${!least[@]}"; do
    [ "${wants[$name]:-0}" -ge "${least[$name]}" ] || failed "$name: ${wants[$name]:-0} wants of memory, fewer than ${least[$name]}"
done
echo "$((number - 1)) requests refused in turn, $wanted wants of memory"
