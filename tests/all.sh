#!/usr/bin/env bash
# The test command. It runs the merge gate (`rt ci`), which proves and builds everything, and then every other script of this folder with
# the programs that the gate built.
# `tests/all.sh --scripts` skips the gate, and `tests/all.sh NAME..` runs only the named scripts.
# The last line is `N passed, N failed, N skipped`, summed over all.
set -uo pipefail
cd "$(dirname "$0")/.."
passed=0 failed=0 skipped=0
log=$(mktemp)
trap 'rm -f "$log"' EXIT

programs=(crates/sgfsplit/out/sgfsplit crates/sgf_lines_tests/out/sgf_lines_tests out/libsgflines.so.0)

# Builds what the gate didn't: the shared library, from the libraries that the gate proved, and more if the gate failed.
build() {
    local program
    for program in "${programs[@]}"; do
        make --no-print-directory "$program" || { echo "FAILED: make $program"; failed=$((failed + 1)); }
    done
}

gate() {
    rm -f "${programs[@]}"
    rt ci < /dev/null 2>&1 | tee "$log"
    local counts
    counts=$(tail -n 1 "$log" | sed -n 's/^\([0-9][0-9]*\) passed, \([0-9][0-9]*\) failed$/\1 \2/p')
    if [ -n "$counts" ]; then
        passed=$((passed + ${counts% *}))
        failed=$((failed + ${counts#* }))
    else
        echo "failed: rt ci gave no counts"
        failed=$((failed + 1))
    fi
}

# A script counts as one test, or as the numbers in its own last line, if that has the form of this script's last line.
script() {
    local status=0 counts
    timeout 900 "tests/$1.sh" < /dev/null > "$log" 2>&1 || status=$?
    counts=$(tail -n 1 "$log" | sed -n 's/^\([0-9][0-9]*\) passed, \([0-9][0-9]*\) failed, \([0-9][0-9]*\) skipped$/\1 \2 \3/p')
    case $status in
        0) echo "passed: $1"; sed -n 's/^left out: /    &/p' "$log"; counts=${counts:-1 0 0} ;;
        77) echo "$(tail -n 1 "$log") ($1)"; counts='0 0 1' ;;
        *) echo "FAILED: $1 (status $status)"; sed 's/^/    /' "$log"; counts=${counts:-0 1 0} ;;
    esac
    read -r -a counts <<< "$counts"
    passed=$((passed + counts[0]))
    failed=$((failed + counts[1]))
    skipped=$((skipped + counts[2]))
    [ "$status" = 0 ] || [ "$status" = 77 ] || [ "${counts[1]}" -gt 0 ] || failed=$((failed + 1))
}

names=()
case ${1-} in
    '') gate; build ;;
    --scripts) ;;
    *) names=("$@") ;;
esac
if [ ${#names[@]} = 0 ]; then
    for file in tests/*.sh; do
        name=$(basename "$file" .sh)
        case $name in all | lib) ;; *) names+=("$name") ;; esac
    done
fi
for name in ${names[@]+"${names[@]}"}; do
    script "$name"
done
echo "$passed passed, $failed failed, $skipped skipped"
[ "$failed" = 0 ]
