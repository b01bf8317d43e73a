#!/usr/bin/env bash
# Type checkers find nothing in the Python module, and nothing in typed_uses.py but the faults that are marked there. mypy also reads both as an
# old Python does. The uses do at run time what their types say.
. "$(dirname "$0")/lib.sh"
needs python3
[ -e "$top/out/libsgflines.so.0" ] || failed "no library at $top/out/libsgflines.so.0: run make lib first"
cp "$top/python/sgflines.py" "$top/tests/typed_uses.py" .
checked=0
if command -v mypy > /dev/null; then
    for version in 3.9 3.10 3.11; do
        files=(sgflines.py)
        [ "$version" = 3.9 ] || files+=(typed_uses.py)  # `match` is of 3.10
        mypy --strict --no-error-summary --cache-dir cache --python-version "$version" "${files[@]}" > found || failed "mypy, for Python $version: $(cat found)"
    done
    # Without the marks it finds a fault in each of the marked rows, and in no other.
    sed 's/  # type: ignore.*//' typed_uses.py > unmarked.py
    if mypy --strict --no-error-summary --cache-dir cache --python-version 3.10 unmarked.py > found; then failed "mypy finds no fault"; fi
    grep -n 'type: ignore\[' typed_uses.py | cut -d : -f 1 > marked
    sed -n 's/^unmarked\.py:\([0-9]*\): error: .*/\1/p' found | uniq > rows
    same marked rows "where mypy finds faults"
    checked=1
else
    echo "skipped: mypy isn't installed"
fi
if command -v pyright > /dev/null; then
    pyright sgflines.py typed_uses.py > found || failed "pyright: $(cat found)"
    checked=1
else
    echo "skipped: pyright isn't installed"
fi
for python in python3 "$HOME"/.pyenv/versions/*/bin/python3; do
    "$python" -c 'import sys; sys.exit(sys.version_info < (3, 10))' 2> /dev/null || continue
    PYTHONPATH=$top/python PYTHONDONTWRITEBYTECODE=1 env -u SGFLINES "$python" "$top/tests/typed_uses.py" || failed "$python: the uses fail"
done
[ "$checked" = 1 ] || skipped "neither mypy nor pyright is installed"
