#!/usr/bin/env bash
# make install puts the program, manual page, completion, tools, library, header and Python module where PREFIX, DESTDIR and PROGRAM say.
# make uninstall removes them.
. "$(dirname "$0")/lib.sh"
[ "$SGFSPLIT" = "$top/crates/sgfsplit/out/sgfsplit" ] || skipped "another program than the built one is tried"
where="DESTDIR=$work/root PREFIX=/opt/go PROGRAM=sgf-lines"
make --no-print-directory -C "$top" install $where > /dev/null
root=$work/root/opt/go
"$root/bin/sgf-lines" split --form sgf < "$top/examples/corner.sgf" > got
"$SGFSPLIT" split --form sgf < "$top/examples/corner.sgf" > want
same want got
grep -q '^\.Nm sgf-lines$' "$root/share/man/man1/sgf-lines.1" || failed "the manual page has the old name"
grep -q '^complete .* sgf-lines$' "$root/share/bash-completion/completions/sgf-lines" || failed "the completion has the old name"
grep -q '^#compdef sgf-lines$' "$root/share/zsh/site-functions/_sgf-lines" || failed "the completion for zsh has the old name"
grep -q '^complete -c sgf-lines ' "$root/share/fish/vendor_completions.d/sgf-lines.fish" || failed "the completion for fish has the old name"
# A program in C is built as pkg-config says, and one in Python finds the module and the library.
if command -v pkg-config > /dev/null && command -v cc > /dev/null; then
    export PKG_CONFIG_PATH=$root/lib/pkgconfig
    read -r -a flags <<< "$(pkg-config --define-prefix --cflags --libs sgflines)"
    cc "$top/examples/rows.c" "${flags[@]}" -o rows
    LD_LIBRARY_PATH=$root/lib ./rows "$top/examples/ko.sgf" > got
    "$SGFSPLIT" split "$top/examples/ko.sgf" > want
    same want got "what the example in C writes"
    status=0
    LD_LIBRARY_PATH=$root/lib ./rows "$top/examples/ko.sgf" > /dev/full 2> fault || status=$?
    [ "$status" = 3 ] && [ -s fault ] || failed "the example in C doesn't say that its output failed: status $status, $(cat fault)"
    [ "$(pkg-config --modversion sgflines)" = "$(cat "$top/VERSION")" ] || failed "pkg-config names another version"
fi
if command -v python3 > /dev/null; then
    "$SGFSPLIT" count "$top/examples/ko.sgf" > want
    PYTHONPATH=$root/lib/python3/dist-packages env -u SGFLINES python3 -c '
import sys, sgflines
print(*sgflines.count(open(sys.argv[1], "rb").read()))
assert sgflines._LIBRARY._name.startswith(sys.argv[2]), sgflines._LIBRARY._name' "$top/examples/ko.sgf" "$root" > got
    same want got "what the Python module counts"
fi
# A module in a folder of its own finds the library, too. An installed module looks for no checkout.
if command -v python3 > /dev/null; then
    apart="PREFIX=$work/apart PYTHON_DIR=$work/modules/python"
    make --no-print-directory -C "$top" install_library $apart > /dev/null
    mkdir "$work/modules/include" "$work/modules/out"
    touch "$work/modules/include/sgf_lines.h"
    cp "$work/apart/lib/libsgflines.so.0" "$work/modules/out"
    PYTHONPATH=$work/modules/python PYTHONDONTWRITEBYTECODE=1 env -u SGFLINES python3 -c '
import sgflines
print(sgflines._LIBRARY._name)' > got
    echo "$work/apart/lib/libsgflines.so.0" > want
    same want got "the library that a module in a folder of its own loads"
    make --no-print-directory -C "$top" uninstall_library $apart > /dev/null
    [ -z "$(find "$work/apart" "$work/modules/python" ! -type d)" ] || failed "files are left of the library"
fi
# The tools call the program that was installed with them, by its name, or the one that SGFSPLIT names.
if command -v python3 > /dev/null; then
    "$SGFSPLIT" split "$top/examples/corner.sgf" > want
    for tool in "$top"/recipes/*.py; do
        tool=$root/share/sgfsplit/$(basename "$tool")
        [ ! -x "$top/recipes/${tool##*/}" ] || env -u SGFSPLIT "$tool" -h > help || failed "$tool -h"
    done
    env -u SGFSPLIT PATH=/usr/bin:/bin:"$(dirname "$(command -v python3)")" "$root/share/sgfsplit/parts.py" "$top/examples/corner.sgf" > got
    same want got "what an installed tool writes"
    ln -s "$root/share/sgfsplit/parts.py" linked.py
    env -u SGFSPLIT ./linked.py "$top/examples/corner.sgf" > got
    same want got "what a tool writes that is called by a link"
    if SGFSPLIT=/bin/true "$root/share/sgfsplit/parts.py" "$top/examples/corner.sgf" 2> fault; then failed "SGFSPLIT wasn't asked"; fi
fi
make --no-print-directory -C "$top" uninstall $where > /dev/null
[ -z "$(find "$work/root" ! -type d)" ] || failed "files are left: $(find "$work/root" ! -type d)"
