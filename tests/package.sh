#!/usr/bin/env bash
# The Debian package is installed into an empty root. The program runs there, its documents are there, the README's examples run beside them, and
# the package names the other program of this name.
. "$(dirname "$0")/lib.sh"
[ "$SGFSPLIT" = "$top/crates/sgfsplit/out/sgfsplit" ] || skipped "another program than the built one is tried"
needs dpkg dpkg-deb strip objdump
package=$(OUT=$work "$top/packaging/make-deb.sh")
dpkg-deb --field "$package" > control
grep -q '^Conflicts: sgf2dg$' control || failed "nothing is said of sgf2dg"
# Debian's own check finds no error, except for two things that only the owner can choose: an address and a licence.
if command -v lintian > /dev/null; then
    lintian --tag-display-limit 0 "$package" > lint 2> /dev/null || true
    grep '^E:' lint | grep -v ': bogus-mail-host' > errors || true
    [ ! -s errors ] || failed "$(cat errors)"
fi
root=$work/root
mkdir -p "$root"/var/lib/dpkg/{info,updates,triggers}
touch "$root"/var/lib/dpkg/{status,available}
dpkg --root="$root" --log=/dev/null --force-not-root --force-depends --install "$package" > log 2>&1 || failed "$(cat log)"
for file in share/man/man1/sgfsplit.1.gz share/bash-completion/completions/sgfsplit share/zsh/vendor-completions/_sgfsplit \
    share/fish/vendor_completions.d/sgfsplit.fish share/doc/sgfsplit/README.md share/doc/sgfsplit/CHANGELOG.md \
    share/doc/sgfsplit/recipes/verdicts.py \
    lib/libsgflines.so.0 lib/libsgflines.so include/sgf_lines.h lib/pkgconfig/sgflines.pc lib/python3/dist-packages/sgflines.py; do
    [ -s "$root/usr/$file" ] || failed "no $file"
done
if command -v python3 > /dev/null; then
    "$SGFSPLIT" split "$top/examples/corner.sgf" > want
    env -u SGFSPLIT python3 "$root/usr/share/sgfsplit/parts.py" "$top/examples/corner.sgf" > got
    same want got "what a tool of the package writes"
fi
ldd "$root/usr/bin/sgfsplit" | grep -oE '/[^ ]+' | while read -r library; do
    install -D "$library" "$root$library"
done
run=("$root/usr/bin/sgfsplit")
if [ "$(id -u)" = 0 ] && chroot "$root" /usr/bin/sgfsplit --help > /dev/null 2>&1; then run=(chroot "$root" /usr/bin/sgfsplit); fi
"${run[@]}" split --form sgf < "$top/examples/corner.sgf" > got
"$SGFSPLIT" split --form sgf < "$top/examples/corner.sgf" > want
same want got
if command -v python3 > /dev/null; then
    python3 "$top/tests/links.py" "$root"/usr/share/doc/sgfsplit/{,docs/}*.md > linked || failed "$(cat linked)"
    (cd "$root/usr/share/doc/sgfsplit" && env -i LC_ALL=C PATH="$root/usr/bin:/usr/bin:/bin" python3 "$top/tests/examples.py" README.md) > ran || failed "$(cat ran)"
    "$SGFSPLIT" count "$top/examples/corner.sgf" > want
    PYTHONPATH=$root/usr/lib/python3/dist-packages PYTHONDONTWRITEBYTECODE=1 env -u SGFLINES python3 -c '
import sys, sgflines
print(*sgflines.count(open(sys.argv[1], "rb").read()))' "$top/examples/corner.sgf" > got
    same want got "what the packaged library counts"
fi
