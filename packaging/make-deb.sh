#!/usr/bin/env bash
# Makes the Debian package OUT/PROGRAM_VERSION_ARCHITECTURE.deb, and prints its path. The package has the program, its manual page, completion
# and documents, and the library for C and Python. Variables with their defaults: OUT (out), PROGRAM (sgfsplit). The file VERSION has the version.
#
# The owner has to choose a maintainer's address and a licence. Until then the package's address doesn't work, and its licence is `none-chosen-yet`.
#
# Debian's package sgf2dg has another /usr/bin/sgfsplit. So this package conflicts with sgf2dg, unless PROGRAM gives another name.
set -euo pipefail
cd "$(dirname "$0")/.."
out=${OUT:-out}
program=${PROGRAM:-sgfsplit}
version=$(cat VERSION)
architecture=$(dpkg --print-architecture)
stage=$(mktemp -d)
trap 'rm -rf "$stage"' EXIT
chmod 755 "$stage"
mkdir -p "$out"

make --no-print-directory install DESTDIR="$stage" PREFIX=/usr PROGRAM="$program" > /dev/null
strip --strip-unneeded "$stage/usr/bin/$program" "$stage/usr/lib/libsgflines.so.0"
chmod 644 "$stage/usr/lib/libsgflines.so.0"
gzip -9n "$stage/usr/share/man/man1/$program.1"
# Debian keeps zsh's completions in another folder.
mkdir -p "$stage/usr/share/zsh/vendor-completions"
mv "$stage/usr/share/zsh/site-functions/_$program" "$stage/usr/share/zsh/vendor-completions"
rmdir "$stage/usr/share/zsh/site-functions"
sed -i '1s|^#!/usr/bin/env |#!/usr/bin/|' "$stage"/usr/share/sgfsplit/*.py
documents=$stage/usr/share/doc/$program
mkdir -p "$documents"
cp -R README.md CHANGELOG.md docs examples "$documents"
ln -s ../../sgfsplit "$documents/recipes"
mkdir "$documents/include" "$documents/python"
ln -s ../../../../include/sgf_lines.h "$documents/include"
ln -s ../../../../lib/python3/dist-packages/sgflines.py "$documents/python"
# The documents name what the package doesn't have without a link to it.
sed -Ei 's#\[([^]]+)\]\((\.\./)?(CONTRIBUTING\.md|crates/|tests/)[^)]*\)#\1#g' "$documents"/*.md "$documents"/docs/*.md
sed "s/^sgfsplit (/$program (/" packaging/changelog | gzip -9n > "$documents/changelog.gz"
cp packaging/copyright "$documents/copyright"
chmod -R u=rwX,go=rX "$stage"

# The newest version of the C library that the program or the library needs.
libc=$(objdump -T "$stage/usr/bin/$program" "$stage/usr/lib/libsgflines.so.0" | grep -oE 'GLIBC_[0-9.]+' | sed 's/GLIBC_//' | sort -V | tail -n 1)
conflicts=
[ "$program" != sgfsplit ] || conflicts=$'Conflicts: sgf2dg\n'
mkdir "$stage/DEBIAN"
echo 'activate-noawait ldconfig' > "$stage/DEBIAN/triggers"
echo "libsgflines 0 $program" > "$stage/DEBIAN/shlibs"
cat > "$stage/DEBIAN/control" <<CONTROL
Package: $program
Version: $version
Architecture: $architecture
Maintainer: sgfsplit maintainers <sgfsplit@localhost>
Installed-Size: $(du -sk "$stage/usr" | cut -f 1)
Depends: libc6 (>= ${libc:-2.17}), python3
Suggests: gnugo, parallel
${conflicts}Section: utils
Priority: optional
Description: split a Go game with variations into its lines of play and judge each
 A Go game with variations (Smart Game Format) is a tree. sgfsplit writes each
 line of play as a record of its own, in file order, judged by the Tromp-Taylor
 rules, and names the first faulty byte of anything else. The library
 libsgflines does the same for programs in C, and for Python by the module
 sgflines.
 .
 Debian's sgf2dg has another program of the name sgfsplit, which writes one file
 for each variation and judges nothing.
CONTROL
# Python keeps compiled modules beside the sources. They aren't in the package, so prerm removes them.
cat > "$stage/DEBIAN/prerm" <<'PRERM'
#!/bin/sh
set -e
rm -rf /usr/share/sgfsplit/__pycache__
PRERM
chmod 755 "$stage/DEBIAN/prerm"
dpkg-deb --root-owner-group --build "$stage" "$out/${program}_${version}_$architecture.deb" > /dev/null
echo "$out/${program}_${version}_$architecture.deb"
