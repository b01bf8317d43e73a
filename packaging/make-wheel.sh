#!/usr/bin/env bash
# Makes the wheel OUT/sgflines-VERSION-py3-none-PLATFORM.whl, and prints its path. It has the Python module, its types and the library in one
# package, so pip installs it without the kit, a compiler or this checkout. Variables with their defaults: OUT (out), PYTHON (python3 or
# /usr/bin/python3, the first that has setuptools and wheel). The file VERSION has the version.
#
# PLATFORM says what the library needs (PEP 600): the kind of processor, and the oldest C library that has all functions that it calls. It needs
# no other library (tests/library.sh).
set -euo pipefail
cd "$(dirname "$0")/.."
out=${OUT:-out}
library=out/libsgflines.so.0

# The first of these Pythons that can make a wheel. If none can, the status is 77: the test is skipped then.
maker() {
    local python
    for python in ${PYTHON:-python3 /usr/bin/python3}; do
        if "$python" packaging/wheel-setup.py --version > /dev/null 2>&1; then
            echo "$python"
            return
        fi
    done
    echo 'no Python here makes a wheel: install setuptools and wheel (python3-setuptools and python3-wheel of Debian)' >&2
    return 77
}

export VERSION PLATFORM
VERSION=$(cat VERSION)
python=$(maker)
[ -e "$library" ] || { echo "no library at $library: run make lib first" >&2; exit 1; }
newest=$(readelf --version-info --wide "$library" | grep -oE 'GLIBC_2\.[0-9]+' | sed 's/GLIBC_2\.//' | sort -n | tail -n 1)
# No manylinux is older than this for x86_64.
[ "${newest:-0}" -ge 5 ] || newest=5
PLATFORM=manylinux_2_${newest}_$(uname -m)

stage=$(mktemp -d)
trap 'rm -rf "$stage"' EXIT
mkdir -p "$out" "$stage/sgflines"
sed 's|^INSTALLED: Optional\[str\] = None|INSTALLED: Optional[str] = "."|' python/sgflines.py > "$stage/sgflines/__init__.py"
touch "$stage/sgflines/py.typed"
install -m 755 "$library" "$stage/sgflines"
strip --strip-unneeded "$stage/sgflines/${library#out/}"
cp packaging/wheel-setup.py "$stage/setup.py"
(cd "$stage" && "$python" setup.py --quiet bdist_wheel --dist-dir made) > "$stage/log" 2>&1 || { cat "$stage/log" >&2; exit 1; }
wheel=$(cd "$stage/made" && echo *.whl)
cp "$stage/made/$wheel" "$out/$wheel"
echo "$out/$wheel"
