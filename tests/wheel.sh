#!/usr/bin/env bash
# The wheel is installed by pip into a fresh environment, without a network. From another folder the module's examples run there, with the library
# inside the package and so do the README's calls, and `pip uninstall` leaves nothing. The wheel's name says what the library needs. With mypy its
# types are found.
. "$(dirname "$0")/lib.sh"
[ -e "$top/out/libsgflines.so.0" ] || failed "no library at $top/out/libsgflines.so.0: run make lib first"
needs python3
python3 -m venv fresh > venv.txt 2>&1 || skipped "python3 has no venv, or no pip"
[ -x fresh/bin/pip ] || skipped "pip isn't installed"
wheel=$(OUT=$work "$top/packaging/make-wheel.sh") || {
    [ $? -ne 77 ] || skipped "no Python here has setuptools and wheel"
    failed "make-wheel.sh fails"
}

# The tag is no older than any version of the C library that the library asks for, and is the newest of them.
python3 - "$wheel" "$top/out/libsgflines.so.0" "$(cat "$top/VERSION")" <<'PYTHON'
import os
import re
import subprocess
import sys
import zipfile

wheel, library, version = sys.argv[1:]
symbols = subprocess.run(["readelf", "--dyn-syms", "--wide", library], capture_output=True, text=True, check=True).stdout
wanted = max([5] + [int(minor) for minor in re.findall(r"UND \S+@GLIBC_2\.(\d+)", symbols)])
name = f"sgflines-{version}-py3-none-manylinux_2_{wanted}_{os.uname().machine}.whl"
if os.path.basename(wheel) != name:
    sys.exit(f"the wheel is {os.path.basename(wheel)}, not {name}")
with zipfile.ZipFile(wheel) as file:
    names = {name for name in file.namelist() if ".dist-info/" not in name}
    about = file.read(f"sgflines-{version}.dist-info/WHEEL").decode()
if names != {"sgflines/__init__.py", "sgflines/py.typed", "sgflines/libsgflines.so.0"}:
    sys.exit(f"the wheel has {sorted(names)}")
if "Root-Is-Purelib: false\n" not in about:
    sys.exit(f"the wheel says that it runs on any machine: {about}")
PYTHON

# Nothing of this checkout, the kit or a compiler can be found: the environment is empty.
fresh() { env -i HOME="$work/home" LC_ALL=C PATH="$work/fresh/bin" PIP_NO_INDEX=1 PIP_DISABLE_PIP_VERSION_CHECK=1 "$@"; }
mkdir elsewhere home
find fresh ! -type d | sort > before
cd elsewhere
fresh pip install --quiet "$wheel"
printf '(;SZ[3](;B[aa])(;B[bb];W[aa]))' > two.sgf
fresh python -c '
import doctest
import os
import sys
import sgflines

here = os.path.dirname(os.path.realpath(sgflines.__file__))
assert here.startswith(os.path.realpath(sys.prefix)), here
library = sgflines._LIBRARY._name
assert library == os.path.join(here, "libsgflines.so.0"), library
with open("/proc/self/maps") as maps:
    mapped = {row.split()[-1] for row in maps if "libsgflines" in row}
assert mapped == {library}, mapped
failed, tried = doctest.testmod(sgflines)
assert tried > 5 and not failed, (failed, tried)
'
calls=$(grep -o '`for row in sgflines[^`]*`' "$top/README.md" | tr -d '`')
fresh python -c "
import sgflines
with open('two.sgf', 'rb') as file:
    text = file.read()
$calls" > got
printf '%s\n' '8 Score(black=9, white=0, over=False)' '22 Score(black=1, white=1, over=False)' > want
same want got "what the README's calls print with an installed wheel"
# An installed package looks for no checkout around it: a library planted in site-packages/out isn't loaded.
packages=$(fresh python -c 'import sysconfig; print(sysconfig.get_path("platlib"))')
mkdir "$packages/out" "$packages/include"
touch "$packages/include/sgf_lines.h"
cp "$top/out/libsgflines.so.0" "$packages/out"
fresh python -c 'import sgflines; print(sgflines._LIBRARY._name)' > got
echo "$(readlink -f "$packages")/sgflines/libsgflines.so.0" > want
same want got "the library that an installed package loads"
rm -r "$packages/out" "$packages/include"
if command -v mypy > /dev/null; then
    mypy --strict --no-error-summary --cache-dir "$work/cache" --python-version 3.10 --python-executable "$work/fresh/bin/python" \
        "$top/tests/typed_uses.py" > found || failed "mypy finds with the installed package: $(cat found)"
else
    echo "skipped: mypy isn't installed"
fi
fresh pip uninstall --quiet --yes sgflines
cd ..
find fresh ! -type d | sort > after
same before after "what is left after pip uninstall"
[ ! -e "$packages/sgflines" ] || failed "the package's folder is left"
