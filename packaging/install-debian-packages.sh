#!/bin/sh
# Installs the packages that the scripts of tests/ and recipes/ use. Run it on Debian, as root. The test command skips each script and each
# case whose programs are missing.
set -eu
apt-get update
apt-get install -y --no-install-recommends \
    make gcc g++ libc6-dev pkg-config perl python3 bash gzip binutils dpkg mandoc gnugo parallel sgf2dg sqlite3 libc-bin time valgrind zsh fish lintian \
    python3-venv python3-pip python3-setuptools python3-wheel mypy
