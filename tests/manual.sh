#!/usr/bin/env bash
# The manual page is well formed. (tests/words.sh compares its words with the table.)
. "$(dirname "$0")/lib.sh"
needs mandoc
mandoc -Tlint "$top/man/sgfsplit.1" | grep -v -e 'mandoc\.db' -e 'referenced manual not found' -e 'operating system explicitly specified' > lint || true
[ ! -s lint ] || failed "$(cat lint)"
