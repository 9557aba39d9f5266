#!/usr/bin/env bash
# Compares the lists of docs/definitions.md, and their sums on docs/reading.md, with the definitions that the contracts rest on.
#
#   tests/pages/reading.sh [--fix | llvm | rattle | PROGRAM]
#
# --fix writes the numbers on the page. No program is needed: it takes a second.
set -u
cd "$(dirname "$0")/../.." || exit 2
if [ "${1:-}" = --fix ]; then python3 tests/pages/reading.py --fix; else python3 tests/pages/reading.py; fi
failed=$?
[ -z "${TALLY:-}" ] || echo "1 $failed" > "$TALLY"
exit $failed
