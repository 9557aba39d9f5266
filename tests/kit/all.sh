#!/usr/bin/env bash
# Runs the scripts of tests/, and prints the seconds that each took.
#
#   tests/kit/all.sh [llvm | rattle | PROGRAM]
#
# The last line is `N passed, M failed, K skipped`; those above it say what was missing. `make programs` builds what they need, without the gate.
cd "$(dirname "$0")/../.." || exit 2
. tests/kit/parts.sh

all_scripts "$@"
print_parts
[ $failed = 0 ]
