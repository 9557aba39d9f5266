#!/usr/bin/env bash
# Compares `inrc2pb-bound` with all plans of tiny periods, under certificates and facts of all kinds. The plans and the bounds are
# computed in plain Python from docs/rules.md and docs/formats.md, without the rules of the Python package. If Rattle's own compiler has
# built it too, both builds run on each case.
#
#   tests/random/random_bounds.sh [llvm | rattle | PROGRAM]
#
# Needs Python 3.11.
. "$(dirname "$0")/../kit/kit.sh"
needs_bound

begins_case 'all plans of tiny periods'
tests/random/every_plan.py "$bound" || complain 'tests/random/every_plan.py fails'
finish
