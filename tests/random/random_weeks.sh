#!/usr/bin/env bash
# Compares the program with python/inrc2pb/judging/rules.py, which was written from docs/rules.md alone: on random weeks, rosters and held
# cells, and on every roster of small weeks. Then runs the first cases of `make fuzz`. If Rattle's own compiler has built the program too,
# both builds run on each case.
#
#   tests/random/random_weeks.sh [llvm | rattle | PROGRAM]
#
# Needs Python 3.11; if clasp is installed, it has to prove the optima of the small weeks.
. "$(dirname "$0")/../kit/kit.sh"

begins_case 'rosters made at random'
tests/random/random_rosters.py "$program" || complain 'tests/random/random_rosters.py fails'
begins_case 'every roster of small weeks'
tests/random/every_roster.py "$program" || complain 'tests/random/every_roster.py fails'
begins_case 'files changed at random, for three seconds'
tests/random/fuzz.py "$program" --seconds 3 --seed 1 || complain 'tests/random/fuzz.py fails'
finish
