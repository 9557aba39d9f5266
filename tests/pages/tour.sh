#!/usr/bin/env bash
# Runs the tour with the first solver that is installed.
#
#   tests/pages/tour.sh [llvm | rattle | PROGRAM]
#
# tests/program/solver_answers.sh reads stored answers.
. "$(dirname "$0")/../kit/kit.sh"
. examples/solver_commands.sh

solver=$(installed_solvers | head -n 1)
[ -n "$solver" ] || { skips 1 'needs clasp, minisat+ or Sat4j'; finish; exit; }

begins_case "the tour with $solver"
needs_bound
PROGRAM=$program BOUND=$bound LIMIT=60 examples/tour.sh "$solver" > "$out" 2>&1 || complain "$(tail -n 5 "$out")"
for line in '^penalty 320$' '^n005w4, week 1: ' '^s SATISFIABLE$' '^optimal$' '^# That was the tour'; do
    grep -q "$line" "$out" || complain "it does not print $line"
done
finish
