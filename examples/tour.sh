#!/usr/bin/env bash
# Goes once around with the built program and a solver: a week, its model, an answer, a roster, and back.
#
#   examples/tour.sh [SOLVER]      clasp, minisat+ or sat4j; without one, the first of them that is installed
#
# Each command is shown before it runs, and stopped after LIMIT seconds (120). The files stay in out/tour.
# PROGRAM and BOUND name other programs than out/inrc2pb and out/inrc2pb-bound.
set -u
cd "$(dirname "$0")/.." || exit 2
. examples/solver_commands.sh

limit=${LIMIT:-120}
program=${PROGRAM:-out/inrc2pb}
bound=${BOUND:-out/inrc2pb-bound}
files=out/tour
week="--sce examples/n005w4/ward.txt --his examples/n005w4/history-0.txt --week examples/n005w4/week-0.txt"

[ -x "$program" ] || { echo "No program at $program: 'make' builds it."; exit 2; }
solver=${1:-$(installed_solvers | head -n 1)}
[ -n "$solver" ] || { tell_how_to_get_one; exit 2; }
solver_command "$solver" model > /dev/null || { echo "$solver: give clasp, minisat+ or sat4j"; exit 2; }
rm -rf $files
mkdir -p $files || exit 2

say() { printf '\n# %s\n' "$*"; }

# Shows the command and runs it, for so long at the most.
try() {
    printf '$ %s\n' "$1"
    timeout "$limit" bash -o pipefail -c "$1"
}

# The same, but a command that fails ends the tour.
run() {
    try "$1" || { echo "The tour ends here: status $?"; exit 1; }
}

say "The week of five nurses as a pseudo-Boolean model. Its first line, and a constraint:"
run "$program encode $week --opb $files/week.opb"
run "sed -n '1p;3p' $files/week.opb"

say "$solver looks for the best assignment ($limit seconds at most)."
try "$(solver_command "$solver" $files/week.opb) > $files/answer.txt"

say "The answer is checked against the model, and becomes a solution file and a report."
run "$program decode $week --answer $files/answer.txt --sol $files/roster.txt"

say "The roster: a line for each nurse. With the week's files it says what each of them costs."
run "python/inrc2pb-roster show $week --roster $files/roster.txt"

say "Back again: the roster as an answer, at its exact penalty, and that answer decoded."
run "$program extend $week --from $files/roster.txt > $files/extended.txt"
run "head -n 2 $files/extended.txt"
run "$program decode $week --answer $files/extended.txt --sol $files/again.txt | head -n 3"
run "cmp $files/roster.txt $files/again.txt"

if [ -x "$bound" ]; then
    say "No roster costs less: a certificate with prices of the places proves it, whoever chose them."
    run "$bound $week --proof examples/n005w4/certificate.txt --roster $files/roster.txt"
fi

if "$program" encode --help | grep -q -- '--fix '; then
    say "Stefaan was promised the late shift on Tuesday: every roster has to keep that."
    promised=examples/n005w4/promised.txt
    run "cat $promised"
    run "$program encode $week --fix $promised --opb $files/held.opb"
    try "$(solver_command "$solver" $files/held.opb) > $files/held_answer.txt"
    run "$program decode $week --fix $promised --answer $files/held_answer.txt --sol $files/held_roster.txt | head -n 3"
    run "python/inrc2pb-roster show $week --fix $promised --roster $files/held_roster.txt"
fi

say "That was the tour. Its files are in $files."
