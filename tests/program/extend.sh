#!/usr/bin/env bash
# Runs the program's `extend`, and checks its exit status, its output and its files.
#
#   tests/program/extend.sh [llvm | rattle | PROGRAM]
#
# Needs bash and the usual tools of a shell.
. "$(dirname "$0")/../kit/kit.sh"

solution monday_twice 'Ann Mon Day Nurse' 'Ann Mon Day Nurse'
solution both_shifts 'Ann Mon Early Nurse' 'Ann Mon Late Nurse'
cat > "$room/monday_answer" <<'END'
o 15
s SATISFIABLE
v x1 -x2 -x3 -x4 -x5 -x6 -x7 x8 x9 -x10
v -x11 -x12 -x13 -x14 -x15
END
cat > "$room/nobody_answer" <<'END'
o 0
s SATISFIABLE
v -x1 -x2 -x3 -x4 -x5 -x6 -x7 x8
END
report monday_report SATISFIABLE last=15 S2=15
closed_week=(--sce closed.txt --his history.txt --week week.txt)

# refuses_roster WHAT STATUS FAULT SCENARIO ROSTER: the program ends so on these files.
refuses_roster() {
    refuses "$1" "$2" "$3" extend --sce "$4" --his history.txt --week week.txt --from "$5"
}

extends() {
    run 'a Monday' 0 monday_answer nothing extend "${closed_week[@]}" --from monday
    cp "$room/out" "$room/answer"
    run 'the answer decoded again' 0 monday_report nothing decode "${closed_week[@]}" --answer answer --sol solution
    holds solution monday
    run 'nobody' 0 nobody_answer nothing extend "${week[@]}" --from nobody
    filled monday longest 4194304
    run 'a roster of the greatest length' 0 monday_answer nothing extend "${closed_week[@]}" --from longest
    run 'the roster named first' 0 nobody_answer nothing extend --from nobody "${week[@]}"
}

# Of the rosters whose outcome `run_tests` looks at, one for each status.
refuses_rosters() {
    refuses_roster 'two shift types on a day' 6 'roster breaks H1' two_shifts.txt both_shifts
    refuses_roster 'a row twice' 1 'solution line 6: repeated' scenario.txt monday_twice
    refuses 'a late week first' 1 'history: week not below WEEKS' extend --sce scenario.txt --his late.txt --week week.txt --from cut
}

checks_words_and_files() {
    misused 'no roster' "$lacking" extend "${week[@]}"
    misused 'a roster alone' "$lacking" extend --from=nobody
    misused 'a roster twice' "the argument '--from <FILE>' cannot be used multiple times" extend "${week[@]}" --from nobody --from nobody
    misused 'a roster that is not named' "a value is required for '--from <FILE>' but none was supplied" extend "${week[@]}" --from
    misused 'an option of decode' "unexpected argument '--sol' found" extend "${week[@]}" --sol=solution
    run 'help' 0 text nothing extend --help
    refuses_roster 'no such roster' 3 'read failed' scenario.txt missing
    refuses_roster 'no such roster, and a fault' 3 'read failed' nothing missing
    refuses_roster 'a directory as roster' 3 'read failed' scenario.txt .
    refuses_roster 'a fault before a directory' 1 'scenario line 1: end of file' nothing .
    out=/dev/full refuses_roster 'a full standard output' 3 'write failed' scenario.txt nobody
}

extends
refuses_rosters
checks_words_and_files
finish
