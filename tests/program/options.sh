#!/usr/bin/env bash
# Runs the program with `--early` and `--fix`, and checks its exit status, its output and its files.
#
#   tests/program/options.sh [llvm | rattle | PROGRAM]
#
# Needs bash and the usual tools of a shell.
. "$(dirname "$0")/../kit/kit.sh"

solution both 'Ann Mon Day Nurse' 'Ann Wed Day Nurse'
printf 's SATISFIABLE\nv x8\n' > "$room/nobody_answer"
printf 's SATISFIABLE\nv x8 x3\n' > "$room/wednesday_answer"
model held_model one_cell '+1 x3 >= 1 ;'
model both_model one_cell '+1 x1 >= 1 ;' '+1 x3 >= 1 ;'

# She worked twelve days before the week, and is to work at most fifteen in two weeks. The row of a held cell is
# among the hard rules, before the soft ones.
objective='min: +20 x9 +20 x10 +20 x11 +20 x12 ;'
above='-1 x1 -1 x2 -1 x3 -1 x4 -1 x5 -1 x6 -1 x7 +1 x9 +1 x10 +1 x11 +1 x12 >= -3 ;'
model early_model one_cell "$objective" "$above"
model early_held_model one_cell "$objective" '+1 x3 >= 1 ;' "$above"
cat > "$room/all_days_answer" <<'END'
o 80
s SATISFIABLE
v x1 x2 x3 x4 x5 x6 x7 x8 x9 x10
v x11 x12
END
report all_days_report SATISFIABLE last=80 S6=80
twelve=(--sce fifteen.txt --his twelve.txt --week week.txt)

charges_early() {
    run 'no flag' 0 model nothing encode "${twelve[@]}"
    run 'the flag first' 0 early_model nothing encode --early "${twelve[@]}"
    run 'the flag last' 0 early_model nothing encode "${twelve[@]}" --early
    run 'the flag in between' 0 early_model nothing encode --sce fifteen.txt --early --his twelve.txt --week week.txt
    run 'all days' 0 all_days_answer nothing extend "${twelve[@]}" --from all_days --early
    cp "$room/out" "$room/answer"
    run 'all days decoded' 0 all_days_report nothing decode --early "${twelve[@]}" --answer answer --sol solution
    holds solution all_days
    refuses 'decoded without the flag' 1 'answer: variable out of range' decode "${twelve[@]}" --answer answer --sol unmade
}

holds_cells() {
    run 'a cell held' 0 held_model nothing encode "${week[@]}" --fix wednesday
    filled wednesday longest 4194304
    run 'a cell held by a file of the greatest length' 0 held_model nothing encode "${week[@]}" --fix longest
    run 'the file named first' 0 held_model nothing encode --fix wednesday "${week[@]}"
    run 'two cells held' 0 both_model nothing encode "${week[@]}" --fix both --early
    run 'a cell held, and the flag' 0 early_held_model nothing encode --early --sce=fifteen.txt --his=twelve.txt --fix wednesday --week=week.txt
    refuses 'a roster that lacks the cell' 6 'roster breaks H5' extend "${week[@]}" --fix wednesday --from monday
    run 'a roster that has the cell' 0 text nothing extend "${week[@]}" --fix wednesday --from both
    refuses 'an answer that lacks the cell' 6 'constraint 9 is not satisfied' decode "${week[@]}" --fix wednesday --answer nobody_answer --sol unmade
    run 'an answer that has the cell' 0 text nothing decode "${week[@]}" --fix wednesday --answer wednesday_answer --sol solution
    holds solution wednesday
}

# faults_of COMMAND WORD..: the command with options of its own.
faults_of() {
    run "$1: the flag twice" 2 nothing text "$@" "${week[@]}" --early --early
    run "$1: the flag with a value" 2 nothing text "$@" "${week[@]}" --early=yes
    run "$1: the file twice" 2 nothing text "$@" "${week[@]}" --fix wednesday --fix wednesday
    run "$1: no file" 2 nothing text "$@" "${week[@]}" --fix
    is_missing unmade
    refuses "$1: no such file" 3 'read failed' "$@" "${week[@]}" --fix missing
    refuses "$1: a directory" 3 'read failed' "$@" "${week[@]}" --fix .
    refuses "$1: a file that is cut" 1 'fix line 5: end of file' "$@" "${week[@]}" --fix cut
    refuses "$1: a late week first" 1 'history: week not below WEEKS' "$@" --sce scenario.txt --his late.txt --week week.txt --fix cut
}

charges_early
holds_cells
faults_of encode
faults_of decode --answer nobody_answer --sol unmade
faults_of extend --from monday
refuses 'no such file, and a fault' 3 'read failed' encode --fix missing --sce cut --his history.txt --week week.txt
finish
