#!/usr/bin/env bash
# Runs the program's `decode`, and checks its exit status, its output and its files.
#
#   tests/program/decode.sh [llvm | rattle | PROGRAM]
#
# Needs bash and the usual tools of a shell.
. "$(dirname "$0")/../kit/kit.sh"

report optimum_report 'OPTIMUM FOUND' last=5
report plain_report SATISFIABLE
report extended_report SATISFIABLE last=15 S2=15
printf '%s\r\n' 'c hello' 'd 1 2' 'o 5' 's OPTIMUM FOUND' 'v x1 -x2' 'v -x3 x1 -x4' 'v -x5 -x6 x8 ' > "$room/answer.txt"

empty=(--sce nothing --his history.txt --week week.txt)

# answer LINE..: these lines are the answer, on standard input.
answer() {
    printf '%s\n' "$@" > "$room/stdin"
    in=$room/stdin
}

# takes WHAT REPORT SOLUTION WORD..: the program decodes the words to this report and this solution.
takes() {
    run "$1" 0 "$2" nothing decode "${@:4}" --sol solution
    holds solution "$3"
}

# refuses_answer STATUS FAULT: the program ends so on the answer to the week.
refuses_answer() {
    refuses "$2 ($(head -c 40 "$in" | tr '\n' '/'))" "$1" "$2" decode "${week[@]}" --sol unmade
}

# refuses_each STATUS FAULT TEXT..: it ends so on each of these answers.
refuses_each() {
    local text
    for text in "${@:3}"; do
        answer "$text"
        refuses_answer "$1" "$2"
    done
}

takes_no_other_words() {
    local files=(--sce=scenario.txt --his=history.txt --week=week.txt)
    misused 'no solution file' "$lacking" decode "${files[@]}"
    misused 'an answer and no solution file' "$lacking" decode "${files[@]}" --answer=answer.txt
    misused 'a solution file alone' "$lacking" decode --sol=unmade
    misused 'the solution file twice' "the argument '--sol <FILE>' cannot be used multiple times" decode "${files[@]}" --sol unmade --sol again
    misused 'the answer twice' "the argument '--answer <FILE>' cannot be used multiple times" decode "${files[@]}" --sol unmade --answer a --answer b
    misused 'a solution file that is not named' "a value is required for '--sol <FILE>' but none was supplied" decode "${files[@]}" --sol
    misused 'an option of encode' "unexpected argument '--opb' found" decode "${files[@]}" --opb=week.opb
    misused 'an option of extend' "unexpected argument '--from' found" decode "${files[@]}" --from=roster
    run 'help' 0 text nothing decode --help
    is_missing unmade
}

decodes() {
    takes 'an answer from a file' optimum_report monday "${week[@]}" --answer answer.txt
    cp "$room/answer.txt" "$room/a b"
    run 'options in another order' 0 optimum_report nothing decode --sol '=x' --his history.txt --answer 'a b' --sce=scenario.txt --week week.txt
    holds '=x' monday
    in=$room/answer.txt takes 'an answer from standard input' optimum_report monday "${week[@]}"
    in=$room/answer.txt run 'each option one word' 0 optimum_report nothing decode --sce=scenario.txt --his=history.txt --week=week.txt --sol=r
    holds r monday
    head -c 100000 /dev/zero > "$room/solution"
    in=$room/answer.txt takes 'over a longer solution' optimum_report monday "${week[@]}"
    in=/dev/null
}

# Of the answers whose outcome `run_tests` looks at, one for each line that is printed.
takes_and_refuses_answers() {
    answer 'o 15' 's SATISFIABLE' 'v x1 -x2 -x3 -x4 -x5 -x6 -x7 x8 x9 -x10' 'v -x11 -x12 -x13 -x14 -x15'
    takes 'a shift that nobody should work' extended_report monday --sce closed.txt --his history.txt --week week.txt
    refuses_each 1 'answer: variable with both values' 'v x1 -x1'
    refuses_each 1 'answer: variable out of range' 'v x9'
    refuses_each 1 'answer: bad literal' 'v y1'
    refuses_each 1 'answer: unknown status' 's OPTIMUM '
    refuses_each 1 'answer: bad o value' 'o 1 2'
    in=/dev/null
    refuses_answer 1 'answer: no status line or a second one'
    (printf c; head -c 10000000 /dev/zero | tr '\0' x) > "$room/stdin"
    in=$room/stdin
    refuses_answer 1 'answer: no status line or a second one'
    printf '\ns SATISFIABLE\nv x8\n' >> "$room/stdin"
    in=/dev/null run 'ten million bytes before the answer' 0 plain_report nothing decode "${week[@]}" --answer stdin --sol solution
    holds solution nobody
    rm "$room/solution"
    for text in UNSATISFIABLE UNKNOWN UNSUPPORTED; do refuses_each 5 "solver found no roster: $text" "s $text"; done
    refuses_each 6 'constraint 1 is not satisfied' 's SATISFIABLE'
    in=/dev/null
}

checks_in_order() {
    in=$room/answer.txt
    refuses 'no such answer' 3 'read failed' decode "${week[@]}" --sol unmade --answer missing.txt
    refuses 'an answer that does not open, and a fault' 3 'read failed' decode "${empty[@]}" --sol unmade --answer missing.txt
    refuses 'a directory as answer' 3 'read failed' decode "${week[@]}" --sol unmade --answer .
    refuses 'a fault before a directory' 1 'scenario line 1: end of file' decode "${empty[@]}" --sol unmade --answer .
    refuses 'a late week' 1 'history: week not below WEEKS' decode --sce scenario.txt --his late.txt --week week.txt --sol unmade
    line kept 'an older solution'
    line older 'an older solution'
    answer 's UNSATISFIABLE'
    refuses 'an older solution' 5 'solver found no roster: UNSATISFIABLE' decode "${week[@]}" --sol older
    holds older kept
    in=/dev/null
}

fails_to_write() {
    in=$room/answer.txt
    refuses 'a solution in no folder' 3 'write failed' decode "${week[@]}" --sol missing/solution
    refuses 'a full device' 3 'write failed' decode "${week[@]}" --sol /dev/full
    rm -f "$room/solution"
    out=/dev/full refuses 'a full standard output' 3 'write failed' decode "${week[@]}" --sol solution
    holds solution monday
    in=/dev/null
}

takes_no_other_words
takes_and_refuses_answers
checks_in_order
decodes
fails_to_write
finish
