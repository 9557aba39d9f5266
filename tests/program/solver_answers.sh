#!/usr/bin/env bash
# Decodes the answers that real solvers gave for the week of examples/n005w4. Each is a roster whose objective and penalty
# are 320, the minimum, as two solvers proved. The solution that `decode` writes goes back through `extend` and `decode`,
# with the same costs and the same solution. The same with held cells, and with `--early` for the last week of
# examples/thirty.
#
#   tests/program/solver_answers.sh [llvm | rattle | PROGRAM]
#
# Needs bash and the usual tools of a shell.
. "$(dirname "$0")/../kit/kit.sh"

cp examples/n005w4/*.txt examples/n005w4/answers/*.txt "$room"
cp -r examples/thirty "$room"
cp tests/data/thirty_clasp_early.txt "$room/clasp-early.txt"
files=(--sce ward.txt --his history-0.txt --week week-0.txt)

# wanted_report PENALTY: the answer's status, this minimum as objective and penalty, and the last `o` value, if there is one.
wanted_report() {
    sed -n 's/^s /status /p' "$in"
    printf 'objective %s\npenalty %s\n' "$1" "$1"
    sed -n 's/^o /last o /p' "$in" | tail -n 1
}

# check_report PENALTY: the report has these lines and a cost of each soft rule, and the costs sum to the penalty.
check_report() {
    [ "$(grep -v '^S[0-9] ' "$room/out")" = "$(wanted_report "$1")" ] || complain "another report: $(cat "$room/out")"
    [ "$(awk '/^S[0-9] / { lines += 1; sum += $2 } END { print lines, sum }' "$room/out")" = "${#soft_rules[@]} $1" ] ||
        complain "the costs do not sum to $1"
}

# With a promised shift the minimum penalty is 350, as clasp proved. If one nurse's week of the best roster is held, it stays
# 320, and the best answer is also an answer to that model.
holds_cells() {
    in=$room/clasp-held.txt
    run 'a shift promised' 0 text nothing decode "${files[@]}" --fix promised.txt --sol solution
    check_report 350
    grep -q '^Stefaan Tue Late Nurse$' "$room/solution" || complain 'the promise is not kept'
    in=$room/clasp-optimum.txt
    run 'the best roster' 0 text nothing decode "${files[@]}" --sol solution
    {
        sed -n '1,3p' "$room/solution"
        echo "ASSIGNMENTS = $(grep -c '^Stefaan ' "$room/solution")"
        grep '^Stefaan ' "$room/solution"
    } > "$room/stefaan.txt"
    run "a nurse's week held" 0 text nothing decode "${files[@]}" --fix stefaan.txt --sol solution
    check_report 320
    run 'a promise that the best roster breaks' 6 nothing text decode "${files[@]}" --fix promised.txt --sol solution
    grep -q '^inrc2pb: constraint [0-9]* is not satisfied$' "$room/err" || complain "$(cat "$room/err")"
}

# clasp's answer to the model of the last week of thirty nurses with `--early`. Its objective there is the last one that
# clasp printed. Without the flag the week also pays for the excess of earlier weeks: the same roster costs more.
charges_early() {
    local thirty=(--sce thirty/ward.txt --his thirty/history-3.txt --week thirty/week-3.txt) early
    in=$room/clasp-early.txt
    run 'charged early' 0 text nothing decode "${thirty[@]}" --early --sol solution
    has_line "objective $(sed -n 's/^o //p' "$in" | tail -n 1)"
    early=$(sed -n 's/^penalty //p' "$room/out")
    in=/dev/null
    run 'charged early, extended' 0 text nothing extend "${thirty[@]}" --early --from solution
    [ "$(head -n 1 "$room/out")" = "o $early" ] || complain "$(head -n 1 "$room/out"), not $early"
    run 'charged in the last week only, extended' 0 text nothing extend "${thirty[@]}" --from solution
    [ "$(sed -n '1s/^o //p' "$room/out")" -gt "$early" ] || complain 'no more without the flag'
}

for answer in clasp clasp-optimum minisatp sat4j; do
    in=$room/$answer.txt
    run "$answer" 0 text nothing decode "${files[@]}" --sol solution
    check_report 320
    in=/dev/null
    cp "$room/out" "$room/report"
    cp "$room/solution" "$room/first_solution"
    run "$answer, extended" 0 text nothing extend "${files[@]}" --from solution
    [ "$(head -n 2 "$room/out")" = "$(printf 'o 320\ns SATISFIABLE')" ] || complain "$(head -n 2 "$room/out")"
    cp "$room/out" "$room/extended"
    in=$room/extended
    run "$answer, decoded again" 0 text nothing decode "${files[@]}" --sol solution
    [ "$(grep '^[pS]' "$room/out")" = "$(grep '^[pS]' "$room/report")" ] || complain 'other costs'
    holds solution first_solution
done
holds_cells
charges_early
finish
