#!/usr/bin/env bash
# Runs the program on the week with the longest model that we know of (`greatest` of bench/weeks.py), and on a week of the
# same size that has a roster. Each run has 32 MB of memory, the model has 2.1 GB. The numbers of variables and constraints
# are computed by hand from docs/model.md, and the roster's costs by python/inrc2pb/judging/rules.py. The time until the first write
# shows that the program computes the numbers, and does not walk over the model.
#
#   tests/program/longest_model.sh [llvm | rattle | PROGRAM]
#
# Needs bash, the usual tools of a shell, and Python 3.11.
. "$(dirname "$0")/../kit/kit.sh"

python3 bench/weeks.py files greatest "$room" || exit 2
skills=$(printf ' skill%d' {0..15})
sed "s/ contract0 0\$/ contract0 16$skills/" "$room/scenario.txt" > "$room/skilled.txt"
sed 's/ shift0 1 1 1$/ None 0 0 1/' "$room/history.txt" > "$room/rested.txt"
longest=(--sce scenario.txt --his history.txt --week week.txt)
staffed=(--sce skilled.txt --his rested.txt --week week.txt)

# in_little_memory WORDS..: the program in the room, with 32 MB.
in_little_memory() {
    (cd "$room" && ulimit -v 32768 && exec "$program" "$@")
}

# has_model WHAT FIRST LINES WORDS..: the model's first line, and how many lines follow it.
has_model() {
    local first lines
    begins_case "$1"
    { IFS= read -r first; lines=$(wc -l); } < <(in_little_memory encode "${@:4}" 2> "$err")
    [ "$first" = "$2" ] || complain "begins with $first"
    [ "$lines" = "$3" ] || complain "$lines lines after the first"
    [ ! -s "$err" ] || complain "$(cat "$err")"
}

# milliseconds RUNS WORDS..: the minimum processor time of so many runs of the program in the room.
milliseconds() {
    local TIMEFORMAT=%U
    rm -f "$room/times"
    for _ in $(seq "$1"); do
        { time in_room "${@:2}"; } 2>> "$room/times"
    done
    tr -d . < "$room/times" | sort -n | sed -n '1s/^0*\([0-9]\)/\1/p'
}
in_room() { (cd "$room" && "$program" "$@" > /dev/null 2> /dev/null); }

# A run to a full device ends at its first full buffer: it has read the week and counted the model. To drive a `Counter` would take
# a fourteenth of the time of the whole text, and to count by arithmetic takes a hundredth.
counts_without_a_drive() {
    local counted written
    begins_case 'the model is counted without going through it'
    counted=$(milliseconds 3 encode "${longest[@]}" --opb /dev/full)
    # The whole text takes so long that one run is exact enough.
    written=$(milliseconds 1 encode "${longest[@]}")
    [ $((counted * 30)) -lt "$written" ] || complain "$counted ms, of $written ms for the whole text"
}
counts_without_a_drive

# The nurses of two blocks work every other day, each at the places of her block.
staff() {
    awk 'BEGIN {
        split("Mon Tue Wed Thu Fri Sat Sun", days)
        print "SOLUTION\n3 bench\n\nASSIGNMENTS = 1792"
        for (nurse = 0; nurse < 512; nurse++)
            for (day = nurse < 256 ? 1 : 2; day <= 7; day += 2)
                printf "nurse%d %s shift%d skill%d\n", nurse, days[day], nurse % 256 / 16, nurse % 16
    }'
}

# Cells, unit variable and slacks: of S1 7 * 256 * 9998; a nurse's 16 * 28 + 1 of S2 on shift types, 29 of S2 at work and of
# S3, 2 of S5, 14 of S6, 2 of S7.
has_model 'the longest model' '* #variable= 20233417 #constraint= 2091585' 2091586 "${longest[@]}"
# Each nurse has all skills (16000 rows fewer), and nobody worked on Sunday (18 rows and 2 slacks fewer for each nurse).
has_model 'a model with a roster' '* #variable= 20231417 #constraint= 2057585' 2057586 "${staffed[@]}"

begins_case 'a roster of that week, extended and decoded'
staff > "$room/roster"
in_little_memory extend "${staffed[@]}" --from roster 2> "$err" |
    in_little_memory decode "${staffed[@]}" --sol solution > "$out" 2>> "$err"
[ ! -s "$err" ] || complain "$(cat "$err")"
holds solution roster
(cd "$room" && "$OLDPWD/python/tests/rules_command.py" "${staffed[@]}" roster) > "$room/costs"
penalty=$(sed -n 's/^penalty //p' "$room/costs")
{
    printf 'status SATISFIABLE\nobjective %s\n' "$penalty"
    cat "$room/costs"
    echo "last o $penalty"
} > "$room/wanted"
cmp -s "$out" "$room/wanted" || complain "reported: $(head -c 300 "$out")"

finish
