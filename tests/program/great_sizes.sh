#!/usr/bin/env bash
# Runs the program at great sizes: a week with the maximum number of nurses, rosters and requests with the maximum number of
# rows, names of more than a mebibyte, long command lines. None of them is out of memory.
#
#   tests/program/great_sizes.sh [llvm | rattle | PROGRAM]
#
# Also runs `call_report`. Needs bash and the usual tools of a shell.
. "$(dirname "$0")/../kit/kit.sh"
needs_reporter

# A large week: 1000 nurses with all of 16 skills, and 16 shift types.
skills='a b c d e f g h i j k l m n o p'
{
    printf 'SCENARIO = s1\nWEEKS = 2\nSKILLS = 16\n%s\nSHIFT_TYPES = 16\n' "$skills"
    printf 't%d (1,9)\n' {0..15}
    echo FORBIDDEN_SHIFT_TYPES_SUCCESSIONS
    printf 't%d 0\n' {0..15}
    printf 'CONTRACTS = 1\nFull (1,9) (1,9) (1,9) 9 0\nNURSES = 1000\n'
    printf "n%d Full 16 $skills\n" {0..999}
} > "$room/large.txt"
{
    printf 'HISTORY\n0 s1\nNURSE_HISTORY\n'
    printf 'n%d 0 0 None 0 0 0\n' {0..999}
} > "$room/large_history.txt"
large=(--sce large.txt --his large_history.txt --week week.txt)

# rows NUMBER: this many different rows of a solution, first one for each nurse and day in the order in which
# `decode` writes them, then others.
rows() {
    awk -v number="$1" 'BEGIN {
        split("Mon Tue Wed Thu Fri Sat Sun", days)
        for (row = 0; row < number; row++)
            printf "n%d %s t%d p\n", row % 7000 / 7, days[row % 7 + 1], row < 7000 ? 15 : 14
    }'
}

# of_rows NAME NUMBER: a solution file with this number of rows.
of_rows() {
    mapfile -t many < <(rows "$2")
    solution "$1" "${many[@]}"
}

of_rows one_a_day 7000
of_rows most_rows 9999
of_rows too_many_rows 10000

large_week() {
    run 'a large week' 0 text nothing encode "${large[@]}"
    [ "$(head -n 1 "$room/out")" = '* #variable= 1792001 #constraint= 7001' ] || complain "$(head -n 1 "$room/out")"
    [ "$(grep -c '>= .* ;$' "$room/out")" = 7001 ] || complain 'not 7001 rows'
    reports 'the numbers of a large week' text large.txt large_history.txt week.txt
    tail -n 4 "$room/out" > "$room/numbers"
    cat > "$room/wanted" <<'END_OF_NUMBERS'
last cell 1792000: 999 6 15 15
unit 1792001: no cell
by arithmetic 1792001 7001
by counting 1792001 7001
END_OF_NUMBERS
    holds numbers wanted
}

large_rosters() {
    run 'a roster of 7000 rows' 0 text nothing extend "${large[@]}" --from one_a_day
    cp "$room/out" "$room/answer"
    [ "$(head -n 2 "$room/answer" | tr '\n' /)" = 'o 0/s SATISFIABLE/' ] || complain 'another head'
    run 'its answer' 0 text nothing decode "${large[@]}" --answer answer --sol solution
    holds solution one_a_day
    has_line 'penalty 0'
    printf 's SATISFIABLE\nv x1792001 x1792000 x1791999\n' > "$room/answer"
    refuses 'two cells of the last nurse and day' 6 'constraint 7001 is not satisfied' decode "${large[@]}" --answer answer --sol unmade
    refuses 'a roster of 9999 rows' 6 'roster breaks H1' extend "${large[@]}" --from most_rows
    reports 'the cells of 9999 rows' text large.txt large_history.txt week.txt most_rows
    has_line 'cells 9999'
    refuses 'a roster of 10000 rows' 1 'solution line 4: out of limits' extend "${large[@]}" --from too_many_rows
}

# Each row asks for Monday off on one shift type: 7000 rows of 1000 nurses on one, 2999 rows of 429 on another,
# each charged at 16 skills.
most_requests() {
    { printf 'WEEK_DATA s1 REQUIREMENTS\nSHIFT_OFF_REQUESTS = 9999\n'; rows 9999 | cut -d ' ' -f 1,3 | awk '{ print $1, $2, "Mon" }'; } > "$room/requests.txt"
    run '9999 requests' 0 text nothing encode --sce large.txt --his large_history.txt --week requests.txt
    sed -n 2p "$room/out" | tr ' ' '\n' | awk '/^\+/ { terms++; sum += $0 }
        END { exit terms != 16 * (1000 + 429) || sum != 16 * 10 * 9999 }' || complain 'other terms, or another sum'
}

# A nurse and a scenario with names of more than a mebibyte.
long_names() {
    local name
    name=$(head -c 1100000 /dev/zero | tr '\0' n)
    printf '%s\n' "s/Ann/$name/" > "$room/longer"
    for file in scenario.txt history.txt; do sed -f "$room/longer" "$room/$file" > "$room/long_$file"; done
    solution long_roster "$name Mon Day Nurse"
    run 'a long name' 0 text nothing extend --sce long_scenario.txt --his long_history.txt --week week.txt --from long_roster
    cp "$room/out" "$room/answer"
    run 'a long name back' 0 text nothing decode --sce long_scenario.txt --his long_history.txt --week week.txt --answer answer --sol solution
    holds solution long_roster
    printf '%s\n' "s/s1/$name/" > "$room/longer"
    for file in scenario history week; do sed -f "$room/longer" "$room/$file.txt" > "$room/named_$file.txt"; done
    run 'a long name of a scenario' 0 text nothing decode --sce named_scenario.txt --his named_history.txt --week named_week.txt --answer answer --sol solution
    [ "$(sed -n 2p "$room/solution")" = "0 $name" ] || complain 'another name'
}

long_command_lines() {
    local path word words
    path=$(printf './%.0s' {1..2000})scenario.txt
    run 'a path of 4000 bytes' 0 text nothing encode --sce "$path" --his history.txt --week week.txt
    word=$(head -c 100000 /dev/zero | tr '\0' w)
    refuses 'a path of 100000 bytes' 3 'read failed' encode --sce "$word" --his history.txt --week week.txt
    refuses 'an output of 100000 bytes' 3 'write failed' encode "${week[@]}" --opb "$word"
    run 'an option of 100000 bytes' 2 nothing text encode "--$word"
    mapfile -t words < <(printf 'w%d\n' {1..20000})
    run '20000 words' 2 nothing text encode "${words[@]}"
}

large_week
large_rosters
most_requests
long_names
long_command_lines
finish
