#!/usr/bin/env bash
# Files with a fault: the program reports the file, the line and the fault, for each file once in its first lines and once far
# down. `run_tests` checks all faults, over memory.
#
#   tests/program/file_tables.sh [llvm | rattle | PROGRAM]
#
# Needs bash and the usual tools of a shell.
. "$(dirname "$0")/../kit/kit.sh"

changed scenario.txt too_many_weeks.txt 2 'WEEKS = 53'
changed history.txt no_number.txt 4 'Ann 0 0 None 0 none 0'
changed week.txt another_word.txt 4 'SHIFT_OFF_REQUESTS : 0'
solution unknown 'Bob Mon Day Nurse'
solution twice 'Ann Wed Day Nurse' 'Ann Wed Day Nurse'
{ cat "$room/nobody"; echo more; } > "$room/more"
{ cat "$room/scenario.txt"; head -c 4194304 /dev/zero | tr '\0' ' '; } > "$room/too_long.txt"

refuses 'a scenario' 1 'scenario line 2: out of limits' encode --sce too_many_weeks.txt --his history.txt --week week.txt
refuses 'a scenario that is too long' 1 'scenario: out of limits' encode --sce too_long.txt --his history.txt --week week.txt
refuses 'a history' 1 'history line 4: number expected' encode --sce scenario.txt --his no_number.txt --week week.txt
refuses 'a week' 1 'week line 4: another word expected' encode --sce scenario.txt --his history.txt --week another_word.txt
refuses 'held cells' 1 'fix line 6: repeated' encode "${week[@]}" --fix twice
refuses 'a roster' 1 'solution line 5: unknown name' extend "${week[@]}" --from unknown
refuses 'a roster with text after its end' 1 'solution line 5: text after the end' extend "${week[@]}" --from more
refuses 'a roster that is cut' 1 'solution line 5: end of file' extend "${week[@]}" --from cut

# The same faults after more lines than 16 bits count: the fault is reported with its line, and memory suffices.
head -c 70000 /dev/zero | tr '\0' '\n' > "$room/lines"
for file in scenario.txt history.txt week.txt nobody too_many_weeks.txt no_number.txt another_word.txt unknown; do
    cat "$room/lines" "$room/$file" > "$room/far_$file"
done
far=(--sce far_scenario.txt --his far_history.txt --week far_week.txt)
run 'files that begin with 70000 empty lines' 0 model nothing encode "${far[@]}" --fix far_nobody
refuses 'a scenario, far down' 1 'scenario line 70002: out of limits' encode --sce far_too_many_weeks.txt --his history.txt --week week.txt
refuses 'a history, far down' 1 'history line 70004: number expected' encode --sce scenario.txt --his far_no_number.txt --week week.txt
refuses 'a week, far down' 1 'week line 70004: another word expected' encode --sce scenario.txt --his history.txt --week far_another_word.txt
refuses 'held cells, far down' 1 'fix line 70005: unknown name' encode "${week[@]}" --fix far_unknown
refuses 'a roster, far down' 1 'solution line 70005: unknown name' extend "${week[@]}" --from far_unknown
{ printf 'Ann Full 1 '; head -c 1100000 /dev/zero | tr '\0' n; } > "$room/long_word"
{ head -n 11 "$room/scenario.txt"; cat "$room/long_word"; } > "$room/long_skill.txt"
refuses 'an unknown skill of more than a mebibyte' 1 'scenario line 12: unknown name' encode --sce long_skill.txt --his history.txt --week week.txt
finish
