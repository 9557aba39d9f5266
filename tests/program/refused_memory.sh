#!/usr/bin/env bash
# Refuses each allocation in turn, up to the first run that meets no refusal, of the program and of the tests of refused
# memory. Each run, refused or whole, frees every block that it allocated.
#
#   tests/program/refused_memory.sh [llvm | rattle | PROGRAM]
#
# A refused run of the program ends as `out of memory` with nothing written. The only exceptions are growths ahead of need,
# by std's `collect` and in clap's suggestions: such a run goes on without the room, and ends just as a run with ample
# memory does. A test of a run, a reader, a roster, truth values or an answer always passes. Its first line says that memory
# ran out, whatever fault comes later in the files; without a refusal it has the findings of the test.
#
# Also runs the tests of `run_tests` and `call_tests`, as LLVM builds them. Needs bash, the usual tools of a shell,
# and a C compiler: $CC, else cc, else the clang of Rattle's kit.
. "$(dirname "$0")/../kit/kit.sh"
needs_bound
whole_runs=crates/run_tests/out/run_tests_tests
tables=crates/call_tests/out/call_tests_tests
if [ -z "$ending" ]; then
    needs $whole_runs
    needs $tables
fi

kit_clang() { echo "$(dirname "$(realpath "$(command -v rt)")")/../toolchain/bin/clang"; }
"${CC:-$(command -v cc || kit_clang)}" -O1 -shared -fPIC -o "$room/refuse.so" tests/kit/refused_allocations.c || exit 2
refusals=0
went_on=0
runs=0

# refuse NUMBER COMMAND WORD..: runs it in the room with the allocation of this number refused. Its status goes to $ended,
# and the number of blocks that it never freed to $live.
refuse() {
    [ ! -e "$room/made" ] || rm "$room/made"
    (cd "$room" && REFUSED=$1 LD_PRELOAD=$room/refuse.so exec "${@:2}" < /dev/null > out 2> err 8> live 9> refused)
    ended=$?
    read -r live < "$room/live" || live=unknown
    runs=$((runs + 1))
}

# sweep IS_RIGHT COMMAND WORD..: refuses each allocation of the command in turn. IS_RIGHT says of each run whether it ended
# as it has to: of those with a `refused` allocation, and of the last one, which is `whole`. Their number goes to $number.
sweep() {
    local is_right=$1
    shift
    for ((number = 1; ; number++)); do
        refuse $number "$@"
        [ -s "$room/refused" ] || break
        refusals=$((refusals + 1))
        $is_right refused || complain "allocation $number refused: status $ended: $(cat "$room/out" "$room/err" | head -c 200)"
        [ "$live" = 0 ] || complain "allocation $number refused: blocks that were never freed: $live"
    done
    [ $number -gt 1 ] || complain 'no allocation at all'
    $is_right whole || complain "without a refusal: status $ended: $(cat "$room/out" "$room/err" | head -c 200)"
    [ "$live" = 0 ] || complain "without a refusal: blocks that were never freed: $live"
}

# Of the program: a refused run is for memory, or like the run with ample memory.
is_like_ample() {
    local stream
    [ $ended = "$ample" ] || return 1
    for stream in out err made; do cmp -s "$room/$stream" "$room/ample_$stream" || return 1; done
}
# If there are several weeks, the line may name one of them. There are thousands of runs, so no command is started for what bash can compare.
says_memory() {
    local told
    IFS= read -r -d '' told < "$room/err"
    [[ $told =~ ^$program_name(': week '[0-9]+)?': out of memory'$'\n'$ ]]
}
ends_for_memory() { [ $ended = 4 ] && says_memory && ! [ -s "$room/out" ] && ! [ -e "$room/made" ]; }
ends_right() {
    if [ "$1" = refused ] && ends_for_memory; then return; fi
    [ "$1" = whole ] || went_on=$((went_on + 1))
    [ -e "$room/made" ] || : > "$room/made"
    is_like_ample
}

# sweep_program WHAT GO_ON STATUS STDOUT MADE WORD..: sweeps the program. After GO_ON of the refusals it goes on, `some` for any
# number. With ample memory it has this status and output, and its file `made` equals MADE.
sweep_program() {
    local go_on=$2 before=$went_on wants_err=nothing
    ample=$3
    [ "$ample" = 0 ] || wants_err=text
    rm -f "$room/made"
    run "$1" "$ample" "$4" $wants_err "${@:6}"
    [ -e "$room/made" ] || : > "$room/made"
    [ "$5" = text ] || holds made "$5"
    for stream in out err made; do mv "$room/$stream" "$room/ample_$stream"; done
    sweep ends_right "$program" "${@:6}"
    [ "$go_on" = some ] || [ $((went_on - before)) = "$go_on" ] || complain "$((went_on - before)) refusals went on, not $go_on"
}

# The first line of a test says that memory ran out, or what the test found.
tells() {
    local wanted=$found first
    [ "$1" = whole ] || wanted='out of memory'
    IFS= read -r first < "$room/out"
    [ $ended = 0 ] && [ "$first" = "$wanted" ]
}

# Of a test of many runs: the line of one of them says that memory ran out, and each other one what that run finds.
tells_one() {
    local out_of_memory=1
    [ "$1" != whole ] || out_of_memory=0
    [ $ended = 0 ] && awk -v wanted=$out_of_memory '
        NR == FNR { found[NR] = $0; rows = NR; next }
        FNR > rows || $0 == found[FNR] { next }
        { others += $0 == "out of memory" ? 1 : 2 }
        END { exit FNR < rows || others + 0 != wanted }' "$room/found" "$room/out"
}

# sweeps_test PROGRAM NAME FOUND: sweeps a test of this program, which finds this.
sweeps_test() {
    begins_case "$2"
    found=$3
    swept=$((swept + 1))
    sweep tells "$1" "$2"
}
table() { sweeps_test "$PWD/$tables" "refused_tables::$1" "$2"; }

# sweeps_runs LINE..: sweeps the test of many runs; each run finds these lines.
sweeps_runs() {
    printf '%s\n' "$@" > "$room/found"
    begins_case 'refused_memory::runs'
    swept=$((swept + 1))
    sweep tells_one "$PWD/$whole_runs" refused_memory::runs
}

# number_of PROGRAM MODULE: how many tests it has there.
number_of() { "$1" --list | grep -c "^$2::.*: test$"; }

cp examples/n005w4/*.txt examples/n005w4/week0.opb examples/n005w4/answers/sat4j.txt "$room"
five=(--sce ward.txt --his history-0.txt --week week-0.txt)
closed_week=(--sce closed.txt --his history.txt --week week.txt)
printf '%s\r\n' 'c hello' 'd 1 2' 'o 5' 's OPTIMUM FOUND' 'v x1 -x2' 'v -x3 x1 -x4' 'v -x5 -x6 x8 ' > "$room/answer.txt"
report answer_report 'OPTIMUM FOUND' last=5
head -n 10 "$room/scenario.txt" > "$room/cut_scenario.txt"
printf '%s\n' 'o 15' 's SATISFIABLE' 'v x1 -x2 -x3 -x4 -x5 -x6 -x7 x8 x9 -x10' 'v -x11 -x12 -x13 -x14 -x15' > "$room/monday_answer"

# Two refusals alone go on in a whole run: those of the lists of words that `main` makes. Each refusal in `job`, a reader or
# an engine ends it.
sweep_program 'one nurse' 2 0 model nothing encode "${week[@]}"
sweep_program 'one nurse, to a file' 2 0 nothing model encode "${week[@]}" --opb made
sweep_program 'five nurses' 2 0 week0.opb nothing encode "${five[@]}"
sweep_program 'no words' some 2 nothing nothing
sweep_program 'help' some 0 text nothing --help
sweep_program 'the version' some 0 text nothing --version
sweep_program 'a word that is refused' some 2 nothing nothing solve
sweep_program 'a missing option' some 2 nothing nothing encode --sce ward.txt
sweep_program 'an answer for one nurse' 2 0 answer_report monday decode "${week[@]}" --answer answer.txt --sol made
sweep_program 'a roster of one nurse' 2 0 monday_answer nothing extend "${closed_week[@]}" --from monday
sweep_program 'an answer' 2 0 text text decode "${five[@]}" --answer sat4j.txt --sol made
cp "$room/ample_made" "$room/roster"
sweep_program 'a roster' 2 0 text nothing extend "${five[@]}" --from roster

# Runs with a fault, one for each set of tables that the program may hold.
line held_unknown 'SOLUTION 0 s1 ASSIGNMENTS = 1 Bob Mon Day Nurse'
printf '%s\n' 's SATISFIABLE' 'v x8 x1 -x1' > "$room/both_values"
printf '%s\n' 's UNSATISFIABLE' > "$room/no_roster"
printf '%s\n' 's SATISFIABLE' 'v x1' > "$room/unmet"
{ cat "$room/week.txt"; echo more; } > "$room/more_week.txt"
sweep_program 'a scenario that is cut' 2 1 nothing nothing encode --sce cut_scenario.txt --his history.txt --week week.txt
sweep_program 'a week with text after its end' 2 1 nothing nothing encode --sce scenario.txt --his history.txt --week more_week.txt
sweep_program 'a late week' 2 1 nothing nothing encode --sce scenario.txt --his late.txt --week week.txt
sweep_program 'held cells' 2 0 text nothing encode "${week[@]}" --fix wednesday
sweep_program 'held cells of an unknown nurse' 2 1 nothing nothing encode "${week[@]}" --fix held_unknown
sweep_program 'an answer with both values' 2 1 nothing nothing decode "${week[@]}" --answer both_values --sol made
sweep_program 'an answer without a roster' 2 5 nothing nothing decode "${week[@]}" --answer no_roster --sol made
sweep_program 'an answer that satisfies nothing' 2 6 nothing nothing decode "${week[@]}" --answer unmet --sol made
sweep_program 'a roster that lacks a held cell' 2 6 nothing nothing extend "${week[@]}" --fix wednesday --from monday
sweep_program 'a scenario that is missing' 2 3 nothing nothing encode --sce missing --his history.txt --week week.txt
sweep_program 'an output in no folder' 2 3 nothing nothing encode "${week[@]}" --opb missing/made

sweep_program 'an empty answer' some 1 nothing nothing decode "${five[@]}" --answer nothing --sol made

begins_case 'an answer of one long line makes no more allocations than an empty one'
(printf c; head -c 10000000 /dev/zero | tr '\0' x) > "$room/long_answer"
refuse $number "$program" decode "${five[@]}" --answer long_answer --sol made
[ ! -s "$room/refused" ] || complain 'it makes more'

encoder=$program
program=$bound program_name=inrc2pb-bound
sweep_program 'a bound, and a roster' 2 0 text nothing "${five[@]}" --proof certificate.txt --roster roster
sweep_program 'the minimums of held cells' 2 0 text nothing "${week[@]}" --fix wednesday --minimums
printf '%s\n' CERTIFICATE s1 'WEEKS = 2' 'PRICES = 2' 'ROWS = 1' 'Day Nurse 1 1 1 1 1 1 1' 'ROWS = 0' 'ROWS = 0' 'ROWS = 0' 'LEAVES = 3' \
    'SPLIT CHOICE 1 Ann Mon None' 'LEAF 0 SURCHARGES = 0' 'SPLIT CHARGES SHIFTS ALL 3' 'LEAF 1 SURCHARGES = 2 0 5000' 'LEAF 1 SURCHARGES = 0' \
    > "$room/tree"
printf '%s\n' FACTS s1 'ROWS = 2' 'HOLDS CHOICE 2 Ann Tue Day' 'NOT PLACE 2 Tue Day Nurse 0' > "$room/facts"
solution tuesday "${all_days[1]}"
two_weeks=("${week[@]}" --week week.txt --given facts --proof tree)
sweep_program 'a bound of two weeks by cases, and rosters' 2 0 text nothing "${two_weeks[@]}" --roster nobody --roster tuesday
sweep_program 'rosters that break a given fact' 2 6 nothing nothing "${two_weeks[@]}" --roster tuesday --roster nobody
sweep_program 'the minimums of two weeks' 2 0 text nothing "${two_weeks[@]}" --fix 2=tuesday --minimums
sweep_program 'a week too many' 2 1 nothing nothing "${week[@]}" --week week.txt --week week.txt
sweep_program 'a roster too few' 2 2 nothing nothing "${two_weeks[@]}" --roster nobody
sweep_program 'a certificate with text after its end' 2 1 nothing nothing "${five[@]}" --proof more_week.txt
printf '%s\n' CERTIFICATE s1 'WEEKS = 1' 'PRICES = 1' 'ROWS = 0' 'LEAVES = 3' 'SPLIT EVEN' 'SPLIT EVEN' 'LEAF 0 SURCHARGES = 0'{,,} > "$room/repeated"
sweep_program 'a certificate with a fact twice on a path' 2 1 nothing nothing "${week[@]}" --proof repeated
program=$encoder program_name=inrc2pb

if [ -z "$ending" ]; then
    swept=0
    # The runs that are whole, and those with a fault at the end of a file.
    sweeps_runs 'done' 'done' 'done' \
        'scenario line 12: unknown name' \
        'history line 5: text after the end' \
        'week line 5: text after the end' \
        'history: week not below WEEKS' \
        'fix line 5: unknown name' \
        'solution line 5: unknown name' \
        'roster breaks H5' \
        'answer: variable out of range' \
        'constraint 9 is not satisfied'
    sweeps_test "$PWD/$whole_runs" refused_memory::readers '2 cells'
    table scenario_read '(2, 1)'
    table scenario_copied '(2, 1)'
    table history_read 1
    table week_read 7
    table certificate_read 3
    table facts_read 2
    table solution_read 1
    table new_roster 0
    table rosters_held_in_turn 0
    table new_bits '(65, false)'
    table new_answer 'an answer'
    table whole_answer 'Ok(Said { status: Optimum, last_o: Some(5), values: [true, false, false, false, false, false, false, true] })'
    begins_case 'all tests of refused memory'
    [ $swept = $(($(number_of $whole_runs refused_memory) + $(number_of $tables refused_tables))) ] || complain 'one is not swept'
fi
echo "$script: $refusals refusals, of which $went_on went on without the room; live blocks were counted after $runs runs"
finish
