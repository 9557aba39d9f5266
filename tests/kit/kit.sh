# shellcheck shell=bash
# The kit of the scripts of tests/: it runs the built program on files, and checks its exit status and output. A script
# sources it with the script's own words:
#
#   . "$(dirname "$0")/../kit/kit.sh"           SCRIPT [llvm | rattle | PROGRAM]
#
# `llvm`, or no word, is the program as LLVM builds it, and `rattle` as Rattle's own compiler does, as the gate and
# `make programs` leave them. A script ends with `finish`. Expected texts come from docs/formats.md, docs/answers.md,
# docs/rules.md and docs/model.md.
# shellcheck disable=SC2034  # The scripts use what the kit sets.
set -u
script=$(basename "$0")
given=${1:-llvm}
# A path is relative to the folder in which the script was started.
[ ! -f "$given" ] || given=$(realpath "$given")
cd "$(dirname "${BASH_SOURCE[0]}")/../.." || exit 2

# needs FILE: ends the script if the file was not built.
needs() {
    [ -x "$1" ] || { echo "$script: there is no $1: 'make programs' builds it"; exit 2; }
}

case $given in
    llvm) program=crates/inrc2pb/out/inrc2pb ending='' ;;
    rattle) program=crates/inrc2pb/out/inrc2pb.by-rattle ending=.by-rattle ;;
    *) program=$given ending='' ;;
esac
needs "$program"
program=$(realpath "$program")

room=$(mktemp -d) || exit 2
trap 'rm -rf "$room"' EXIT

# The numbers of cases that were checked, that failed and that were skipped. $what names the present case.
checked=0
failed=0
skipped=0
what='the files'
in=/dev/null
seconds=
# The name of the program in its faults.
program_name=inrc2pb
out=$room/out
err=$room/err

complain() {
    echo "FAILED: $(basename "$program"): $what: $*"
    failed=$((failed + 1))
}

# begins_case WHAT: begins the case of this name.
begins_case() {
    what=$1
    checked=$((checked + 1))
}

# skips CASES WHY: this number of cases is not tried.
skips() {
    echo "skipped: $script: $2 ($1)"
    skipped=$((skipped + $1))
}

# has COMMAND [CASES]: the command is installed; otherwise this number of cases, or one, is skipped.
has() {
    command -v "$1" > /dev/null && return
    skips "${2:-1}" "needs $1"
    return 1
}

# Prints the numbers of cases. In a run of all scripts they also go to the file that $TALLY names.
finish() {
    echo "$script: $checked cases, $failed failed, $skipped skipped"
    [ -z "${TALLY:-}" ] || echo "$checked $failed $skipped" > "$TALLY"
    [ $((checked + skipped)) -gt 0 ] && [ "$failed" = 0 ]
}

# ---- Files of the room.

# line NAME TEXT: a file that has one line.
line() { printf '%s\n' "$2" > "$room/$1"; }

# changed FILE NAME [LINE TEXT]..: the file under another name, with other lines; TEXT as sed has it, with \n.
changed() {
    local file=$room/$1 name=$2 edits=(-e '')
    shift 2
    while [ $# -gt 0 ]; do
        edits+=(-e "$1s/.*/$2/")
        shift 2
    done
    sed "${edits[@]}" "$file" > "$room/$name"
}

# filled FILE NAME BYTES: the file under another name, filled up with blanks to this number of bytes.
filled() { { cat "$room/$1"; head -c $(($3 - $(stat -c %s "$room/$1"))) /dev/zero | tr '\0' ' '; } > "$room/$2"; }

# solution NAME [ROW..]: a solution file of the week of the base, as `decode` writes it.
solution() {
    {
        printf 'SOLUTION\n0 s1\n\nASSIGNMENTS = %s\n' $(($# - 1))
        [ $# = 1 ] || printf '%s\n' "${@:2}"
    } > "$room/$1"
}

# The soft rules, in their order.
read -ra soft_rules < <(PYTHONPATH=python python3 -c 'from inrc2pb.week.soft_rules import SOFT_RULES; print(*SOFT_RULES)')

# costs_of [RULE=COST]..: a line for each soft rule with its cost, 0 where none is given; of two the last one counts.
costs_of() {
    local rule cost told=" $* "
    for rule in "${soft_rules[@]}"; do
        cost=0
        [[ $told != *" $rule="* ]] || { cost=${told##* "$rule"=}; cost=${cost%% *}; }
        echo "$rule $cost"
    done
}

# penalty_of [RULE=COST]..: their sum.
penalty_of() { costs_of "$@" | awk '{ sum += $2 } END { print sum }'; }

# report NAME STATUS [objective=NUMBER] [last=NUMBER] [RULE=COST]..: the report of an answer; its objective is the penalty
# where none is given.
report() {
    local file=$room/$1 status=$2 objective='' last='' costs=() word
    shift 2
    for word; do
        case $word in
            objective=*) objective=${word#*=} ;;
            last=*) last=${word#*=} ;;
            *) costs+=("$word") ;;
        esac
    done
    set -- "${costs[@]}"
    {
        printf 'status %s\nobjective %s\npenalty %s\n' "$status" "${objective:-$(penalty_of "$@")}" "$(penalty_of "$@")"
        costs_of "$@"
        [ -z "$last" ] || echo "last o $last"
    } > "$file"
}

# model NAME ROWS [min:OBJECTIVE] [ROW..]: the model of the rows of the file ROWS and of these, with the objective where
# there is one. Its first line is counted from them.
model() {
    local file=$room/$1 rows=$room/$2
    shift 2
    {
        case ${1:-} in min:*) echo "$1"; shift ;; esac
        cat "$rows"
        [ $# = 0 ] || printf '%s\n' "$@"
    } > "$file.rows"
    {
        awk '{ rows += !/^min:/; for (at = 1; at <= NF; at++) if ($at ~ /^x/ && substr($at, 2) + 0 > most) most = substr($at, 2) + 0 }
            END { printf "* #variable= %d #constraint= %d\n", most, rows }' "$file.rows"
        cat "$file.rows"
    } > "$file"
}

# ---- Runs.

# The stream $1 was kept in the file $2: it holds `nothing`, `text`, or what the file $3 of the room does.
check_stream() {
    case $3 in
        text) [ -s "$2" ] || complain "nothing on $1" ;;
        *) cmp -s "$2" "$room/$3" || complain "on $1: $(head -c 300 "$2")" ;;
    esac
}

# run WHAT STATUS STDOUT STDERR [WORD..]: runs the program in the room, from $in to $out and $err. After $seconds, if set, it is ended.
run() {
    begins_case "$1"
    local status=$2 wants_out=$3 wants_err=$4 ended
    shift 4
    : > "$room/out"
    : > "$room/err"
    (cd "$room" && exec ${seconds:+timeout "$seconds"} "$program" "$@" < "$in" > "$out" 2> "$err")
    ended=$?
    [ $ended = "$status" ] || complain "status $ended, not $status"
    [ "$out" != "$room/out" ] || check_stream 'standard output' "$out" "$wants_out"
    [ "$err" != "$room/err" ] || check_stream 'standard error' "$err" "$wants_err"
}

# refuses WHAT STATUS FAULT WORD..: the program ends so, with this fault as its one line, and makes no file `unmade`.
refuses() {
    line fault "$program_name: $3"
    run "$1" "$2" nothing fault "${@:4}"
    is_missing unmade
}

# misused WHAT MISTAKE WORD..: the program refuses the words, and names this mistake first.
misused() {
    local told
    run "$1" 2 nothing text "${@:3}"
    told=$(head -n 1 "$room/err")
    [ "$told" = "error: $2" ] || complain "told: $told"
    [ -z "$(tail -c 1 "$room/err")" ] || complain 'the last line has no end'
}
lacking='the following required arguments were not provided:'

# holds FILE WANTED: the file that the last run may have written.
holds() { cmp -s "$room/$1" "$room/$2" || complain "$1 does not hold $2"; }

is_missing() {
    [ ! -e "$room/$1" ] || complain "$1 was made"
    rm -f "$room/$1"
}

# has_line LINE: the last run printed it.
has_line() { grep -qxF -- "$1" "$room/out" || complain "no line '$1'"; }

# ---- The program `inrc2pb-bound`, built by the same compiler if there is such a build.

needs_bound() {
    bound=${BOUND:-crates/inrc2pb_bound/out/inrc2pb_bound}
    [ ! -x "$bound$ending" ] || bound=$bound$ending
    needs "$bound"
    bound=$(realpath "$bound")
}

# ---- The values of public calls: runs of `call_report`, built by the same compiler if there is such a build.

needs_reporter() {
    reporter=${WEEK_REPORT:-crates/call_report/out/call_report}
    [ ! -x "$reporter$ending" ] || reporter=$reporter$ending
    needs "$reporter"
    reporter=$(realpath "$reporter")
}

# reports WHAT STDOUT [--early] [--fix FILE] SCENARIO HISTORY WEEK [ROSTER]
reports() {
    local program=$reporter
    run "$1" 0 "$2" nothing "${@:3}"
}

# ---- The base: a week of one nurse, one shift type and one skill, its model, and what more than one script takes of it.

cp crates/inrc2pb/data/{scenario,history,week}.txt "$room"
cp crates/inrc2pb/stdout "$room/model"
: > "$room/nothing"
week=(--sce scenario.txt --his history.txt --week week.txt)

# The rows of the unit variable and of H1.
tail -n +2 "$room/model" > "$room/one_cell"

# A shift type that nobody should work; two shift types.
changed scenario.txt closed.txt 6 'Day (1,0)'
changed scenario.txt two_shifts.txt 5 'SHIFT_TYPES = 2' 6 'Early (1,9) Late (1,9)' 8 'Early 0 Late 0'
# Ten to fifteen assignments in the two weeks.
changed scenario.txt fifteen.txt 10 'Full (10,15) (1,9) (1,9) 9 0'
# The week after the last one; twelve assignments before the week.
changed history.txt late.txt 2 '2 s1'
changed history.txt twelve.txt 4 'Ann 12 0 None 0 0 0'

days=(Mon Tue Wed Thu Fri Sat Sun)
mapfile -t all_days < <(printf 'Ann %s Day Nurse\n' "${days[@]}")
solution nobody
solution monday "${all_days[0]}"
solution wednesday "${all_days[2]}"
solution all_days "${all_days[@]}"
# A roster that ends in line 5, in the middle of its row.
head -c -7 "$room/wednesday" > "$room/cut"
