#!/usr/bin/env bash
# Records each call with which the programs open, read or write. Each file is opened once, for one use, in the order of the
# checks, and read to its end and no further; an output is opened at its first write, with the mode 666, and gets a write for
# each full buffer and one for the rest; after a failed call there is no other call to the same file. Then each of these calls
# fails in turn, once as if a signal had interrupted it (EINTR), once as on a broken device (EIO), and of two runs once as on a
# device that did not answer in time (ETIMEDOUT): the program repeats none, and the run ends as a failed read or write. After a
# signal Rattle's library itself repeats an open, and the texts of help and faults.
#
#   tests/program/calls.sh [llvm | rattle | PROGRAM]
#
# Needs bash, the usual tools of a shell, and a C compiler: $CC, else cc, else the clang of Rattle's kit.
. "$(dirname "$0")/../kit/kit.sh"
needs_bound

kit_clang() { echo "$(dirname "$(realpath "$(command -v rt)")")/../toolchain/bin/clang"; }
"${CC:-$(command -v cc || kit_clang)}" -O1 -shared -fPIC -o "$room/told.so" tests/kit/told_calls.c || exit 2

cp examples/n005w4/*.txt examples/n005w4/week0.opb examples/n005w4/answers/sat4j.txt "$room"
five=(--sce ward.txt --his history-0.txt --week week-0.txt)

# makes_calls WORD..: runs the program, and keeps its calls. Its status goes to $ended.
makes_calls() {
    (cd "$room" && LD_PRELOAD=$room/told.so exec "$program" "$@" < "$in" > "$out" 2> "$err" 9> calls)
    ended=$?
}

# calls WHAT STATUS WORD..: a case in which the program makes its calls and ends with this status.
calls() {
    local ended
    begins_case "$1"
    makes_calls "${@:3}"
    [ "$ended" = "$2" ] || complain "status $ended, not $2"
}

# opens FILE..: they are opened to be read.
opens() { printf 'open %s read\n' "$@"; }

# reads FILE [NAME]: it is read to its end, under this name.
reads() {
    local rest
    rest=$(stat -c %s "$room/$1")
    for ((; rest > 4096; rest -= 4096)); do echo "read ${2:-$1} 4096"; done
    [ "$rest" = 0 ] || echo "read ${2:-$1} $rest"
    echo "read ${2:-$1} 0"
}

# opens_week and reads_week WORD..: the files of the week, and others that are opened and read after them.
opens_week() { opens ward.txt history-0.txt week-0.txt "$@"; }
reads_week() { for file in ward.txt history-0.txt week-0.txt "$@"; do reads "$file"; done; }

# The calls equal the file `wanted`, which has only the first of several writes in a row to one file, without its number of
# bytes.
are() {
    sed -E 's/^(write .*) [0-9]+$/\1/' "$room/calls" | awk '!/^write/ || $0 != last { print } { last = $0 }' > "$room/told"
    cmp -s "$room/told" "$room/wanted" || complain "other calls: $(diff "$room/told" "$room/wanted" | head -n 5)"
}

# fills NAME FILE: these bytes went there in as few writes as full buffers and a rest are.
fills() {
    local size
    size=$(stat -c %s "$room/$2")
    awk -v wanted="write $1" -v size="$size" '
        index($0, wanted " ") == 1 { sent += $NF; if (writes++ && last < 4080) short = 1; last = $NF }
        END { exit sent != size || short || writes != int((size + 4095) / 4096) }' "$room/calls" || complain "other writes to $1"
}

does_jobs() {
    calls 'a model to a file' 0 encode "${five[@]}" --opb made
    { opens_week; reads_week; printf '%s\n' 'open made write:666' 'write made'; } > "$room/wanted"
    are
    fills made week0.opb
    calls 'a model to standard output' 0 encode "${five[@]}"
    { opens_week; reads_week; echo 'write output'; } > "$room/wanted"
    are
    fills output week0.opb
    calls 'an answer in a file' 0 decode "${five[@]}" --answer sat4j.txt --sol roster
    { opens_week sat4j.txt; reads_week sat4j.txt; printf '%s\n' 'open roster write:666' 'write roster' 'write output'; } > "$room/wanted"
    are
    fills roster roster
    in=$room/sat4j.txt calls 'an answer on standard input' 0 decode "${five[@]}" --sol again
    { opens_week; reads_week; reads sat4j.txt input; printf '%s\n' 'open again write:666' 'write again' 'write output'; } > "$room/wanted"
    are
    calls 'a roster, and cells that are held' 0 extend "${five[@]}" --fix roster --from again
    { opens_week roster again; reads_week roster again; echo 'write output'; } > "$room/wanted"
    are
    fills output out
}

fails() {
    calls 'no such scenario' 3 encode --sce missing --his history-0.txt --week week-0.txt --opb unmade
    { opens missing; echo 'write errors'; } > "$room/wanted"
    are
    calls 'no such answer' 3 decode "${five[@]}" --answer missing --sol unmade
    { opens_week missing; echo 'write errors'; } > "$room/wanted"
    are
    calls 'a folder as history' 3 encode --sce ward.txt --his . --week week-0.txt --opb unmade
    { opens ward.txt . week-0.txt; reads ward.txt; printf '%s\n' 'read . -1' 'write errors'; } > "$room/wanted"
    are
    calls 'an answer without a status' 1 decode "${five[@]}" --answer nothing --sol unmade
    { opens_week nothing; reads_week nothing; echo 'write errors'; } > "$room/wanted"
    are
    is_missing unmade
    calls 'an output in no folder' 3 encode "${five[@]}" --opb missing/made
    { opens_week; reads_week; printf '%s\n' 'open missing/made write:666' 'write errors'; } > "$room/wanted"
    are
    calls 'a full device' 3 encode "${five[@]}" --opb /dev/full
    { opens_week; reads_week; printf '%s\n' 'open /dev/full write:666' 'write /dev/full -1' 'write errors'; } > "$room/wanted"
    are
    calls 'a solution to a full device' 3 decode "${five[@]}" --answer sat4j.txt --sol /dev/full
    { opens_week sat4j.txt; reads_week sat4j.txt; printf '%s\n' 'open /dev/full write:666' 'write /dev/full -1' 'write errors'; } > "$room/wanted"
    are
    out=/dev/full calls 'a full standard output' 3 encode "${five[@]}"
    { opens_week; reads_week; printf '%s\n' 'write output -1' 'write errors'; } > "$room/wanted"
    are
}

# ends_at CALL STATUS: this call of a run failed. The run made the calls of the file `wanted`, and this one last, and reported
# the failure; if the report failed, the run ends with its usual status.
ends_at() {
    local status=3 fault='read failed'
    case $1 in
        'write errors '*) status=$2 fault='' ;;
        write* | open*' write:'*) fault='write failed' ;;
    esac
    [ "$ended" = "$status" ] || complain "status $ended, not $status"
    if [ -n "$fault" ]; then
        line fault "$program_name: $fault"
        echo "write errors $(stat -c %s "$room/fault")" >> "$room/wanted"
        holds err fault
    fi
}

# is_repeated CASE CALL: Rattle's library makes this call again when a signal interrupts it.
is_repeated() {
    case $2 in
        open* | 'write errors '*) return 0 ;;
        *) [ "$1" = help ] ;;
    esac
}

# refuses_each ERROR NUMBER CASE STATUS WORD..: runs the program, and then once for each of its calls, with that call refused
# for this error, whose number is NUMBER.
refuses_each() {
    local error=$1 whole at call kind ended
    local -A made=()
    calls "$3" "$4" "${@:5}"
    mapfile -t whole < "$room/calls"
    for at in "${!whole[@]}"; do
        call=${whole[at]}
        kind=${call%% *}
        made[$kind]=$((${made[$kind]:-0} + 1))
        begins_case "$3: $error at $kind ${made[$kind]}: ${call#* }"
        printf '%s\n' "${whole[@]:0:at}" "${call% *} refused" > "$room/wanted"
        rm -f "$room/made"
        FAILS="$kind ${made[$kind]}" ERRNO=$2 makes_calls "${@:5}"
        if [ "$error" = EINTR ] && is_repeated "$3" "$call"; then
            printf '%s\n' "${whole[@]:at}" >> "$room/wanted"
            [ "$ended" = "$4" ] || complain "status $ended, not $4"
        else
            ends_at "$call" "$4"
        fi
        cmp -s "$room/calls" "$room/wanted" || complain "other calls: $(diff "$room/calls" "$room/wanted" | head -n 5)"
    done
}

# refuses_main_calls ERROR NUMBER: of runs that open, create, and read standard input.
refuses_main_calls() {
    rm -f "$room/made"
    refuses_each "$@" 'a model to a file' 0 encode "${five[@]}" --opb made
    in=$room/sat4j.txt refuses_each "$@" 'an answer on standard input' 0 decode "${five[@]}" --sol made
}

refuses_calls() {
    refuses_main_calls "$@"
    refuses_each "$@" 'a model to standard output' 0 encode "${five[@]}"
    refuses_each "$@" 'an answer in a file' 0 decode "${five[@]}" --answer sat4j.txt --sol made
    refuses_each "$@" 'a roster, and cells that are held' 0 extend "${five[@]}" --fix roster --from again
    refuses_each "$@" 'a history with a fault' 1 encode --sce ward.txt --his week-0.txt --week week-0.txt
    refuses_each "$@" help 0 --help
    refuses_each "$@" 'words that are refused' 2 encode
}

# The calls of `inrc2pb-bound`: all its files are opened before one is read, and its text is one write.
bounds_rosters() {
    local program=$bound program_name=inrc2pb-bound files=(roster facts certificate.txt roster) words
    words=("${five[@]}" --fix roster --given facts --proof certificate.txt --roster roster)
    printf '%s\n' FACTS n005w4 'ROWS = 0' > "$room/facts"
    calls 'a bound' 0 "${words[@]}"
    { opens_week "${files[@]}"; reads_week "${files[@]}"; echo 'write output'; } > "$room/wanted"
    are
    fills output out
    calls 'a bound of two weeks, each with its held cells' 0 "${five[@]}" week-0.txt --fix 2=again --fix 1=roster
    { opens_week roster week-0.txt again; reads_week roster week-0.txt again; echo 'write output'; } > "$room/wanted"
    are
    calls 'no such roster' 3 "${five[@]}" --proof certificate.txt --roster missing
    { opens_week certificate.txt missing; echo 'write errors'; } > "$room/wanted"
    are
    calls 'a certificate with a fault' 1 "${five[@]}" --proof facts --roster roster
    { opens_week facts roster; reads_week facts; echo 'write errors'; } > "$room/wanted"
    are
    refuses_each EINTR 4 'a bound' 0 "${words[@]}"
    refuses_each EIO 5 'a bound' 0 "${words[@]}"
    refuses_each EIO 5 help 0 --help
}

does_jobs
fails
bounds_rosters
refuses_calls EINTR 4
refuses_calls EIO 5
refuses_main_calls ETIMEDOUT 110
calls 'help' 0 --help
echo 'write output' > "$room/wanted"
are
calls 'words that are refused' 2 encode
echo 'write errors' > "$room/wanted"
are
finish
