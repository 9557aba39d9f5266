#!/usr/bin/env bash
# Tests what no contract says: which file goes to which reader, in which order files are opened, outputs of many buffers,
# devices that fill up or go away in the middle, limits on files, outputs that are inputs or the same file, streams that are
# closed or do not block.
#
#   tests/program/wiring.sh [llvm | rattle | PROGRAM]
#
# Needs bash, the usual tools of a shell, and Python 3.11 for a terminal.
. "$(dirname "$0")/../kit/kit.sh"

# The week of five nurses: its model and an answer to it are many buffers long.
example=$PWD/examples/n005w4
cp "$example"/week0.opb "$room/five.opb"
cp "$example"/ward.txt "$room/five_scenario.txt"
cp "$example"/history-0.txt "$room/five_history.txt"
cp "$example"/week-0.txt "$room/five_week.txt"
printf 's SATISFIABLE\nv x8 x1\n' > "$room/answer.txt"
report report SATISFIABLE
line write_failed 'inrc2pb: write failed'
line no_status 'inrc2pb: answer: no status line or a second one'

five=(--sce five_scenario.txt --his five_history.txt --week five_week.txt)

# misreads WHAT FILE WORD..: a fault of this file, in its first line, whatever is in the others.
misreads() { refuses "$1" 1 "$2 line 1: another word expected" "${@:3}"; }

# Swaps each pair of files: the fault has the name of the first of the two that is read.
swaps_files_of() {
    misreads "$1: scenario and history swapped" scenario "$@" --sce history.txt --his scenario.txt --week week.txt
    misreads "$1: scenario and week swapped" scenario "$@" --sce week.txt --his history.txt --week scenario.txt
    misreads "$1: history and week swapped" history "$@" --sce scenario.txt --his week.txt --week history.txt
    misreads "$1: the history as week" week "$@" --sce scenario.txt --his history.txt --week history.txt
}

swaps_files() {
    swaps_files_of encode
    swaps_files_of decode --sol unmade
    swaps_files_of extend --from monday
    misreads 'the roster as scenario' scenario extend --sce monday --his history.txt --week week.txt --from scenario.txt
    misreads 'the roster and the week swapped' week extend --sce scenario.txt --his history.txt --week monday --from week.txt
    misreads 'the week as roster' solution extend "${week[@]}" --from week.txt
    misreads 'the answer as scenario' scenario decode --sce answer.txt --his history.txt --week week.txt --sol unmade --answer scenario.txt
    refuses 'the scenario as answer' 1 'answer: no status line or a second one' decode "${week[@]}" --sol unmade --answer scenario.txt
}

writes_many_buffers() {
    run 'many buffers to standard output' 0 five.opb nothing encode "${five[@]}"
    run 'many buffers to a file' 0 nothing nothing encode "${five[@]}" --opb many.opb
    holds many.opb five.opb
    begins_case 'many buffers through a pipe that is read slowly'
    (cd "$room" && "$program" encode "${five[@]}" | { head -c 5000; sleep 0.2; cat; }) | cmp -s - "$room/five.opb" || complain 'another text'
    begins_case 'files that come in pieces'
    (cd "$room" && { head -c 40 five_week.txt; sleep 0.1; tail -c +41 five_week.txt; } |
        "$program" encode --sce five_scenario.txt --his five_history.txt --week /dev/stdin) | cmp -s - "$room/five.opb" || complain 'another text'
    rm -f "$room/many.opb"
}

# begins FILE: the last run left a beginning of the model there, and not all of it.
begins() {
    local size
    size=$(stat -c %s "$room/$1")
    [ "$size" -lt "$(stat -c %s "$room/five.opb")" ] || complain "$1 is whole"
    head -c "$size" "$room/five.opb" | cmp -s - "$room/$1" || complain "$1 holds something else"
}

fills_devices() {
    local limit
    # With 45 blocks the write of the last buffer is short, and none follows it.
    for limit in 1 4 5 40 45; do
        begins_case "a file of at most $limit blocks"
        (cd "$room" && trap '' XFSZ && ulimit -f $limit && exec "$program" encode "${five[@]}" --opb cut.opb > out 2> err)
        [ $? = 3 ] || complain 'another status'
        holds err write_failed
        begins cut.opb
        (cd "$room" && trap '' XFSZ && ulimit -f $limit && exec "$program" encode "${five[@]}" > cut.opb 2> err)
        [ $? = 3 ] || complain 'another status on standard output'
        begins cut.opb
        rm -f "$room/cut.opb"
    done
    begins_case 'a pipe that is closed early'
    # A pipe with a name, whose one reader is gone before the program starts.
    mkfifo "$room/pipe"
    # shellcheck disable=SC2094
    (cd "$room" && exec 3<> pipe 4> pipe 3>&- && exec "$program" encode "${five[@]}" >&4 2> err)
    [ $? = 3 ] || complain 'another status'
    holds err write_failed
    rm -f "$room/pipe"
    mkdir -p "$room/small"
    if mount -t tmpfs -o size=16k tmpfs "$room/small" 2> "$room/err"; then
        refuses 'a small file system' 3 'write failed' encode "${five[@]}" --opb small/cut.opb
        begins small/cut.opb
        head -c 4096 /dev/zero > "$room/small/left" 2> "$room/err"
        refuses 'a solution on a full file system' 3 'write failed' decode "${week[@]}" --sol small/solution --answer answer.txt
        umount "$room/small"
    fi
}

# beyond_limit WORD..: runs the program in the room, with files of at most four blocks and the default action of the signal for
# more. It ends by that signal, without a word.
beyond_limit() {
    { (cd "$room" && ulimit -c 0 -f 4 && exec env --default-signal=XFSZ "$program" "$@" < /dev/null > "$out" 2> err); } 2> /dev/null
    [ $? = $((128 + $(kill -l XFSZ))) ] || complain 'not ended by the signal'
    [ ! -s "$room/err" ] || complain "on standard error: $(head -c 300 "$room/err")"
}

# is_cut FILE: it holds as much of the model as fits into four blocks.
is_cut() {
    begins "$1"
    [ "$(stat -c %s "$room/$1")" = 4096 ] || complain "$1 has other bytes than fit"
}

ends_by_signal() {
    begins_case 'a model beyond the limit on files'
    cp "$room/five_scenario.txt" "$room/cut.opb"
    beyond_limit encode "${five[@]}" --opb cut.opb
    is_cut cut.opb
    begins_case 'a model beyond the limit on files, on standard output'
    out=$room/cut.opb beyond_limit encode "${five[@]}"
    is_cut cut.opb
    begins_case 'a fault before the limit is reached'
    line kept 'an older file'
    cp "$room/kept" "$room/cut.opb"
    (cd "$room" && ulimit -f 4 && exec "$program" encode "${five[@]:0:4}" --week cut.opb --opb cut.opb 2> err)
    [ $? = 1 ] || complain 'another status'
    holds cut.opb kept
    rm -f "$room/cut.opb"
}

# opens_first ONE OTHER WORD..: the program opens the file ONE before OTHER. They are two pipes, and the second is filled
# only after the first was opened; a program that opened OTHER first would wait forever.
opens_first() {
    local ended
    begins_case "$3: $1 is opened before $2"
    rm -f "$room/one" "$room/other"
    mkfifo "$room/one" "$room/other"
    (cd "$room" && { cat "$1" > one; cat "$2" > other; }) &
    (cd "$room" && exec timeout 5 "$program" "${@:3}" > out 2> err)
    ended=$?
    [ $ended = 0 ] || { complain "status $ended: $(cat "$room/err")"; kill $! 2> /dev/null; }
    wait $! 2> /dev/null
    rm -f "$room/one" "$room/other"
}

opens_in_order() {
    solution nobody
    printf 's SATISFIABLE\nv x8\n' > "$room/sound.txt"
    opens_first scenario.txt history.txt encode --sce one --his other --week week.txt
    opens_first history.txt week.txt encode --sce scenario.txt --his one --week other
    opens_first week.txt nobody encode "${week[@]:0:4}" --week one --fix other
    opens_first week.txt sound.txt decode "${week[@]:0:4}" --week one --answer other --sol solution
    opens_first nobody sound.txt decode "${week[@]}" --fix one --answer other --sol solution
    opens_first week.txt nobody extend "${week[@]:0:4}" --week one --from other
    rm -f "$room/solution"
}

# The files are read before an output is made, so an output may be an input.
writes_over_inputs() {
    cp "$room/scenario.txt" "$room/both.txt"
    run 'the scenario as output' 0 nothing nothing encode --sce both.txt --his history.txt --week week.txt --opb both.txt
    holds both.txt model
    cp "$room/answer.txt" "$room/both.txt"
    run 'the answer as output' 0 report nothing decode "${week[@]}" --answer both.txt --sol both.txt
    holds both.txt monday
    line kept 'an older file'
    cp "$room/kept" "$room/both.txt"
    refuses 'an older file where the answer has a fault' 1 'answer: no status line or a second one' decode "${week[@]}" --answer both.txt --sol both.txt
    holds both.txt kept
    ln -s both.txt "$room/link"
    run 'a link as output' 0 nothing nothing encode "${week[@]}" --opb link
    holds both.txt model
}

# An output that exists is written anew and not replaced by another file: it keeps its links, its permissions and its owner.
keeps_the_file() {
    local before
    cp "$room/scenario.txt" "$room/older.opb"
    ln "$room/older.opb" "$room/linked.opb"
    chmod 640 "$room/older.opb"
    [ "$(id -u)" != 0 ] || chown 65534:65534 "$room/older.opb"
    before=$(stat -c 'number %i, %h links, mode %a, owner %u:%g' "$room/older.opb")
    run 'an older file as output' 0 nothing nothing encode "${week[@]}" --opb older.opb
    [ "$(stat -c 'number %i, %h links, mode %a, owner %u:%g' "$room/older.opb")" = "$before" ] || complain "it was: $before"
    holds linked.opb model
    rm -f "$room/older.opb" "$room/linked.opb"
}

# over FIRST SECOND NAME: the file NAME has FIRST, and then the part of SECOND after its length.
over() { { cat "$room/$1"; tail -c +$(($(stat -c %s "$room/$1") + 1)) "$room/$2"; } > "$room/$3"; }

# Paths are not compared: the program refuses no words because they name the same file. docs/answers.md says what happens then.
names_one_file_twice() {
    local all=("${days[@]/#/Ann }") rows
    rows=("${all[@]/%/ Day Nurse}")
    solution long_roster "${rows[@]}"
    printf 's SATISFIABLE\nv x8 x1 x2 x3 x4 x5 x6 x7\n' > "$room/all_days.txt"
    over report long_roster mixed
    out=$room/both.txt run 'a solution and a report to one file' 0 nothing nothing decode "${week[@]}" --answer all_days.txt --sol both.txt
    holds both.txt mixed
    out=$room/both.txt run 'a solution to /dev/stdout, which is a file' 0 nothing nothing decode "${week[@]}" --answer all_days.txt --sol /dev/stdout
    holds both.txt mixed
    cat "$room/long_roster" "$room/report" > "$room/one_by_one"
    begins_case 'a solution to /dev/stdout, which is a pipe'
    (cd "$room" && "$program" decode "${week[@]}" --answer all_days.txt --sol /dev/stdout | cat) | cmp -s - "$room/one_by_one" || complain 'another text'
    begins_case 'a model to /dev/stdout, which appends to a file'
    cp "$room/kept" "$room/both.txt"
    (cd "$room" && exec "$program" encode "${week[@]}" --opb /dev/stdout >> both.txt 2> err) || complain 'another status'
    holds both.txt model
    run 'a file called -' 0 nothing nothing encode "${week[@]}" --opb -
    holds - model
    rm -f "$room/-" "$room/both.txt"
}

# A read that would have to wait for more is a failed read.
reads_without_waiting() {
    begins_case 'a standard input that does not block and has no data yet'
    (cd "$room" && exec python3 - "$program" 2> err <<'END'
import os, subprocess, sys
reader, writer = os.pipe()
os.set_blocking(reader, False)
words = [sys.argv[1], 'decode', '--sce', 'scenario.txt', '--his', 'history.txt', '--week', 'week.txt', '--sol', 'unmade']
sys.exit(subprocess.run(words, stdin=reader, timeout=15).returncode)
END
    )
    [ $? = 3 ] || complain 'another status'
    line read_failed 'inrc2pb: read failed'
    holds err read_failed
    is_missing unmade
}

# refuses_nobody WHAT STATUS FAULT WORD..: the same as `refuses`, without the rights of root.
refuses_nobody() {
    local program=$program
    if [ "$(id -u)" = 0 ]; then
        printf '#!/bin/sh\nexec setpriv --reuid 65534 --regid 65534 --clear-groups "%s" "$@"\n' "$room/program" > "$room/nobody"
        cp "$program" "$room/program"
        chmod 755 "$room" "$room/nobody" "$room/program"
        program=$room/nobody
    fi
    refuses "$@"
}

lacks_rights() {
    cp "$room/scenario.txt" "$room/secret.txt"
    chmod 000 "$room/secret.txt"
    refuses_nobody 'a file that may not be read' 3 'read failed' encode --sce secret.txt --his history.txt --week week.txt
    mkdir -p "$room/closed"
    chmod 555 "$room/closed"
    refuses_nobody 'a folder that may not be written' 3 'write failed' encode "${week[@]}" --opb closed/week.opb
    line old.opb 'an older file'
    cp "$room/old.opb" "$room/kept"
    chmod 444 "$room/old.opb"
    refuses_nobody 'a file that may not be written' 3 'write failed' encode "${week[@]}" --opb old.opb
    holds old.opb kept
    rm -rf "$room/closed" "$room/secret.txt" "$room/old.opb"
}

# A closed standard input is an empty answer; a closed standard output is one that can't be written.
closes_streams() {
    local ended
    rm -f "$room/solution"
    begins_case 'standard input closed'
    (cd "$room" && exec "$program" decode "${week[@]}" --sol solution <&- > out 2> err)
    ended=$?
    [ $ended = 1 ] || complain "status $ended"
    holds err no_status
    is_missing solution
    begins_case 'standard output closed'
    (cd "$room" && exec "$program" encode "${five[@]}" < /dev/null >&- 2> err)
    ended=$?
    [ $ended = 3 ] || complain "status $ended"
    holds err write_failed
    begins_case 'standard output closed, the solution to a file'
    (cd "$room" && exec "$program" decode "${week[@]}" --sol solution --answer answer.txt >&- 2> err)
    ended=$?
    [ $ended = 3 ] || complain "status $ended"
    holds solution monday
    rm -f "$room/solution"
}

answers_at_a_terminal() {
    begins_case 'an answer typed at a terminal'
    (cd "$room" && timeout 20 python3 - "$program" > out 2> err <<'END'
import os, pty, subprocess, sys
master, terminal = pty.openpty()
words = [sys.argv[1], 'decode', '--sce', 'scenario.txt', '--his', 'history.txt', '--week', 'week.txt', '--sol', 'solution']
run = subprocess.Popen(words, stdin=terminal, stdout=subprocess.PIPE)
os.write(master, b's SATISFIABLE\nv x8 x1\n\x04')
sys.stdout.write(run.communicate(timeout=15)[0].decode())
sys.exit(run.returncode)
END
    ) || complain 'another status'
    holds out report
    holds solution monday
    rm -f "$room/solution"
}

# Long words: a path that is too long does not open, and a long command line is read.
reads_long_words() {
    local long many i
    long=$(printf 'x%.0s' {1..5000})
    refuses 'a path that is too long' 3 'read failed' encode --sce "$long" --his history.txt --week week.txt
    refuses 'an output whose path is too long' 3 'write failed' encode "${week[@]}" --opb "$long"
    many=()
    for i in {1..2000}; do many+=("word$i"); done
    run 'two thousand words too many' 2 nothing text encode "${week[@]}" "${many[@]}"
    long=$(printf './%.0s' {1..1500})
    run 'paths of thousands of bytes' 0 nothing nothing encode --sce "${long}scenario.txt" --his "${long}history.txt" --week "${long}week.txt" --opb "${long}long.opb"
    rm -f "$room/long.opb"
}

swaps_files
writes_many_buffers
fills_devices
ends_by_signal
opens_in_order
writes_over_inputs
keeps_the_file
names_one_file_twice
reads_without_waiting
lacks_rights
closes_streams
answers_at_a_terminal
reads_long_words
finish
