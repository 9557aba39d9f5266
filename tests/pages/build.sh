#!/usr/bin/env bash
# Runs build.py on small crates with a stand-in for `rt`, and checks the crates that it proves, their order and jobs, what it
# leaves, and how it ends after a failure and a signal.
#
#   tests/pages/build.sh [llvm | rattle | PROGRAM]
#
# Needs bash, the usual tools of a shell and Python 3.11.
. "$(dirname "$0")/../kit/kit.sh"
. "$(dirname "$0")/../kit/stand_ins.sh"

# It writes its calls and its ends to `calls`. A file `fails.NAME` makes a crate fail; with a file `waits` a crate takes a minute.
stand_in rt << 'END_OF_RT'
#!/usr/bin/env bash
name=$(basename "$PWD")
told() { echo "$*" >> "$CALLS/calls"; }
case $1 in
    version) echo 'kit of the test'; exit ;;
esac
told "begins $name $3"
for crate in ../*; do
    [ "$(basename "$crate")" = "$name" ] || [ -s "$crate/out/rlib/stamp" ] || told "missing $crate"
done
if [ -e "$CALLS/fails.$name" ]; then echo "error: no proof of $name"; exit 1; fi
if [ -e "$CALLS/waits" ]; then sleep 60 & echo $! >> "$CALLS/sleepers"; trap 'kill $!; exit 143' TERM; wait $!; fi
sleep 0.2
mkdir -p out/rlib
case $1 in
    lib) rm -f out/rlib/stamp; cat src/* > out/rlib/stamp ;;
    run) [ -z "$5" ] || [ -f "$5" ] || told "no $5"; cat src/* ../*/out/rlib/stamp > "out/$name"; chmod +x "out/$name" ;;
esac
told "ends $name $3"
END_OF_RT

# A program over a chain of three libraries, another over one of them, and a crate that none of them uses.
ward=$room/ward
mkdir -p "$ward/crates"
cp build.py HANDLES "$ward"
printf '%s\n' '# The crates' 'top: base middle upper kit' 'other: base side' 'upper: middle base' 'middle: base' 'side: base' 'base: kit' \
    'unused: base' > "$ward/crates.txt"
for crate in base middle side unused upper; do
    mkdir -p "$ward/crates/$crate/src"
    echo "library $crate" > "$ward/crates/$crate/src/lib.rt"
done
for crate in top other; do
    mkdir -p "$ward"/crates/$crate/{src,data}
    echo "program $crate" > "$ward/crates/$crate/src/main.rt"
done
echo input > "$ward/crates/other/data/input.txt"
echo input.txt > "$ward/crates/other/args"

# builds WHAT STATUS [COMMAND..]: runs the build there, after these words.
builds() {
    begins_case "$1"
    local ended
    rm -f "$room/calls"
    touch "$room/calls"
    CALLS=$room PATH=$room/bin:$PATH "${@:3}" "$ward/build.py" program=top second=other > "$room/out" 2> "$room/err"
    ended=$?
    [ $ended = "$2" ] || complain "status $ended, not $2: $(cat "$room/err")"
    is_missing ward/out/rooms
    ! grep -E '^(missing|no) ' "$room/calls" || complain 'a file was missing'
}

# proves NAME..: the last build proved these crates, sorted, and no others.
proves() {
    local names
    names=$(sed -n 's/^begins \([a-z]*\) .*/\1/p' "$room/calls" | sort | tr '\n' ' ')
    [ "$names" = "${*:+$* }" ] || complain "it proved $names"
}

# Of the calls the first is before the second.
comes_before() {
    awk -v one="$1" -v other="$2" '$0 ~ one { seen = 1 } $0 ~ other && !seen { bad = 1 } END { exit bad }' "$room/calls" || complain "$2 before $1"
}

# The most jobs at a time in the last build.
most_jobs() { awk '$1 == "begins" { now += $3 } $1 == "ends" { now -= $3 } now > most { most = now } END { print most + 0 }' "$room/calls"; }

tells() { grep -qF -- "$1" "$room/$2" || complain "no '$1' in its output: $(cat "$room/$2")"; }

first_builds() {
    local lanes
    for lanes in 1 2 4; do
        [ "$(nproc)" -ge "$lanes" ] || { skips 2 "needs $lanes processors"; continue; }
        rm -rf "$ward/out" "$ward"/crates/*/out
        builds "a first build on $lanes processors" 0 taskset -c 0-$((lanes - 1))
        proves base middle other side top upper
        [ "$(most_jobs)" = "$lanes" ] || complain "$(most_jobs) jobs at a time"
        comes_before 'ends base' 'begins middle'
        comes_before 'ends base' 'begins side'
        comes_before 'ends middle' 'begins upper'
        # The longest chain comes first.
        [ "$lanes" -gt 1 ] || comes_before 'begins middle' 'begins side'
        grep -qx "begins base $lanes" "$room/calls" || complain 'the only crate has not all processors'
        [ "$lanes" -lt 4 ] || grep -qx 'begins middle 2' "$room/calls" || complain 'one of two crates has not half of the processors'
        comes_before 'ends upper' 'begins top'
        tells '6 of 6 crates: all crates are proved' out
        [ "$(head -n 1 "$ward/out/program")" = 'program top' ] || complain 'another program'
        [ -x "$ward/out/second" ] || complain 'a program cannot be run'
        builds 'a second build' 0
        proves
    done
}

later_builds() {
    echo changed >> "$ward/crates/middle/src/lib.rt"
    builds 'a changed crate' 0
    proves middle top upper
    grep -qx changed "$ward/out/program" || complain 'the program is as before'
    echo other > "$ward/crates/other/out/other"
    builds 'another program in the folder of its crate' 0
    proves other
    begins_case 'a library'
    echo changed >> "$ward/crates/upper/src/lib.rt"
    CALLS=$room PATH=$room/bin:$PATH "$ward/build.py" upper > "$room/out" 2> "$room/err" || complain "$(cat "$room/err")"
    builds 'the programs above it' 0
    proves top
    rm -r "$ward/crates/side/out"
    builds 'a crate without its proofs' 0
    proves side
    touch "$ward/crates/side/out/kept"
    mkdir -p "$ward/out/rooms/side/crates/side"
    mv "$ward/crates/side/out" "$ward/out/rooms/side/crates/side"
    builds 'after a build that was killed' 0
    proves
    [ -e "$ward/crates/side/out/kept" ] || complain 'its proofs are lost'
}

failed_builds() {
    echo more >> "$ward/crates/base/src/lib.rt"
    touch "$room/fails.middle"
    builds 'a crate that is not proved' 1
    tells 'error: no proof of middle' err
    tells 'build.py: middle is not proved: what rt said is above (its status is 1)' err
    ! grep -q 'begins upper' "$room/calls" || complain 'it went on'
    rm "$room/fails.middle"
    builds 'the same when it can be proved' 0
    ! grep -q 'begins base' "$room/calls" || complain 'what was proved is not kept'
    begins_case 'a program that does not exist'
    "$ward/build.py" program=upper > "$room/out" 2> "$room/err" && complain 'status 0'
    tells 'build.py: the crate upper is no program' err
    begins_case 'a crate that does not exist'
    "$ward/build.py" lower > "$room/out" 2> "$room/err" && complain 'status 0'
    tells 'build.py: crates.txt has no crate lower' err
    begins_case 'no kit'
    PATH=$room/none "$(python3 -c 'import sys; print(sys.executable)')" "$ward/build.py" program=top > "$room/out" 2> "$room/err" &&
        complain 'status 0'
    tells "build.py: there is no command rt: the kit of Rattle has it" err
    begins_case 'no programs'
    "$ward/build.py" > "$room/out" 2> "$room/err"
    [ $? = 2 ] || complain 'another status'
}

# stops SIGNAL: while a crate is being proved.
stops() {
    local build sleeper count=0
    begins_case "signal $1"
    echo more >> "$ward/crates/base/src/lib.rt"
    rm -f "$room/sleepers"
    touch "$room/waits"
    CALLS=$room PATH=$room/bin:$PATH python3 -c 'import os, signal, sys; signal.signal(signal.SIGINT, signal.default_int_handler)
os.execvp(sys.argv[1], sys.argv[1:])' "$ward/build.py" program=top second=other > "$room/out" 2> "$room/err" &
    build=$!
    while [ ! -s "$room/sleepers" ] && [ $((count += 1)) -lt 100 ]; do sleep 0.1; done
    begins_case 'another build at the same time'
    "$ward/build.py" program=top > "$room/out.other" 2> "$room/err.other" && complain 'status 0'
    tells 'build.py: another build is at work in this clone' err.other
    kill "-$1" $build
    wait $build
    [ $? = 130 ] || complain 'another status'
    rm "$room/waits"
    tells 'build.py: stopped; what was proved is kept' err
    is_missing ward/out/rooms
    while read -r sleeper; do
        [[ ! -d /proc/$sleeper || $(ps -o stat= -p "$sleeper") == Z* ]] || complain 'a process is left'
    done < "$room/sleepers"
}

first_builds
later_builds
failed_builds
stops INT
stops TERM
finish
