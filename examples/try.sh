#!/usr/bin/env bash
# Compiles the program without proving anything, and runs `encode` and `decode` on the week of five nurses.
#
#   examples/try.sh
#
# Needs Rattle's command `rt`. Takes about a minute, and keeps no program.
set -u
cd "$(dirname "$0")/../crates/inrc2pb" || exit 2
command -v rt > /dev/null || {
    echo "There is no command rt: the kit of Rattle has it, which docs/build.md names. Once it is unpacked, add its folder bin to PATH."
    exit 2
}

week=../../examples/n005w4
files=(
    --data "ward.txt=$week/ward.txt" --data "history-0.txt=$week/history-0.txt"
    --data "week-0.txt=$week/week-0.txt" --data "clasp.txt=$week/answers/clasp-optimum.txt"
)
files_of_week=(--sce ward.txt --his history-0.txt --week week-0.txt)
room=$(mktemp -d) || exit 2
trap 'rm -rf "$room"' EXIT
mkdir "$room/cases"

# runs NAME WORD..: `rt try` runs the program on these words; the file of the case's name is its standard input.
runs() {
    : > "$room/cases/$1"
    printf '%s\n' "${@:2}" > "$room/cases/$1.args"
}

# show NAME LINES: the words of this run, and the first lines that the program printed.
show() {
    awk -v name="$1" '$0 == "== " name { inside = 1; next } /^case=/ { inside = 0 } inside' "$room/all" > "$room/out"
    printf '\n$ inrc2pb %s\n' "$(paste -s -d ' ' "$room/cases/$1.args")"
    head -n "$2" "$room/out" | cut -c 1-100
    printf '(%s lines in all)\n' "$(wc -l < "$room/out")"
}

echo 'Compiling, without a proof: about a minute ..'
runs encode encode "${files_of_week[@]}"
runs decode decode "${files_of_week[@]}" --answer clasp.txt --sol roster.txt
rt try "${files[@]}" --cases "$room/cases" > "$room/all" 2>&1
[ "$(grep -c '^case=.* run=ended status=0 ' "$room/all")" = 2 ] || { cat "$room/all"; exit 1; }
show encode 4
show decode 12
printf '\nNothing was proved: this was the program as it compiles. "make" proves it and leaves it at out/inrc2pb.\n'
