# shellcheck shell=bash
# Runs scripts in parallel, and counts their seconds and cases. To be sourced.
# The decimal point is a point in any language.
export LC_NUMERIC=C
parts=$(mktemp -d) || exit 2
trap 'rm -rf "$parts"' EXIT
passed=0
failed=0
skipped=0

# The number of scripts at a time: the number of processors, at most four.
lanes=$(nproc)
lanes=$((lanes < 4 ? lanes : 4))

# count PASSED FAILED SKIPPED
count() {
    passed=$((passed + $1))
    failed=$((failed + $2))
    skipped=$((skipped + $3))
}

# count_line STATUS LINE: adds the counts of a command's last line, `N passed, M failed` or `N passed, M failed, K skipped`; a
# status other than 0 is a failure even if the line counts none.
count_line() {
    local good=0 bad=0 left=0
    if [[ $2 =~ ^([0-9]+)' passed, '([0-9]+)' failed'(', '([0-9]+)' skipped')? ]]; then
        good=${BASH_REMATCH[1]} bad=${BASH_REMATCH[2]} left=${BASH_REMATCH[4]:-0}
    fi
    [ "$1" = 0 ] || [ "$bad" -gt 0 ] || bad=1
    count "$good" "$bad" "$left"
}

# script ROW FILE [WORD]: runs the script, prints its output, and writes its row of the table to the file ROW. A script that
# does not reach its end fails.
script() {
    local row=$1 wall processor cases bad left status TIMEFORMAT='%R %U %S'
    shift
    { time TALLY=$row.tally "$@" > "$row.out" 2>&1; } 2> "$row.time"
    status=$?
    cat "$row.out"
    read -r wall processor < <(tail -n 1 "$row.time" | awk '{ print $1, $2 + $3 }')
    read -r cases bad left 2> /dev/null < "$row.tally" || { cases=0 bad=$((status != 0)) left=0; }
    [ "$bad" -le "$cases" ] || cases=$bad
    printf '%-28s %8.1f %12.1f %8s %7s %8s\n' "$1${2:+ $2}" "$wall" "$processor" $((cases - bad)) "$bad" "${left:-0}" > "$row"
}

# The scripts, those of tests/kit left out. The slowest come first, so that others run at the same time.
scripts() {
    printf '%s\n' python/tests/checks.sh tests/program/longest_model.sh {python/tests,tests/{pages,program,random}}/*.sh |
        awk '!seen[$0]++'
}

# all_scripts [llvm | rattle | PROGRAM]..: each script, with each of these words; for `rattle` without those of pages, Python and the manual,
# whose result does not depend on the compiler, and without those of tests/random, which run both programs side by side.
all_scripts() {
    local file word number=100 row good bad left
    [ $# -gt 0 ] || set -- llvm
    # Not by each program that a script starts, if the caller wants Python to keep no compiled files.
    python3 -m compileall -qq python/inrc2pb
    for word; do
        for file in $(scripts); do
            [ "$word" != rattle ] || [[ $file != @(python/tests/*|tests/pages/*|tests/random/*|tests/program/manual.sh) ]] || continue
            number=$((number + 1))
            while [ "$(jobs -rp | wc -l)" -ge "$lanes" ]; do wait -n; done
            script "$parts/$number" "$file" "$word" &
        done
    done
    wait
    for row in "$parts"/[0-9][0-9][0-9]; do
        read -r good bad left < <(awk '{ print $(NF - 2), $(NF - 1), $NF }' "$row")
        count "$good" "$bad" "$left"
    done
}

count_of_all() { echo "$passed passed, $failed failed, $skipped skipped"; }

# Prints the table, the skipped cases with their reasons, and in the last line how many cases passed, failed and were skipped.
print_parts() {
    printf '\n%-28s %8s %12s %8s %7s %8s\n' script 'wall s' 'processor s' passed failed skipped
    if ls "$parts"/101 > /dev/null 2>&1; then
        cat "$parts"/[0-9][0-9][0-9]
        cat "$parts"/*.out | grep '^skipped: ' | sort -u
    fi
    count_of_all
}
