#!/usr/bin/env bash
# Compares the last line of a check, as docs/trusted.md shows it, with that of this tree: each word and its value, but for the
# number of functions. Each word of the line is explained on the page.
#
#   tests/pages/verdict.sh [llvm | rattle | PROGRAM]
#
# The line comes from $GATE_LOG, the output of `rt ci`, or else of `rt check` over what the last check of crates/inrc2pb kept, which
# proves only what changed since; if neither exists, the page alone is checked. Needs bash and the usual tools of a shell.
. "$(dirname "$0")/../kit/kit.sh"
page=docs/trusted.md

# The block of the page that shows the line, on one line.
shown() { awk '/^```/ { inside = !inside; next } inside && /^logic=/ { found = 1 } inside && found' $page | tr -d '\n'; }

# The last line of the check of `inrc2pb` in the output of `rt ci`, or of a check here. The gate uses no work of `rt check`, so
# its line has no word for that.
real() {
    if [ -s "${GATE_LOG:-}" ]; then
        sed -n '/^== inrc2pb$/,/^rt: inrc2pb /p' "$GATE_LOG" | grep '^logic=' | sed 's/$/ incremental=trusted/'
    elif [ -d crates/inrc2pb/out/incremental ]; then
        (cd crates/inrc2pb && rt check --jobs 1 2>&1) | tail -n 1
    fi
}

# The line without the number of functions.
plain() { sed 's/ functions=[0-9]*/ functions=N/'; }

begins_case 'the last line of a check'
line=$(real)
if [ -n "$line" ]; then
    [ "$(plain <<< "$line")" = "$(shown | plain)" ] || complain "shown is $(shown), and real $line"
else
    echo "$script: no check to compare with: only the page is checked"
fi
for word in $(shown); do
    begins_case "the word ${word%%=*}"
    grep -q "^| .*\`${word%%=*}\(=[^\`]*\)\{0,1\}\`.* | ..* |\$" $page || complain "not explained in $page"
done
finish
