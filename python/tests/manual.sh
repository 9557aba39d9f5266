#!/usr/bin/env bash
# Compares the options in the manual pages of the Python programs with their help, but for --help and --version, and checks that
# docs/answers.md explains each fault.
#
#   python/tests/manual.sh [llvm | rattle | PROGRAM]
#
# Needs Python 3.11 with NumPy.
. "$(dirname "$0")/../../tests/kit/kit.sh"

# The options on standard input, one a line.
options() { grep -oE -- '--[a-zA-Z0-9-]+' | sort -u | grep -vxE -e '--(help|version)'; }

# explained COMMAND [VERB]: the options that its manual page explains, in the section of the verb if there is one.
explained() {
    awk -v verb="${2:-}" '/^\.S[hs] / { inside = verb == "" || $2 == verb; next }
        inside && /^\.It / { gsub(/Fl -/, "--"); print }' "man/$1.1" | options
}

# shown COMMAND [WORD]: the options of its help.
shown() { "python/$1" "${@:2}" --help | grep -E '^ +-' | options; }

# explains WHAT EXPLAINED SHOWN
explains() {
    begins_case "the options of $1 in the manual page"
    [ "$2" = "$3" ] || complain "$(diff <(echo "$2") <(echo "$3"))"
}

manual_has_each_option() {
    local verb word
    explains inrc2pb-plan "$(explained inrc2pb-plan)" "$(shown inrc2pb-plan)"
    for verb in $(python/inrc2pb-roster --help | sed -n 's/^  \([a-z]*\)  .*/\1/p'); do
        explains "inrc2pb-roster $verb" "$(explained inrc2pb-roster "$verb")" "$(shown inrc2pb-roster "$verb")"
    done
    explains inrc2pb-solve "$(explained inrc2pb-solve)" \
        "$(for word in '' --inrc2 --model --answer; do shown inrc2pb-solve ${word:+"$word"}; done | sort -u)"
}

# Each fault in the table of docs/answers.md has a usual cause in its row.
explains_each_fault() {
    begins_case 'the faults that docs/answers.md explains'
    awk -F '|' '/^\| fault \| text \|/ { inside = 1; next } inside && !/^\|/ { exit } inside && !/^\|-/ { rows += 1; if ($5 ~ /^ *$/) print $3 }
        END { if (rows < 20) print rows + 0, "rows" }' docs/answers.md > "$room/unexplained"
    [ ! -s "$room/unexplained" ] || complain "docs/answers.md does not explain $(cat "$room/unexplained")"
}

manual_has_each_option
explains_each_fault
finish
