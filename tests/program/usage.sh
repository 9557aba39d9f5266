#!/usr/bin/env bash
# Runs the program on words and on the files of `encode`, and checks its exit status, its output and its files.
#
#   tests/program/usage.sh [llvm | rattle | PROGRAM]
#
# Needs bash and the usual tools of a shell.
. "$(dirname "$0")/../kit/kit.sh"

line version "inrc2pb $(sed -n 's/^## //p' CHANGELOG.md | head -n 1)"

# The place of each thing that a help text promises: a line of a page of docs/, and a line of the manual page.
declare -A line_of_page=(
    [files]='^## The files, slot by slot$' ['files of the week']='^## The files, slot by slot$' [roster]='^## The files, slot by slot$'
    [model]='^## The OPB text$' [answer]='^## Answers of solvers$'
    ['solution file']='^- \*\*A solution file\*\* ' [report]='^- \*\*The report of .decode.\*\* ' [faults]='^| fault | text | status |'
    ['exit statuses']='^| fault | text | status |'
)
declare -A line_of_manual=(
    [files]='^\.It scenario$' ['files of the week']='^\.It week$' [roster]='^\.It solution$'
    [model]='^\.It model$' [answer]='^\.It answer$'
    ['solution file']='^\.It solution$' [report]='^\.It report$' [faults]='^\.Sh EXIT STATUS$' ['exit statuses']='^\.Sh EXIT STATUS$'
)

# The help that was shown last ends with an example of the command, and with a line that says where more is said, as `The
# THING, the THING and the THING: inrc2pb(1), PAGE, PAGE.` Each thing is in one of the pages, and in the manual page; each page
# has one of them.
ends_with_example() {
    local last things thing page pages found
    grep -A 1 '^Example:$' "$room/out" | grep -q -- "inrc2pb $1 --sce " || complain 'no example'
    last=$(tail -n 1 "$room/out")
    [[ $last =~ ^The\ ([a-z, ]+):\ inrc2pb\(1\),\ ([a-z/., ]+)\.$ ]] || { complain "not said where more is said: $last"; return; }
    things=${BASH_REMATCH[1]//, the /$'\n'}
    IFS=' ' read -ra pages <<< "${BASH_REMATCH[2]//,/}"
    for page in "${pages[@]}"; do
        found=0
        while IFS= read -r thing; do
            grep -qe "${line_of_page[$thing]:-nowhere}" "$page" && found=1
        done <<< "${things// and the /$'\n'}"
        [ $found = 1 ] || complain "nothing of this is in $page"
    done
    while IFS= read -r thing; do
        grep -qe "${line_of_page[$thing]:-nowhere}" "${pages[@]}" || complain "the $thing: in none of ${pages[*]}"
        grep -qe "${line_of_manual[$thing]:-nowhere}" man/inrc2pb.1 || complain "the $thing: not in the manual page"
    done <<< "${things// and the /$'\n'}"
}

# tells_options SUBCOMMAND OPTION..: its help has a line for each option.
tells_options() {
    local subcommand=$1 help option
    shift
    for help in --help -h; do
        run "$subcommand $help" 0 text nothing "$subcommand" "$help"
        for option; do
            grep -q -e "^ *$option <FILE>  *[A-Z]" "$room/out" || complain "no line for $option"
        done
        grep -q -e '^ *--early  *[A-Z]' "$room/out" || complain 'no line for --early'
        ends_with_example "$subcommand"
    done
}

# says SUBCOMMAND SENTENCE [OPTION HELP]..: its help begins with the sentence, has one list of options, and says this of these
# options, and what all commands say of the files of a week.
says() {
    local subcommand=$1 sentence=$2
    run "what $subcommand does" 0 text nothing "$subcommand" --help
    head -n 1 "$room/out" | grep -qxF -- "$sentence" || complain 'another sentence'
    grep -q "^Usage: inrc2pb $subcommand " "$room/out" || complain 'another usage'
    set -- "${@:3}" sce 'The scenario' his 'The history before the week' week 'The requirements and requests of the week' \
        fix 'Assignments to keep, as a solution file'
    while [ $# -gt 0 ]; do
        tr -s ' ' < "$room/out" | grep -qxF -e " --$1 <FILE> $2" || complain "another line for --$1"
        shift 2
    done
    [ "$(grep ':$' "$room/out")" = $'Options:\nExample:' ] || complain 'other headings'
    tr -s ' ' < "$room/out" | grep -qx ' --early Charge excess assignments and weekends as soon as they occur' || complain 'another line for --early'
}

asks_for_help() {
    local help subcommand
    run 'no words' 2 nothing text
    cp "$room/err" "$room/help"
    for help in --help -h; do
        run "$help" 0 help nothing "$help"
        for subcommand in encode decode extend; do
            grep -q "^ *$subcommand  *[A-Z]" "$room/out" || complain "no line for $subcommand"
        done
        ends_with_example encode
    done
    tells_options encode --sce --his --week --fix --opb
    tells_options decode --sce --his --week --fix --sol --answer
    tells_options extend --sce --his --week --fix --from
    says encode 'Writes the week as a pseudo-Boolean model' opb 'Where to write the model, replacing the file [default: standard output]'
    says decode "Turns a solver's answer into a solution file, and reports its costs" \
        sol 'Where to write the solution, replacing the file' answer "The solver's answer [default: standard input]"
    says extend "Turns a roster into a solver's answer" from 'The roster, as a solution file'
    run 'the version' 0 version nothing --version
    out=/dev/full refuses 'help that cannot be written' 3 'write failed' --help
    out=/dev/full refuses 'a version that cannot be written' 3 'write failed' --version
}

takes_no_other_words() {
    local subcommand
    misused 'an unknown word' "unrecognized subcommand 'solve'" solve
    misused 'help as a word' "unrecognized subcommand 'help'" help
    for subcommand in encode decode extend; do
        misused "no options of $subcommand" "$lacking" $subcommand
    done
    misused 'no scenario' "$lacking" encode --his=history.txt --week=week.txt
    misused 'no history' "$lacking" encode --sce=scenario.txt --week=week.txt
    misused 'no week' "$lacking" encode --sce=scenario.txt --his=history.txt
    misused 'an option twice' "the argument '--sce <FILE>' cannot be used multiple times" encode "${week[@]}" --sce scenario.txt
    misused 'an option twice, and no other' "the argument '--sce <FILE>' cannot be used multiple times" encode --sce=a --sce=a
    misused 'an output twice' "the argument '--opb <FILE>' cannot be used multiple times" encode "${week[@]}" --opb unmade --opb b
    is_missing unmade
    misused 'an option without its value' "a value is required for '--opb <FILE>' but none was supplied" encode "${week[@]}" --opb
    misused 'no value, and no other option' "a value is required for '--opb <FILE>' but none was supplied" encode --opb
    misused 'an unknown option' "unexpected argument '--random' found" encode "${week[@]}" --random 1
    misused 'an option of decode' "unexpected argument '--sol' found" encode --sol a
    misused 'a word too many' "unexpected argument 'week.txt' found" encode "${week[@]}" week.txt
    misused 'a word that is not text' 'an argument is not text' encode --sce $'\377' --his history.txt --week week.txt
    err=/dev/full run 'a refusal that cannot be written' 2 nothing nothing solve
}

# Options in any order, and each path as it is given.
takes_words() {
    local path
    run 'options in another order' 0 nothing nothing encode --week=week.txt --opb 'a b' --sce scenario.txt --his history.txt
    holds 'a b' model
    for path in '=x' ' s ' 'ä' -; do
        cp "$room/history.txt" "$room/$path"
        run "the path '$path'" 0 model nothing encode --sce=scenario.txt --his "$path" --week=week.txt
        run "the path '$path' as output" 0 nothing nothing encode "${week[@]}" --opb "$path"
        holds "$path" model
        rm "$room/$path"
    done
    refuses 'a path of no letters' 3 'read failed' encode --sce=scenario.txt --his '' --week=week.txt
}

fails_to_read() {
    refuses 'no such scenario' 3 'read failed' encode --sce missing --his history.txt --week week.txt
    refuses 'no such history' 3 'read failed' encode --sce scenario.txt --his missing --week week.txt
    refuses 'no such week' 3 'read failed' encode --sce scenario.txt --his history.txt --week missing
    refuses 'a file that does not open comes first' 3 'read failed' encode --sce cut.txt --his history.txt --week missing
    refuses 'so does a history' 3 'read failed' encode --sce cut.txt --his missing --week week.txt
    refuses 'a path without a name' 3 'read failed' encode --sce= --his history.txt --week week.txt
    refuses 'a scenario with a slash after its name' 3 'read failed' encode --sce scenario.txt/ --his history.txt --week week.txt
    refuses 'a scenario named as on the web' 3 'read failed' encode --sce file://scenario.txt --his history.txt --week week.txt
    refuses 'a directory as scenario' 3 'read failed' encode --sce . --his history.txt --week week.txt
    refuses 'a directory as history' 3 'read failed' encode --sce scenario.txt --his . --week week.txt
    refuses 'a directory as week' 3 'read failed' encode --sce scenario.txt --his history.txt --week .
    refuses 'a directory after a fault' 1 'scenario line 10: end of file' encode --sce cut.txt --his . --week week.txt
    err=/dev/full run 'a fault that cannot be told' 3 nothing nothing encode --sce missing --his history.txt --week week.txt
}

finds_faults() {
    refuses 'an empty scenario' 1 'scenario line 1: end of file' encode --sce nothing --his history.txt --week week.txt
    refuses 'a scenario that is cut' 1 'scenario line 10: end of file' encode --sce cut.txt --his history.txt --week week.txt
    run 'a scenario of the greatest length' 0 model nothing encode --sce longest_scenario.txt --his history.txt --week week.txt
    run 'a history of the greatest length' 0 model nothing encode --sce scenario.txt --his longest_history.txt --week week.txt
    run 'a week of the greatest length' 0 model nothing encode --sce scenario.txt --his history.txt --week longest_week.txt
    refuses 'a scenario that is too long' 1 'scenario: out of limits' encode --sce too_long.txt --his history.txt --week week.txt
    refuses 'a history that is too long' 1 'history: out of limits' encode --sce scenario.txt --his too_long.txt --week week.txt
    refuses 'a week that is too long' 1 'week: out of limits' encode --sce scenario.txt --his history.txt --week too_long.txt
    refuses 'held cells that are too long' 1 'fix: out of limits' encode "${week[@]}" --fix too_long.txt
    refuses 'a roster that is too long' 1 'solution: out of limits' extend "${week[@]}" --from too_long.txt
    refuses 'another word in the history' 1 'history line 1: another word expected' encode --sce scenario.txt --his week.txt --week week.txt
    refuses 'a week that is too late' 1 'history: week not below WEEKS' encode --sce scenario.txt --his late.txt --week week.txt
}

writes_the_model() {
    run 'to standard output' 0 model nothing encode "${week[@]}"
    run 'to a file' 0 nothing nothing encode "${week[@]}" --opb new.opb
    holds new.opb model
    cp "$room/longest_scenario.txt" "$room/old.opb"
    run 'over a longer file' 0 nothing nothing encode "${week[@]}" --opb old.opb
    holds old.opb model
    run 'to standard output by name' 0 model nothing encode "${week[@]}" --opb /dev/stdout
    in=$room/scenario.txt run 'from standard input' 0 model nothing encode --sce /dev/stdin --his history.txt --week week.txt
}

leaves_files_alone() {
    cp "$room/longest_scenario.txt" "$room/kept.opb"
    refuses 'a fault beside an older file' 1 'scenario line 10: end of file' encode --sce cut.txt --his history.txt --week week.txt --opb kept.opb
    holds kept.opb longest_scenario.txt
    refuses 'a late week beside an older file' 1 'history: week not below WEEKS' encode --sce scenario.txt --his late.txt --week week.txt --opb kept.opb
    holds kept.opb longest_scenario.txt
    refuses 'a missing week beside an older file' 3 'read failed' encode --sce scenario.txt --his history.txt --week missing --opb kept.opb
    holds kept.opb longest_scenario.txt
    refuses 'a fault and no file' 1 'history: week not below WEEKS' encode --sce scenario.txt --his late.txt --week week.txt --opb unmade
}

fails_to_write() {
    refuses 'a file in no folder' 3 'write failed' encode "${week[@]}" --opb missing/week.opb
    refuses 'a folder as output' 3 'write failed' encode "${week[@]}" --opb .
    refuses 'an output with a slash after its name' 3 'write failed' encode "${week[@]}" --opb unmade/
    refuses 'an output named as on the web' 3 'write failed' encode "${week[@]}" --opb file://unmade
    refuses 'an output without a name' 3 'write failed' encode "${week[@]}" --opb=
    refuses 'a full device' 3 'write failed' encode "${week[@]}" --opb /dev/full
    out=/dev/full refuses 'a full standard output' 3 'write failed' encode "${week[@]}"
}

# The scenario, cut in line 10; the files of the week as long as a file may be, and a longer one.
sed '10s/\(Full (1,\).*/\1/;10q' "$room/scenario.txt" > "$room/cut.txt"
for name in scenario history week; do filled $name.txt longest_$name.txt 4194304; done
filled scenario.txt too_long.txt 4194305

asks_for_help
takes_no_other_words
takes_words
fails_to_read
finds_faults
writes_the_model
leaves_files_alone
fails_to_write
finish
