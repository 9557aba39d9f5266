#!/usr/bin/env bash
# Checks facts that the repository states twice: the program, CHANGELOG.md and the Python package have the same version, the
# generators write the example weeks, docs/build.md names this kit, and the examples of the libraries are their tests. Checks that
# no crate uses lemmas of another that no list has, that no file forgets a soft rule, that the pages for contributors name existing files, the
# shell scripts by shellcheck, if it is installed, and which files can be run.
#
#   tests/pages/repository.sh [llvm | rattle | PROGRAM]
#
# Needs bash, the usual tools of a shell and Python 3.11.
. "$(dirname "$0")/../kit/kit.sh"

version_is_in_preparation() {
    local version
    begins_case 'the version in CHANGELOG.md, python/pyproject.toml and the pages'
    version=$("$program" --version)
    grep -m 1 '^## ' CHANGELOG.md | grep -qx "## ${version#inrc2pb }" || complain "it does not begin with ${version#inrc2pb }"
    grep -qx "version = \"${version#inrc2pb }\"" python/pyproject.toml || complain "python/pyproject.toml has another one"
    ! grep -oE 'inrc2pb[ _][0-9]+\.[0-9.]*[0-9]|such as [0-9]+\.[0-9]+\.[0-9]+' docs/*.md | grep -vF "${version#inrc2pb }" > "$room/versions" ||
        complain "another version: $(cat "$room/versions")"
}

weeks_are_made() {
    local folder name file
    begins_case 'the example weeks'
    bench/make_weeks.py "$room/weeks"
    for folder in "$room"/weeks/*/; do
        name=$(basename "$folder")
        # The certificate of a week comes from a search, and tests/program/bound.sh checks what it proves.
        diff -r -x certificate.txt -x two_cases.txt "$folder" "examples/$name" > "$room/diff" || complain "examples/$name: $(head -n 5 "$room/diff")"
    done
    for name in second60 second120; do
        bench/weeks.py period "${name#second}" "$room/$name"
        for file in ward.txt week-1.txt; do
            diff "$room/$name/$file" "examples/$name/$file" > "$room/diff" || complain "examples/$name: $(head -n 5 "$room/diff")"
        done
    done
}

# Each Python command only runs the launcher.
commands_are_launchers() {
    local file
    begins_case 'the Python commands'
    for file in python/inrc2pb-*; do cmp -s python/inrc2pb-plan "$file" || complain "$file is not as python/inrc2pb-plan"; done
}

# The kit at hand is the one that docs/build.md names or a later one, with the logic that docs/build.md and docs/trusted.md name.
kit_is_named() {
    local kit named sum
    has rt || return
    begins_case 'the kit in docs/build.md'
    kit=$(rt version)
    named=$(grep -o -m 1 'rattle-kit-[0-9a-z]*' docs/build.md)
    sum=$(grep -oP -m 1 'sum=\K[0-9a-f]+' docs/trusted.md)
    printf '%s\n' "$named" "${kit%% *}" | sort -VC || complain "$kit is older than $named"
    [ "${kit#* }" = "logic $sum" ] || complain "$kit has another logic than $sum"
    grep -qF "the logic \`$sum\`" docs/build.md || complain "docs/build.md does not name the logic $sum"
}

# The example with which a library opens is the text of a test, line for line.
examples_are_tests() {
    local crate example test
    begins_case "the libraries' examples"
    for crate in byte_ports rota_core rota_rules rota_items rota_judge rota_layout rota_read rota_certificate_read text_sink opb_text \
        solver_text rota_pb; do
        example=$(awk '/^\/\/! ```$/ { inside = !inside; next } inside { sub(/^\/\/! /, "    "); print }' "crates/$crate/src/lib.rt")
        test=$(sed -n "/^fn example_of_$crate(/,/^}/p" crates/*_tests/src/examples.rt)
        [ -n "$example" ] || complain "crates/$crate/src/lib.rt opens with no example"
        [[ $test == *"$example"* ]] || complain "crates/$crate/src/lib.rt: its example is not its test"
    done
}

# A crate uses another crate's contracts, and of its lemmas only the modules of a list. A value of which an outcome says no more than that it exists is in a
# list, too.
takes_contracts() {
    begins_case 'lemma modules that a crate takes from another, and existentials'
    tests/pages/doors.py check > "$room/doors" || complain "$(head -n 20 "$room/doors")"
}

# Wrong bodies that people would write: the proofs refuse an edit of each name.
mistakes=(
    windows_before_monday_left_out open_run_charged_for_its_minimum closed_pattern_of_plain_weight constant_dropped unit_left_free
    one_unsatisfiable_row unit_not_counted totals_in_every_week worked_weekends_in_every_week last_o_taken_for_the_penalty
    soft_rows_not_checked more_put_after_a_failure cut_literal_lost second_skill_on_one_shift_allowed each_slack_of_an_extension_true
    two_terms_on_one_cell solution_before_the_check report_first memory_fault_after_writing write_fault_of_a_sound_writer
    later_fault_named text_after_the_end_accepted long_file_accepted rest_of_buffer_kept never_flushed taker_not_finished later_value_wins
    every_assignment_refused whole_excess_each_week only_first_cell_held
)

# A body that always gives up for want of memory is proved. These tests find it: tests/program/refused_memory.sh runs them.
tests_of_memory=(scenario_read history_read week_read solution_read new_roster new_bits new_answer runs)

mistakes_are_refused() {
    local name
    begins_case 'the mistakes that have to be refused'
    for name in "${mistakes[@]}"; do
        [ "$(find crates/*/must-fail -name "$name.edit" | wc -l)" = 1 ] || complain "not one edit $name"
    done
    for name in "${tests_of_memory[@]}"; do
        grep -qs "^fn $name(rt: HostRuntime)" crates/*_tests/src/refused_*.rt || complain "no test $name"
    done
    tests/pages/edits.py stale > "$room/edits" || complain "$(cat "$room/edits")"
}

# A public function without an edit whose promises are no equations. One that lost its equation is in this list too.
promises_are_guarded() {
    begins_case 'the functions that no edit guards'
    tests/pages/edits.py none | grep -v ' edits, ' | diff tests/pages/without_edits.txt - > "$room/diff" ||
        complain "tests/pages/without_edits.txt (<) is not what tests/pages/edits.py none prints (>): $(head -n 20 "$room/diff")"
}

# A clause of a public contract that no equation fixes, no proof of a caller names, and no edit was refused by. A field that no text names.
clauses_are_guarded() {
    begins_case 'the clauses of public contracts that nothing guards'
    tests/pages/clauses.py check > "$room/clauses" || complain "$(head -n 20 "$room/clauses")"
    tests/pages/fields.py check > "$room/fields" || complain "$(head -n 20 "$room/fields")"
}

# An edit that only an answer refuses, since it no longer fits, has a line that says why no other answer can prove it.
answers_refuse_rightly() {
    begins_case 'the edits that only answers refuse'
    tests/pages/refused_by_answers.py check > "$room/answers" || complain "$(head -n 20 "$room/answers")"
}

# A file that names all soft rules but one.
rules_are_whole() {
    begins_case 'the soft rules that a file forgets'
    tests/pages/soft_rules.py > "$room/rules" || complain "$(head -n 40 "$room/rules")"
}

# Files, crates and numbers that the pages for contributors name.
places_are_named() {
    begins_case 'the places on the pages for contributors'
    tests/pages/places.py > "$room/places" || complain "$(head -n 40 "$room/places")"
}

scripts_are_clean() {
    has shellcheck || return
    begins_case 'the scripts'
    shellcheck .ci/run {certified,examples,package}/*.sh {tests/*,python/tests}/*.sh > "$room/checked" || complain "$(head -n 20 "$room/checked")"
}

# A file with an interpreter in its first line can be run, and no other.
scripts_are_executable() {
    local file
    begins_case 'the files that can be run'
    for file in .ci/run ./*.py {bench,certified}/*.* completions/*.py examples/*.sh python/launcher.py python/inrc2pb-* package/*.* {tests/*,python/tests}/*.*; do
        if [ "$(head -c 2 "$file")" = '#!' ]; then
            [ -x "$file" ] || complain "$file cannot be run"
        else
            [ ! -x "$file" ] || complain "$file can be run, and names no interpreter"
        fi
    done
}

# After the proofs of the gate nobody needs `make` before `make install`.
programs_are_left() {
    local program
    [ -n "${GATE_LOG:-}" ] || return
    begins_case 'the programs of the gate in out'
    for program in inrc2pb inrc2pb_bound; do
        cmp -s "crates/$program/out/$program" "out/${program//_/-}" || complain "out/${program//_/-} is another one"
    done
    [ -f out/inrc2pb-rows.so ] || complain 'there is no out/inrc2pb-rows.so'
}

programs_are_left
version_is_in_preparation
weeks_are_made
commands_are_launchers
kit_is_named
examples_are_tests
takes_contracts
mistakes_are_refused
promises_are_guarded
clauses_are_guarded
answers_refuse_rightly
rules_are_whole
places_are_named
scripts_are_clean
scripts_are_executable
finish
