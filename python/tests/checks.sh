#!/usr/bin/env bash
# Checks the Python programs: pytest runs their tests on the program, mypy checks the types of the library and of the programs that
# use it, flake8 finds what nothing uses, black lays out the code, and the imports between packages go one way.
#
#   python/tests/checks.sh [llvm | rattle | PROGRAM]
#
# Needs Python 3.11 with NumPy. The script says which tests it skipped.
. "$(dirname "$0")/../../tests/kit/kit.sh"
settings=python/pyproject.toml
python_files=(build.py bench certified completions python tests)

# One case for each test of Python; two of them run at a time, if pytest-xdist is installed. The commands look for inrc2pb-bound in the folder of inrc2pb.
run_tests() {
    local told good bad left workers=()
    has pytest || return
    ! pytest --version -p xdist > /dev/null 2>&1 || workers=(-n 2)
    what='the tests of python/tests'
    mkdir "$room/programs"
    cp "$program" "$room/programs/inrc2pb"
    cp "$bound" "$room/programs/inrc2pb-bound"
    INRC2PB=$room/programs/inrc2pb timeout 1500 pytest -q -rfEs --tb=short "${workers[@]}" python/tests > "$out" 2>&1 || complain "$(grep -v '^[.sFE]* *\[' "$out" | tail -n 60)"
    sed -n 's/^SKIPPED \[\([0-9]*\)\] [^:]*\(:[0-9]*\)\?: \(.*\)/skipped: python\/tests: \3 (\1)/p' "$out"
    told=$(tail -n 1 "$out")
    good=$(number_of passed) bad=$(($(number_of failed) + $(number_of 'errors\?'))) left=$(number_of skipped)
    [ "$good" != 0 ] || complain "no test ran: $told"
    checked=$((checked + good + bad))
    skipped=$((skipped + left))
}

# number_of WORD: the number before this word in the last line of pytest, such as `1 failed, 601 passed, 3 skipped in 90.12s`.
number_of() {
    local number
    number=$(grep -o "[0-9]* $1\b" <<< "$told" | grep -o '[0-9]*')
    echo "${number:-0}"
}

# types_hold FILE..: mypy finds no mistake, and no function without types.
types_hold() {
    MYPYPATH=python mypy --config-file $settings --cache-dir "$room/types" "$@" > "$out" 2>&1
}

checks_types() {
    has mypy || return
    begins_case 'the types of the Python programs'
    {
        types_hold python/inrc2pb && types_hold bench/*.py certified/*.py build.py tests/{edits,kit}/*.py
    } || complain "$(head -n 20 "$out")"
}

black_lays_it_out() {
    has black || return
    begins_case 'the layout of Python by black'
    black --config $settings --check "${python_files[@]}" > "$out" 2>&1 || complain "$(head -n 20 "$out")"
}

nothing_is_unused() {
    has flake8 || return
    begins_case 'names that nothing uses, and lines over 100 columns, in Python'
    flake8 --config python/.flake8 "${python_files[@]}" > "$out" 2>&1 || complain "$(head -n 20 "$out")"
}

imports_go_one_way() {
    begins_case 'the imports of the Python packages'
    python/tests/packages.py > "$out" || complain "$(head -n 20 "$out")"
}

variables_have_names() {
    begins_case 'the names of variables in Python'
    python/tests/names.py > "$out" || complain "$(head -n 20 "$out")"
}

needs_bound
run_tests
checks_types
imports_go_one_way
variables_have_names
nothing_is_unused
black_lays_it_out
begins_case 'the readers find the same faults in changed files'
tests/random/changed_tokens.py > "$room/out" || complain "$(cat "$room/out")"
finish
