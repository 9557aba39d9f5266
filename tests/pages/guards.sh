#!/usr/bin/env bash
# Plants promises that nothing needs in a copy of the crates, and checks that tests/pages/{clauses,fields,doors}.py notice each of them: they
# compare the clauses, fields, existentials and lemma modules of the tree with their lists.
#
#   tests/pages/guards.sh [llvm | rattle | PROGRAM]
#
# Nothing is proved: it takes some seconds. Needs bash, the usual tools of a shell and Python 3.9.
. "$(dirname "$0")/../kit/kit.sh"

tree=$room/tree
mkdir -p "$tree/tests"
cp -r tests/pages tests/edits "$tree/tests"
cp crates.txt "$tree"
tar -cf - --exclude='crates/*/out' crates | tar -xf - -C "$tree"

# Without a change no script has a complaint. Each change is taken back, so this holds before all of them.
for name in clauses fields doors; do
    begins_case "$name: no change"
    "$tree/tests/pages/$name.py" check > "$out" || complain "$(head -n 3 "$out")"
done

# notices SCRIPT NAME FILE EXPRESSION: with this change of the file, by sed, the script has a complaint about the name.
notices() {
    begins_case "$1: $2"
    sed -i.before "$4" "$tree/crates/$3"
    ! cmp -s "$tree/crates/$3" "$tree/crates/$3.before" || complain "$3 is as before"
    ! "$tree/tests/pages/$1.py" check > "$out" || complain 'it is not noticed'
    grep -qF "$2" "$out" || complain "$(head -n 3 "$out")"
    mv "$tree/crates/$3.before" "$tree/crates/$3"
}

run=rota_bound_run/src/run.rt
first_promise='/^pub fn run_bound/,/^{/{0,/^    ensures/s/^    ensures/    ensures spare { CLAUSE }\n&/}'
with_promise() { echo "${first_promise/CLAUSE/$1}"; }
notices clauses 'run::run_bound spare' $run "$(with_promise 'AreFiles files.new')"
notices clauses 'run::run_bound spare' $run "$(with_promise 'question ≡ question')"
# An equation of the new files, which fixes only a part of them.
notices clauses 'run::run_bound spare' $run "$(with_promise 'is_some files.new.given ≡ is_some files.old.given')"
# `MemoryTarget::new` of another crate has a promise of this name, and proofs need that one.
notices clauses 'Prices::new empty' rota_core/src/prices.rt \
    's/^        ensures shifts { IfOk/        ensures empty { IfOk result (λ prices. ⊤) }\n&/'
files=rota_bound_run/specs/PeriodFiles.antt
notices fields AreFiles.unusual $files 's/^  pub rosters : AreRosters.*/&\n  pub unusual : files.given ≡ files.given/'
# Other records have fields of this name.
notices fields AreFiles.path $files 's/^  pub rosters : AreRosters.*/&\n  pub path : files.given ≡ files.given/'
outcome=inrc2pb_bound_program/specs/BoundPrograms.antt
notices doors 'BoundOutcome.ran spare' $outcome 's/ran : (opened left :/ran : (opened left spare :/'
# The files of the run need not be those that were opened.
notices doors 'BoundOutcome.ran opened' $outcome 's/ran : (opened left :/ran : (opened start left :/; s/port opened left out/port start left out/'
notices doors 'rota_bound_run takes rota_pb AnswerSteps' rota_bound_run/proofs/Lib.antt '1s/$/\nuse Rattle.rota_pb.proofs.AnswerSteps.{taken}/'
notices doors 'rota_core LogicWords speaks of rota_core Roster' rota_core/proofs/LogicWords.antt \
    '1s/$/\nuse Rattle.rota_core.specs.Roster.{Roster}/'
finish
