#!/usr/bin/env bash
# Runs tests/edits/main.py on small crates with a stand-in for `rt`, and checks which edits it tries, in which rounds, what it says of edits
# that are not refused, and what it leaves in the record and takes from it.
#
#   tests/pages/edits.sh [llvm | rattle | PROGRAM]
#
# Needs bash, the usual tools of a shell and Python 3.9.
. "$(dirname "$0")/../kit/kit.sh"
. "$(dirname "$0")/../kit/stand_ins.sh"

# A prover for the test. A function is proved unless a line of it is `wrong`, or it calls one that is not proved; `nonsense` does not compile;
# a definition that is `wrong` leaves a lemma without a proof. Each check is a line of `checks`: the crate, the lines that are wrong, the
# functions that it was about alone, and how many checks had kept their work before. It needs the libraries of the crates below.
stand_in rattle << 'END_OF_RATTLE'
#!/usr/bin/env python3
import contextlib, os, re, sys, time
from pathlib import Path

words = sys.argv[1:]
after = lambda flag: [words[number + 1] for number, word in enumerate(words) if word == flag]
name, kept = after("--crate-name")[0], Path(after("--incremental")[0])
for library in after("--extern"):
    if "/crates/" in library and not Path(library.partition("=")[2], "format").exists():
        sys.exit(f"there is no {library}")
if Path(os.environ["CALLS"], "waits").exists():
    print(os.getpid(), file=Path(os.environ["CALLS"], "sleepers").open("a"), flush=True)
    time.sleep(60)
for turn in Path(os.environ["CALLS"], "killed").glob("*"):
    with contextlib.suppress(FileNotFoundError):
        turn.unlink()
        os.kill(os.getpid(), 9)
text, definition = Path("src/lib.rt").read_text(), Path("specs/Words.antt").read_text()
with Path(os.environ["CALLS"], "checks").open("a") as file:
    print(name, *re.findall(r"wrong (\w+)|same (\w+)", text + definition), *after("--only"), len(list(kept.iterdir())), file=file)
Path(kept, f"{len(list(kept.iterdir()))}.oantt").touch()
if "nonsense" in text:
    sys.exit("error[syntax]: src/lib.rt")
if "wrong" in definition:
    print("./proofs/Lemmas.antt:3:1: error: `lemma`: `search` found no proof")
lost = set()
for found in re.finditer(r"fn (\w+)(.*?)^}", text, re.M | re.S):
    function, body = found[1], found[2]
    if after("--only") and f"lib::{function}" not in after("--only"):
        continue
    line = text.count("\n", 0, found.start()) + 1
    own, waits = "wrong" in body, lost.intersection(re.findall(r"call (\w+)", body))
    lost |= {function} if own or waits else set()
    if own:
        print(f"note: src/lib.rt:{line}:5: it is not proved that what the function ensures holds when it returns (`returns`)")
    told = ["expected answers in ./proofs; `search` did not prove `returns`"] * own + [f"it calls `{one}`, which is not proved" for one in waits]
    print(f"fn {name}::lib::{function}: {'no proof: ' + '; '.join(told) if told else 'proved'}")
print(f"fn {name}::lib::fn::first::map: proved where its callers give what it asks")
if after("--only"):
    sys.exit(print(f"only={len(after('--only'))} proved={len(after('--only')) - len(lost)}"))
failed = lost or "wrong" in definition
print("logic=not-proved" if failed else "logic=proved functions=3")
sys.exit(bool(failed))
END_OF_RATTLE

stand_in rt << 'END_OF_RT'
#!/usr/bin/env python3
import os, sys
from pathlib import Path

if sys.argv[1] == "version":
    sys.exit(print("kit of the test"))
if sys.argv[1] == "must-fail":
    sys.exit(print(Path(os.environ["CALLS"], "must-fail").read_text(), end=""))
name = Path.cwd().name
print(name, file=Path(os.environ["CALLS"], "built").open("a"))
for file in ("rlib/stamp", f"rlib/{name}.rlib/format"):
    Path("out", file).parent.mkdir(parents=True, exist_ok=True)
    Path("out", file).write_text(name)
END_OF_RT

ward=$room/ward
mkdir -p "$ward/tests" "$ward/package"
cp build.py HANDLES "$ward"
cp package/commit.sh "$ward/package"
cp CHANGELOG.md "$ward"
cp -r tests/edits "$ward/tests"
printf '%s\n' 'base:' 'upper: base' > "$ward/crates.txt"
for crate in base upper; do
    mkdir -p "$ward"/crates/$crate/{src,specs,must-fail}
    echo 'true definition' > "$ward/crates/$crate/specs/Words.antt"
    for function in first second third; do
        printf '%s\n' "fn $function()" '{' "    right $function" "    other $function" "    call $function" '}' ''
    done > "$ward/crates/$crate/src/lib.rt"
done
# `third` calls `first`.
sed -i 's/call third/call first/' "$ward/crates/upper/src/lib.rt"

# edit CRATE NAME OLD NEW [FILE]
edit() { printf '%s\n' "file: ${5:-src/lib.rt}" "old:     $3" "new:     $4" > "$ward/crates/$1/must-fail/$2.edit"; }
edit base first_left_out 'right first' 'wrong first'
edit upper first_left_out 'right first' 'wrong first'
edit upper second_left_out 'right second' 'wrong second'
edit upper second_forgotten 'other second' 'wrong other'
printf '%s\n' 'file: specs/Words.antt' 'old: true' 'new: wrong' > "$ward/crates/upper/must-fail/definition_turned.edit"

# tries WHAT STATUS LINE [WORD..]: the tool ends so, with this last line.
tries() {
    begins_case "$1"
    local ended
    : > "$room/checks"
    CALLS=$room PATH=$room/bin:$PATH "$ward/tests/edits/main.py" "${@:4}" > "$room/out" 2>&1
    ended=$?
    [ $ended = "$2" ] || complain "status $ended, not $2: $(cat "$room/out")"
    [ "$(tail -n 1 "$room/out")" = "$3" ] || complain "its last line is $(tail -n 1 "$room/out")"
    is_missing ward/out/edits/rooms
}

tells() { grep -qF -- "$1" "$room/out" || complain "no '$1' in its output: $(cat "$room/out")"; }

# checks NUMBER: the last run made this number of checks, the first of a crate from nothing, each other one over what those before it kept.
checks() {
    [ "$(wc -l < "$room/checks")" = "$1" ] || complain "not $1 checks: $(cat "$room/checks")"
    awk '$NF != made[$1]++ { exit 1 }' "$room/checks" || complain "over other work: $(cat "$room/checks")"
}

# writes: the record of the last run becomes that of the tree.
writes() { PATH=$room/bin:$PATH "$ward/tests/edits/main.py" write > "$room/written"; }

record=$ward/crates/upper/edits.txt

first_tries() {
    tries 'all edits, in rounds' 0 '5 passed, 0 failed'
    # In `upper` first and second together, then the other edit of second, then the crate as it is, and with it the definition.
    checks 5
    [ "$(cat "$room/built")" = base ] || complain "built: $(cat "$room/built")"
    tells '5 tried, 0 taken from the record'
    tells "the record differs from that of the tree for base, upper"
    writes
    begins_case 'the record'
    [ "$(awk '!/^#/ { print $1, $3, $4 }' "$record")" = "definition_turned upper::proofs::Lemmas lemma
first_left_out upper::lib::first returns
second_forgotten upper::lib::second returns
second_left_out upper::lib::second returns" ] || complain "$(cat "$record")"
    tries 'the same again' 0 '5 passed, 0 failed'
    checks 0
    tells '0 tried, 5 taken from the record'
    tries 'all anew' 0 '5 passed, 0 failed' --anew
    checks 5
    ! grep -q 'the record differs' "$room/out" || complain 'another record'
    tries 'each alone' 0 '5 passed, 0 failed' --anew --alone
    checks 6
    ! grep -q 'the record differs' "$room/out" || complain 'another record'
}

# Over libraries that are built, as the gate tries edits, nothing else is built.
over_built_libraries() {
    rm "$ward/crates/base/out/proved"
    : > "$room/built"
    tries 'over the libraries that are there' 0 '5 passed, 0 failed' --anew --built
    checks 4
    [ ! -s "$room/built" ] || complain "built: $(cat "$room/built")"
    rm -r "$ward/crates/base/out/rlib"
    tries 'over libraries that are not there' 1 '1 passed, 4 failed' --anew --built
    tells 'upper/first_left_out: NOT READ'
}

# Edits that are not refused, each among the good ones.
planted_edits() {
    edit upper third_accepted 'right third' 'same third'
    tries 'an edit that is proved, of a function that calls another edited one' 1 '5 passed, 1 failed' --anew
    tells 'upper/third_accepted: NOT REFUSED: the crate is proved with this edit'
    ! grep -q third_accepted "$ward/out/edits/upper.txt" || complain 'the record has it'
    tries 'the same over built libraries' 1 '5 passed, 1 failed' --anew --built
    tells 'upper/third_accepted: NOT REFUSED: the crate is proved with this edit'
    [ "$(grep -c 'upper::lib::first' "$ward/out/edits/upper.txt")" = 1 ] || complain "the record: $(cat "$ward/out/edits/upper.txt")"
    edit upper third_accepted 'right third' 'nonsense'
    tries 'an edit that does not compile' 1 '5 passed, 1 failed' --anew
    tells 'upper/third_accepted: NOT READ'
    tries 'the same over built libraries' 1 '5 passed, 1 failed' --anew --built
    tells 'upper/third_accepted: NOT READ'
    edit upper third_accepted 'no such line' 'wrong third'
    tries 'an edit that does not fit' 1 '5 passed, 1 failed'
    tells 'upper/third_accepted: STALE'
    rm "$ward/crates/upper/must-fail/third_accepted.edit"
    sed -i '/^fn third/,/^}/s/right/wrong/' "$ward/crates/upper/src/lib.rt"
    tries 'edits beside a function without a proof' 1 '1 passed, 4 failed'
    tells 'upper/first_left_out: NOT TRIED: the crate is not proved as it is'
    tells 'upper/definition_turned: NOT TRIED: the crate is not proved as it is'
    sed -i '/^fn third/,/^}/s/wrong/right/' "$ward/crates/upper/src/lib.rt"
}

planted_records() {
    sed -i 's/^first_left_out ./first_left_out x/' "$record"
    tries 'a record with a wrong checksum' 0 '5 passed, 0 failed'
    tells '1 tried, 4 taken from the record'
    writes
    echo 'gone 0 upper::lib::first returns' >> "$record"
    tries 'a record of an edit that is not there' 1 '5 passed, 1 failed'
    tells 'STALE: the record has upper/gone'
    writes
    sed -i 's/^first_left_out/second_left_out/' "$record"
    tries 'a record of two checksums for an edit' 0 '5 passed, 0 failed'
    tells '2 tried, 3 taken from the record'
    writes
    echo 'another contract' >> "$ward/crates/upper/src/lib.rt"
    tries 'a change above' 0 '5 passed, 0 failed'
    tells '4 tried, 1 taken from the record'
    writes
    echo '# another mistake' >> "$ward/crates/upper/must-fail/first_left_out.edit"
    tries 'a changed edit' 0 '5 passed, 0 failed'
    tells '1 tried, 4 taken from the record'
    writes
}

# changes_below FILE TRIED: after a change of this file of `base` so many of the five edits are tried: one is of `base`, and four are of `upper`.
changes_below() {
    mkdir -p "$(dirname "$ward/crates/base/$1")"
    echo 'another line' >> "$ward/crates/base/$1"
    tries "a change below, of $1" 0 '5 passed, 0 failed'
    tells "$2 tried, $((5 - $2)) taken from the record"
    writes
}

# What a crate above can cite counts for its edits, too; the proof of a function counts for those of its own crate alone.
records_below() {
    local file cited='cites the proof of a function, and the records do not see its changes: give the lemma a module of its own'
    for file in src/lib.rt specs/Words.antt specs/Answers.antt proofs/Lemmas.antt; do
        changes_below "$file" 5
    done
    changes_below proofs/lib/first/Answers.antt 1
    changes_below proofs/lib/first/Invariants.antt 1
    mkdir "$ward/crates/upper/proofs"
    echo 'use Rattle.base.specs.Answers.{word}' > "$ward/crates/upper/proofs/Lemmas.antt"
    tries 'definitions of that name' 0 '5 passed, 0 failed'
    writes
    echo 'use Rattle.base.proofs.lib.first.Answers.{lemma}' > "$ward/crates/upper/proofs/Lemmas.antt"
    tries 'a lemma of the proof of a function' 1 "edits: crates/upper/proofs/Lemmas.antt $cited"
    rm -r "$ward/crates/upper/proofs"
    edit upper lemma_cited 'right third' 'wrong third, using(base::proofs::lib::first::Answers::lemma)'
    tries 'an edit that takes such a lemma' 1 "edits: crates/upper/must-fail/lemma_cited.edit $cited"
    rm "$ward/crates/upper/must-fail/lemma_cited.edit"
    tries 'no such lemma' 0 '5 passed, 0 failed'
    writes
}

# A refusal depends on the judge, and not on the time and the place at which its files were written.
another_judge() {
    find "$ward" -exec touch -d 2001-01-01 {} +
    mv "$ward" "$room/elsewhere"
    ward=$room/elsewhere
    tries 'other times and another folder' 0 '5 passed, 0 failed'
    tells '0 tried, 5 taken from the record'
    mv "$ward" "$room/ward"
    ward=$room/ward
    echo '# another judge' >> "$ward/tests/edits/verdict.py"
    tries 'another judge' 0 '5 passed, 0 failed'
    tells '5 tried, 0 taken from the record'
    writes
}

# Records that are written by hand with the checksums of the present sources. Of the two crates one edit each is tried again.
tried_again() {
    tries 'recorded edits, tried again' 0 '5 passed, 0 failed' --again=commit
    tells '2 tried, 3 taken from the record'
    tells 'the record has base/first_left_out, and it was tried again'
    # The definition of `upper` is tried alone, after its crate as it is.
    checks 3
    ! grep -q 'the record differs' "$room/out" || complain 'another record'
    for text in one two three four five; do
        tries 'edits that a text chooses' 0 '5 passed, 0 failed' --again=$text
        grep 'it was tried again' "$room/out"
    done > "$room/chosen"
    [ "$(sort -u "$room/chosen" | grep -c upper)" -gt 1 ] || complain "all texts choose the same: $(cat "$room/chosen")"
    tries 'recorded edits over built libraries' 0 '5 passed, 0 failed' --again=commit --built
    # Of a crate that is proved, the function that the record names is checked alone, and all if the edit changes a definition.
    [ "$(tr -d "(',)" < "$room/checks" | sort)" = $'base first  lib::first 0\nupper definition  0' ] || complain "checks: $(cat "$room/checks")"
    ! grep -q 'the record differs' "$room/out" || complain 'another record'
    sed -i 's/base::lib::first/base::lib::second/' "$ward/crates/base/edits.txt"
    tries 'another function written by hand' 1 '4 passed, 1 failed' --again=commit --built
    tr -d "(',)" < "$room/checks" | grep -qx 'base first  0' || complain "checks: $(cat "$room/checks")"
    tells 'the record has base::lib::second returns, and the prover base::lib::first returns'
    writes
    sed -i 's/ returns$/ returns-clause-price/; s/ lemma$/ other/' "$ward"/crates/*/edits.txt
    tries 'goals written by hand' 0 '5 passed, 0 failed'
    tells '0 tried, 5 taken from the record'
    for built in '' --built; do
        tries 'goals written by hand, tried again' 1 '3 passed, 2 failed' --again=commit $built
        tells 'base/first_left_out: the record has base::lib::first returns-clause-price, and the prover base::lib::first returns'
    done
    writes
    sed -i 's/$/ answer/' "$ward/crates/base/edits.txt"
    tries 'the word answer written by hand' 1 '4 passed, 1 failed' --again=commit
    tells 'the record has base::lib::first returns answer, and the prover base::lib::first returns'
    writes
}

# kills NUMBER: this number of the next checks is ended by a signal.
kills() {
    rm -rf "$room/killed"
    mkdir "$room/killed"
    (cd "$room/killed" && seq "$1" | xargs touch)
}

# A check that is ended by a signal says nothing of the record: its edit gets another turn, and then the record is taken.
ended_checks() {
    kills 1
    tries 'a check that is ended' 0 '5 passed, 0 failed' --again=commit --built
    tells '2 tried, 3 taken from the record'
    kills 4
    tries 'checks that are ended twice' 0 '5 passed, 0 failed' --again=commit --built
    tells 'NOT ENDED: a signal ended the check twice'
    tells '0 tried, 5 taken from the record'
    kills 20
    tries 'checks of new edits that are ended' 1 '0 passed, 5 failed' --anew --built
    tells 'base/first_left_out: NOT ENDED: a signal ended the check'
    rm -r "$room/killed"
}

# must_fails [NAME WHAT]: `rt must-fail` says that each edit is refused, and of this one something else.
must_fails() {
    local file name
    for file in "$ward"/crates/*/must-fail/*.edit; do
        name=${file#"$ward/crates/"}
        echo "rt: must-fail ${name/must-fail\//}: refused, as it must be: note: src/lib.rt:1:5: it is not proved that it holds (\`returns\`)"
    done | sed -E "/definition_turned/s/:[^:]*:[^:]*:[^:]*$/: error: \`lemma\`: no proof/${1:+;/$1/s/: refused.*/: $2/}" > "$room/must-fail"
}

one_by_one() {
    must_fails
    tries 'each also by rt must-fail' 0 '5 passed, 0 failed' --both
    begins_case 'the result of that'
    [ "$(sed -n 2p "$ward/out/edits/alone")" = '5 passed, 0 failed' ] || complain "$(cat "$ward/out/edits/alone")"
    must_fails second_forgotten 'NOT REFUSED: proved'
    tries 'one that rt must-fail does not refuse' 1 '4 passed, 1 failed' --both
    tells 'upper/second_forgotten: alone it is not refused'
    must_fails second_forgotten "refused, as it must be: note: (\`other\`)"
    tries 'one that is refused by another goal' 1 '4 passed, 1 failed' --both
    tells 'upper/second_forgotten: alone it is refused by other, and in a round by returns'
}

# A run that is stopped ends its checks, and keeps what was tried.
stops() {
    local run sleeper count=0
    begins_case 'a signal'
    touch "$room/waits"
    CALLS=$room PATH=$room/bin:$PATH "$ward/tests/edits/main.py" --anew > "$room/out" 2>&1 &
    run=$!
    while [ ! -s "$room/sleepers" ] && [ $((count += 1)) -lt 100 ]; do sleep 0.1; done
    kill $run
    wait $run
    [ $? = 130 ] || complain 'another status'
    rm "$room/waits"
    tells 'edits: stopped; out/edits has what was tried'
    is_missing ward/out/edits/rooms
    while read -r sleeper; do
        [[ ! -d /proc/$sleeper || $(ps -o stat= -p "$sleeper") == Z* ]] || complain 'a process is left'
    done < "$room/sleepers"
}

# Functions that call one another in a cycle have the notes of all, and one folder of proofs: `next` has no open goal of its own.
cycles() {
    begins_case 'the goals of a cycle of calls'
    cat > "$room/said" << 'END'
./proofs/nurses/+week/Answers.antt:72:50: error: `after-returns`: as printed, the two types first differ
./proofs/nurses/+week/Answers.antt:80:5: error: 1 declaration that depends on `after-returns`, which was rejected, was not checked: after-sound
note: src/nurses.rt:106:5: it is not proved that the invariant of the loop holds (`least-loop-preserved`)
fn ward::nurses::after: not proved; in `ward::nurses::next`, of this cycle of calls: it calls `ward::known::cost`, which is not proved
note: src/nurses.rt:106:5: it is not proved that the invariant of the loop holds (`least-loop-preserved`)
fn ward::nurses::least: not proved; in `ward::nurses::next`, of this cycle of calls: it calls `ward::known::cost`, which is not proved
note: src/nurses.rt:106:5: it is not proved that the invariant of the loop holds (`least-loop-preserved`)
fn ward::nurses::next: not proved; it calls `ward::known::cost`, which is not proved
logic=not-proved
END
    python3 - "$room/said" > "$room/out" << 'END'
import sys
sys.path.insert(0, "tests/edits")
import verdict

said = verdict.verdict_of(open(sys.argv[1]).read())
print(said.proved, *said.others)
for function in said.functions:
    print(*[word for goal in sorted(function.goals) for word in goal], *function.lines)
END
    [ "$(cat "$room/out")" = "False
ward::nurses::after after-returns True
ward::nurses::least least-loop-preserved False ('src/nurses.rt', 106)" ] || complain "$(cat "$room/out")"
}

cycles
first_tries
over_built_libraries
planted_edits
planted_records
records_below
another_judge
tried_again
ended_checks
one_by_one
stops
finish
