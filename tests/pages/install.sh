#!/usr/bin/env bash
# Installs into an empty folder. Follows every link of the installed pages, and runs every command of the installed tree in an
# empty folder, through links, with nothing of the clone. Then uninstalls: nothing may be left.
#
#   tests/pages/install.sh [llvm | rattle | PROGRAM]
#
# Nothing is proved. Needs bash, the usual tools of a shell, make and Python 3.11; the commands that search for rosters need cbc or
# clasp.
. "$(dirname "$0")/../kit/kit.sh"
needs_bound
clone=$PWD
installed=$room/installed/usr

# make_target TARGET WORD..: as a user runs make, with the programs that are tested.
make_target() {
    make -s -C "$clone" "$@" PROGRAM="$program" BOUND="$bound" > "$out" 2>&1
}

# The pages and files that an installed page names are installed too, with the headings that it names.
links_hold() {
    local page link target
    while read -r page; do
        begins_case "the links of ${page#"$installed"/}"
        while read -r link; do
            target=$(dirname "$page")/${link%%#*}
            [[ $link != '#'* ]] || target=$page
            if [ ! -e "$target" ]; then
                complain "there is no $link"
            elif [[ $link == *'#'* ]]; then
                anchors_of "$target" | grep -qxF -- "${link#*#}" || complain "there is no heading for $link"
            fi
        done < <(grep -oE '\]\([^)]+' "$page" | sed 's/^](//' | grep -v '://')
    done < <(find "$installed/share/doc" -name '*.md')
}

# The headings of a page as GitHub names them in links: lower case, without punctuation, with a hyphen for each blank.
anchors_of() {
    awk '/^```/ { code = !code } !code && /^##* / { sub(/^#* */, ""); print tolower($0) }' "$1" |
        sed 's/[^[:alnum:]_ -]//g; s/ /-/g'
}

# Sources are in the clone only. An installed page names each that the clone's page links to.
names_sources() {
    local page source
    begins_case 'the sources that pages link to'
    while IFS=: read -r page source; do
        grep -qF "\`$source\`" "$installed/share/doc/inrc2pb/$page" || complain "the installed $page does not name $source"
    done < <(grep -oE '\]\(\.\./crates/[^)]*' docs/*.md | sed 's|](../||')
}

# runs NAME WORD..: the installed command, through a link, in an empty folder.
runs() {
    local name=$1
    begins_case "$name ${*:2}"
    mkdir -p "$room/links" "$room/elsewhere"
    ln -sf "$installed/bin/$name" "$room/links/$name"
    (cd "$room/elsewhere" && env -i HOME="$room" PATH="$installed/bin:/usr/local/bin:/usr/bin:/bin:/usr/games" "$room/links/$name" "${@:2}") \
        > "$out" 2> "$err" || complain "it ends with $?: $(tail -n 3 "$err")"
}

# converts_result WEEK.. ROSTER: a result file like cbc's, with the values of the roster, becomes an answer and the roster again.
converts_result() {
    local week=("${@:1:$#-1}") roster=${!#}
    runs inrc2pb extend "${week[@]}" --from "$roster"
    awk 'BEGIN { print "Stopped on time - objective value 20.00000000" }
        /^v/ { for (at = 2; at <= NF; at++) if ($at ~ /^x/) print number++, $at, 1, 0 }' "$out" > "$room/elsewhere/week.sol"
    runs inrc2pb-solve --answer week.sol
    has_line 's SATISFIABLE'
    cp "$out" "$room/elsewhere/answer.txt"
    runs inrc2pb decode "${week[@]}" --answer answer.txt --sol same.txt
    cmp -s "$room/elsewhere/same.txt" "$roster" || complain 'another roster'
}

# Each command does its work on the installed examples.
runs_commands() {
    local ward=$installed/share/doc/inrc2pb/examples/ward command
    local week=(--sce "$ward/ward.txt" --his "$ward/history-0.txt" --week "$ward/week-0.txt")
    for command in "$installed"/bin/*; do
        runs "${command##*/}" --help
    done
    runs inrc2pb-bound --version
    has_line "$(sed -n 's/^## /inrc2pb-bound /p' "$clone/CHANGELOG.md" | head -n 1)"
    runs inrc2pb encode "${week[@]}" --opb week.opb
    runs inrc2pb-roster check "${week[@]}" --roster "$ward/roster-0.txt"
    runs inrc2pb-roster show "${week[@]}" --roster "$ward/roster-0.txt"
    runs inrc2pb-roster why "${week[@]}" --roster "$ward/roster-0.txt"
    has_line '   20  in all: S4 20'
    runs inrc2pb-roster swap 'Chen Mon' 'Grace Tue' "${week[@]}" --roster "$ward/roster-0.txt"
    runs inrc2pb-roster fits "${week[@]}"
    has_line 'Mon Day Charge (1,1): Amara Bruno Ewa'
    runs inrc2pb-roster next "${week[@]:0:4}" --roster "$ward/roster-0.txt" --out history-1.txt
    cmp -s "$room/elsewhere/history-1.txt" "$ward/history-1.txt" || complain 'another history'
    runs inrc2pb-plan 'my ward' new
    runs inrc2pb-plan 'my ward' check
    runs inrc2pb-plan 'my ward' files --out ward
    runs inrc2pb-solve --model week.opb --out week.lp
    converts_result "${week[@]}" "$ward/roster-0.txt"
    begins_case 'the installed library'
    (cd "$room/elsewhere" && PYTHONPATH=$installed/share/inrc2pb PATH=$installed/bin:$PATH python3 -B -c 'import sys
from inrc2pb.programs import program
from inrc2pb.week import files
print(program.penalty_of(program.WeekFiles(*sys.argv[1:4]), sys.argv[4]))' "$ward"/{ward,history-0,week-0,roster-0}.txt) \
        > "$out" 2> "$err" || complain "$(tail -n 1 "$err")"
    has_line 20
    has cbc 3 || return
    runs inrc2pb-solve "${week[@]}" --fix "$ward/roster-0.txt" --time 20 --out roster-0.txt
    has_line 'penalty 20'
    runs inrc2pb-solve "${week[@]}" "$ward/week-1.txt" --time 10 --out period
    runs inrc2pb-solve --inrc2 "${week[@]}" --timeout 5 --sol simulated.txt --cusOut custom.txt
}

# follows_page PAGE: whoever follows the page in an empty folder, with the installed examples, comes to its end. A ward's search has five
# seconds: without a proof it would use up all of its usual time.
follows_page() {
    local pages=$installed/share/doc/inrc2pb
    begins_case "$1 in an empty folder"
    rm -rf "$room/planner"
    mkdir "$room/planner"
    cp -r "$pages/examples" "$room/planner"
    awk '/^```sh$/ { inside = 1; next } /^```/ { inside = 0 } inside' "$pages/$1" |
        sed 's/^inrc2pb-plan .* plan$/& --time 5/' > "$room/blocks"
    [ -s "$room/blocks" ] || complain 'no block'
    (cd "$room/planner" && env -i HOME="$room" PATH="$installed/bin:/usr/local/bin:/usr/bin:/bin:/usr/games" \
        timeout 1800 bash -eu "$room/blocks") > "$out" 2> "$err" || complain "it ends with $? (124 after half an hour): $(tail -n 3 "$err")"
}

# The manual pages name every installed command.
manual_names_commands() {
    local command
    begins_case 'the manual pages'
    for command in "$installed"/bin/*; do
        grep -qx ".Nm ${command##*/}\( ,\)\{0,1\}" "$installed"/share/man/man1/*.1 || complain "no manual page names ${command##*/}"
        [ -s "$installed/share/man/man1/${command##*/}.1" ] || complain "man finds no ${command##*/}"
    done
}

begins_case 'make install'
make_target install DESTDIR="$room/installed" PREFIX=/usr || complain "it fails: $(tail -n 3 "$out")"
[ -x "$installed/bin/inrc2pb" ] || complain 'no program'
links_hold
names_sources
manual_names_commands
runs_commands
follows_page docs/search.md
follows_page docs/commands.md
follows_page docs/library.md
has_line 'Amara Bruno 110'
if has clasp 3; then
    for page in README.md docs/your_ward.md docs/solvers.md; do
        follows_page $page
    done
fi
begins_case 'a command without its library'
mv "$installed/share/inrc2pb" "$room/away"
"$installed/bin/inrc2pb-roster" --help > "$out" 2> "$err" && complain 'it runs'
grep -q '^inrc2pb-roster: there is no folder share/inrc2pb: install it again' "$err" || complain "said: $(head -n 3 "$err")"
mv "$room/away" "$installed/share/inrc2pb"
others=(share/doc/inrc2pb/docs/mine.txt share/doc/inrc2pb/examples/ward/mine.txt share/inrc2pb/mine.py)
begins_case 'make uninstall beside files of others'
for other in "${others[@]}"; do
    touch "$installed/$other"
done
make_target uninstall DESTDIR="$room/installed" PREFIX=/usr || complain "it fails: $(tail -n 3 "$out")"
diff <(printf '%s\n' "${others[@]}") <(cd "$installed" && find . -type f -printf '%P\n' | sort) > "$room/diff" ||
    complain "$(head -n 3 "$room/diff")"
begins_case 'make uninstall, again'
for other in "${others[@]}"; do
    rm "$installed/$other"
done
make_target uninstall DESTDIR="$room/installed" PREFIX=/usr || complain "it fails: $(tail -n 3 "$out")"
[ -z "$(find "$installed" -name '*inrc2pb*')" ] || complain "left: $(find "$installed" -name '*inrc2pb*' | head -n 3)"
make_target uninstall DESTDIR="$room/installed" PREFIX=/usr || complain "it fails if nothing is installed: $(tail -n 3 "$out")"
begins_case 'without a program'
make -s install DESTDIR="$room/other" PROGRAM="$room/none" > "$out" 2>&1 && complain 'it installs where nothing was built'
finish
