#!/usr/bin/env bash
# Checks the pages: runs each shell block, in the order of its page, in a copy of the repository, and compares its output with
# the block of `text` that follows it, or its words with those of a `text example`, whose figures depend on the clock. Checks the links
# between the pages, that the paths answer the questions of their readers within their words, the costs that README.md shows, the list of laws, that the code on a
# page is in a crate, and that the pages exist which sources and scripts name.
#
#   tests/pages/pages.sh [llvm | rattle | PROGRAM [PAGE..]]
#
# If pages are named, such as docs/words.md, the blocks of the others are not run, and their code is not looked up.
# Nothing is proved: a substitute for `rt` gives the program. If clasp is not installed, a substitute gives its stored answers. Needs
# bash, the usual tools of a shell, make and Python 3.11.
. "$(dirname "$0")/../kit/kit.sh"
every_page=(README.md CONTRIBUTING.md CHANGELOG.md {bench,certified,examples}/README.md docs/*.md)
pages=("${@:2}")
[ ${#pages[@]} -gt 0 ] || pages=("${every_page[@]}")
ls -- "${pages[@]}" > /dev/null || exit 2
! grep -qF inrc2pb-fits "${pages[@]}" || needs crates/who_fits/out/who_fits
needs_bound
. tests/kit/stand_ins.sh

mkdir -p "$room/home" "$room/copy"
tar -cf - --exclude=./out --exclude='./crates/*/out' --exclude=./.git . | tar -xf - -C "$room/copy"
mkdir -p "$room/copy/out" "$room/copy/crates/inrc2pb/out"
cp "$program" "$room/copy/out/inrc2pb"
cp "$program" "$room/copy/crates/inrc2pb/out/inrc2pb"
cp "$bound" "$room/copy/out/inrc2pb-bound"
cp "$program" "$room/bin/inrc2pb"
cp "$bound" "$room/bin/inrc2pb-bound"
if [ -x crates/who_fits/out/who_fits ]; then
    cp crates/who_fits/out/who_fits "$room/copy/out/inrc2pb-fits"
    cp crates/who_fits/out/who_fits "$room/bin/inrc2pb-fits"
fi

# `rt run` has nothing to do in the copy; `rt try` runs each case of a folder, in a folder with the files that it is given.
stand_in rt << 'END'
#!/usr/bin/env bash
[ "$1" = try ] || exit 0
shift
folder=$(mktemp -d)
while [ "$1" = --data ]; do
    cp "${2#*=}" "$folder/${2%%=*}"
    shift 2
done
for words in "$2"/*.args; do
    name=$(basename "$words" .args)
    echo "== $name"
    mapfile -t words < "$words"
    (cd "$folder" && inrc2pb "${words[@]}")
    echo "case=$name run=ended status=$? runners=1 proved=no"
done
END
for name in man apt-get; do
    printf '#!/bin/sh\n' | stand_in $name
done
stand_in_for_clasp
stand_in_for_cbc
# A search of the planner that a page shows without --time has five seconds here, and the example ward begins on Monday, 30 Nov 2026.
stand_in inrc2pb-plan << END
#!/usr/bin/env bash
case " \$* " in
    *' new ') PYTHONPATH='$room/work/python' exec python3 -c 'import datetime, pathlib, sys
from inrc2pb.commands import ward
print(*ward.new(pathlib.Path(sys.argv[1]), datetime.date(2026, 11, 28)), sep="\n")' "\$1" ;;
    *' --time '*) ;;
    *' plan '* | *' ill '*) set -- "\$@" --time 5 ;;
    # The plan of five seconds may have a wide gap, which is asked about before it is hung up.
    *' page '*) set -- "\$@" --do ;;
esac
exec '$room/work/python/inrc2pb-plan' "\$@"
END

# script_of PAGE: its shell blocks, each with a line that names it before, and its blocks of text to files of the room.
script_of() {
    awk -v room="$room" -v page="$(basename "$1")" '
        /^```/ && kind != "" { if (kind == "sh") last = number; kind = ""; next }
        /^```sh$/ { kind = "sh"; number += 1; print "exec > " room "/" page "." number ".out 2>&1"; next }
        /^```text( example)?$/ { kind = "text"; text = room "/" page "." last "." ($2 == "" ? "text" : $2); printf "" > text; next }
        /^```/ { kind = "other"; next }
        kind == "sh" { print }
        kind == "text" { print > text }
    ' "$1"
}

# prints_in_order TEXT OUTPUT: each line of the text is one of the output, in this order. A line `..` means more lines, and ` ..` at the
# end of a line for more words.
prints_in_order() {
    awk 'function is_shown(line, shown) { return line == shown || (sub(/ \.\.$/, "", shown) && index(line, shown) == 1) }
        NR == FNR { if ($0 != "..") shown[++lines] = $0; next } is_shown($0, shown[at + 1]) { at += 1 } END { exit at < lines }' "$1" "$2"
}

# words_of FILE: its lines without what another plan changes: figures, names and days.
words_of() {
    sed -E 's/\b(Amara|Bruno|Chen|Dilek|Ewa|Finn|Grace)\b/NAME/g; s/\b(Mon|Tue|Wed|Thu|Fri|Sat|Sun)\b/DAY/g; s/[0-9]+( to [0-9]+)?/0/g' "$1"
}

# runs_script: the blocks of the page $what, in a new copy of the repository.
runs_script() {
    rm -rf "$room/work"
    cp -a "$room/copy" "$room/work"
    (cd "$room/work" && HOME=$room/home PATH=$room/bin:$room/work/python:$PATH LIMIT=20 timeout 1800 bash -eu "$room/script" < /dev/null)
    case $? in
        0) ;;
        124) complain 'it does not end in 1800 s: the machine is slow, or a block waits' ;;
        *) complain "a block ends with a fault: $(tail -n 3 "$room/$(basename "$what")".*.out)" ;;
    esac
}

runs_blocks() {
    local page=$1 text
    what=$page
    script_of "$page" > "$room/script"
    checked=$((checked + $(grep -c '^exec > ' "$room/script")))
    [ ! -s "$room/script" ] || runs_script
    for text in "$room/$(basename "$page")".*.{text,example}; do
        [ -e "$text" ] || continue
        case $text in
            *.text) prints_in_order "$text" "${text%.*}.out" ;;
            *) prints_in_order <(words_of "$text" | sort -u) <(words_of "${text%.*}.out" | sort -u) ;;
        esac || complain "not printed as shown: $(cat "${text%.*}.out")"
    done
}

# The pages and headings that these pages name exist.
links_hold() {
    begins_case 'the links of pages'
    tests/pages/links.py "$@" > "$room/links" || complain "$(cat "$room/links")"
}

# A link to a heading that is not there is named, and so is one to no file.
dead_links_are_named() {
    begins_case 'dead links'
    printf '# When, and *why*?\n# Why\n# Why\n[](#when-and-why) [](#why-1) [](#why-2) [](%s#the-layers) [](%s#none) [](none.md)\n' \
        "$PWD/docs/layers.md" "$PWD/docs/layers.md" > "$room/planted.md"
    tests/pages/links.py "$room/planted.md" | sed "s|^$room/planted.md: ||" > "$room/links"
    printf '%s\n' '#why-2: there is no such heading' "$PWD/docs/layers.md#none: there is no such heading" 'there is no none.md' > "$room/wanted"
    cmp -s "$room/links" "$room/wanted" || complain "$(cat "$room/links")"
}

# A path with too many words is named, and so is a question that its page does not answer, or that has a page of no path.
mistakes_of_paths_are_named() {
    begins_case 'paths that are too long, and questions without an answer'
    PYTHONPATH=tests/pages python3 > "$room/mistakes" << 'END'
import paths

readers = paths.readers_of("a nurse | 1\n    README.md | inrc2pb\n")
lines = ("a nurse", "What? | README.md | inrc2pb | these words", "Where? | README.md | none | words", "Who? | docs/words.md | Words | Each word")
print(*paths.mistakes(readers, paths.questions_of("\n".join(lines))), sep="\n")
END
    printf '%s\n' 'the path of a nurse has N words, and should have 1' 'README.md: What? "inrc2pb" does not say: these words' \
        'README.md: Where? there is no heading "none"' 'docs/words.md: Who? the path of a nurse has no such page' \
        'there are 3 questions, and not 60 to 100' > "$room/wanted"
    sed -i -E 's/has [0-9]+ words/has N words/' "$room/mistakes"
    cmp -s "$room/mistakes" "$room/wanted" || complain "$(cat "$room/mistakes")"
}

shows_costs() {
    local five=(--sce ward.txt --his history-0.txt --week week-0.txt) name cost
    begins_case 'the costs of the roster in README.md'
    (cd examples/n005w4 && "$program" decode "${five[@]}" --answer answers/clasp-optimum.txt --sol /dev/null > "$room/report")
    while read -r name cost; do
        case $name in
            S?) grep -q "^| $name |.* $cost |$" README.md || complain "another cost of $name than $cost" ;;
        esac
    done < "$room/report"
}

# Code that a page shows is a run of lines of a crate's source, definitions or proofs.
quotes_code() {
    local kind blocks number code
    for kind in rust antt; do
        blocks=$(grep -c "^\`\`\`$kind\$" "$1") || continue
        begins_case "the $kind in $1"
        case $kind in
            rust) code=$(find crates/*/src -name '*.rt' -exec cat {} +) ;;
            antt) code=$(find crates/*/specs crates/*/proofs -name '*.antt' -exec cat {} +) ;;
        esac
        for number in $(seq "$blocks"); do
            [[ $'\n'$code$'\n' == *$'\n'"$(quote "$1" "$kind" "$number")"$'\n'* ]] ||
                complain "in no crate: $(quote "$1" "$kind" "$number")"
        done
    done
}

# quote PAGE KIND NUMBER: this block of code of the page.
quote() {
    awk -v wanted="$3" -v first="\`\`\`$2" '/^```/ { inside = $0 == first; number += inside; next } inside && number == wanted' "$1"
}

# The pages that sources and scripts name.
named_pages_exist() {
    local page
    begins_case 'the pages that sources and scripts name'
    while read -r page; do
        [ -e "$page" ] || complain "there is no $page, which is named in $(grep -rlF "$page" crates/*/src tests | head -n 3)"
    done < <(grep -rhoE --include='*.rt' --include='*.sh' --include='*.py' \
        '\b(docs|bench|certified)/[A-Za-z_]+\.md|\b(README|CONTRIBUTING|CHANGELOG)\.md' crates/*/src tests | sort -u)
}

for page in "${pages[@]}"; do
    runs_blocks "$page"
    quotes_code "$page"
done
links_hold "${every_page[@]}"
dead_links_are_named
named_pages_exist
mistakes_of_paths_are_named
begins_case "the words of the paths, and their readers' questions"
python3 tests/pages/paths.py > "$room/questions" || complain "$(cat "$room/questions")"
begins_case 'the list of laws'
python3 tests/pages/laws.py compare > "$room/laws" || complain "$(cat "$room/laws")"
shows_costs
finish
