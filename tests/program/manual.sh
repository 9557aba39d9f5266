#!/usr/bin/env bash
# The manual page, the completions and the program's help name the same commands and options, in the same words.
#
#   tests/program/manual.sh [llvm | rattle | PROGRAM]
#
# Needs bash, the usual tools of a shell and Python 3.11; where mandoc or man is installed, all manual pages are checked by it
# too, and where zsh or fish is, the completion for it.
. "$(dirname "$0")/../kit/kit.sh"
# shellcheck source=completions/inrc2pb.bash
. completions/inrc2pb.bash
# shellcheck source=completions/inrc2pb-bound.bash
. completions/inrc2pb-bound.bash
# shellcheck source=completions/inrc2pb-commands.bash
. completions/inrc2pb-commands.bash
needs_bound

# The options that the lines on standard input name, in one line.
options() { grep -oE '(^| |\[)--?[a-z]+' | grep -oE -- '--[a-z]+' | sort -u | tr '\n' ' '; }

# The synopsis of one command in the manual page, as words.
synopsis() {
    awk -v command="$1" '
        /^\.Sh/ { inside = $2 == "SYNOPSIS" }
        inside && /^\.Nm/ { mine = 0 }
        inside && $1 == ".Cm" && $2 == command { mine = 1 }
        inside && mine { gsub(/^\.(Op )?Fl -/, "--"); print }
    ' man/inrc2pb.1
}

# The options that the manual page explains.
explained() { sed -n '/^\.Sh OPTIONS/,/^\.Sh FILES/s/^\.It Fl \(. , \)\{0,1\}-/--/p' man/inrc2pb.1; }

# texts_of_help [COMMAND]: a line `OPTION TEXT` for each option in its help, without the default.
texts_of_help() {
    "$program" "$@" --help | sed -nE 's/^ *(-[a-zA-Z], )?--([a-z]+)( <FILE>(\.\.\.)?)?  +([^[]*[^[ ]).*/\2 \5/p' | sort
}

# texts_of_completion COMMAND: the same of the completion for zsh.
texts_of_completion() {
    sed -n "/^ *$1)\$/,/;;/p" completions/_inrc2pb | sed -nE "s/^ *'--([a-z]+)\[(.*)\](:.*)?'.*/\1 \2/p" | sed "s/'\\\\''/'/g" | sort
}

# texts_of_manual OPTION..: the same of the first sentence of each of these options in the manual page.
texts_of_manual() {
    awk -v options=" $* " '
        /^\.Sh/ { inside = $2 == "OPTIONS" }
        inside && /^\.It Fl/ { name = $0; sub(/.* -/, "", name); sub(/ .*/, "", name); text = name; next }
        inside && name != "" { text = text " " $0 }
        inside && name != "" && /\.$/ { sub(/\.$/, "", text); if (index(options, " " name " ")) print text; name = "" }
    ' man/inrc2pb.1 | sort
}

# complete_words WORD..: the words that the completion offers for the last of these.
complete_words() {
    COMP_WORDS=("$@")
    COMP_CWORD=$(($# - 1))
    _inrc2pb
    printf '%s\n' "${COMPREPLY[@]}" | sort | tr '\n' ' '
}

# is WHAT FOUND WANTED
is() {
    begins_case "$1"
    [ "$2" = "$3" ] || complain "'$2', not '$3'"
}

names_the_same() {
    local command shown about all='--version '
    for command in encode decode extend; do
        shown=$("$program" $command --help | grep '^ *-' | options)
        all+=$shown
        is "synopsis of $command" "$(synopsis $command | options)" "${shown/--help /}"
        is "completion of $command" "$(complete_words inrc2pb $command --)" "$shown"
        is "words of the completion of $command" "$(texts_of_completion $command)" "$(texts_of_help $command)"
        # shellcheck disable=SC2086  # Each option is a word.
        is "words of the manual page on $command" "$(texts_of_manual ${shown//--/})" "$(texts_of_help $command)"
        begins_case "what the completions say of $command"
        about=$("$program" $command --help | head -n 1 | sed "s/'/'\\\\''/")
        grep -qF "'${command}[$about]'" completions/_inrc2pb || complain 'zsh: another text'
        grep -qF -- "-a $command -d '$about'" completions/inrc2pb.fish || complain 'fish: another text'
    done
    is 'words of the manual page on the program itself' "$(texts_of_manual help version)" "$(texts_of_help)"
    is 'options explained' "$(explained | options)" "$(tr ' ' '\n' <<< "$all" | sort -u | sed '/^$/d' | tr '\n' ' ')"
    shown=$("$program" --help | sed -n 's/^  \([a-z]*\)  [A-Z].*/\1/p' | sort | tr '\n' ' ')
    is 'commands completed' "$(complete_words inrc2pb '')" "--help --version $shown"
}

completes() {
    is 'the rest of a command' "$(complete_words inrc2pb en)" 'encode '
    is 'the rest of an option' "$(complete_words inrc2pb decode --a)" '--answer '
    is 'an option once' "$(complete_words inrc2pb extend --sce a --his b --week c --early --)" '--fix --from --help '
    is 'a file after the sign' "$(cd "$room" && touch week.first && complete_words inrc2pb encode --sce = week.f)" 'week.first '
    is 'files after the sign' "$(cd "$room" && complete_words inrc2pb encode --week = | tr ' ' '\n' | grep -x week.first)" 'week.first'
    is 'a file' "$(cd "$room" && touch week.first week.second && complete_words inrc2pb encode --sce week.)" \
        "$(cd "$room" && echo week.* | tr ' ' '\n' | sort | tr '\n' ' ')"
}

# offered WORD..: the words that the completion of the Python commands offers for the last of these.
offered() {
    COMP_WORDS=("$@")
    COMP_CWORD=$(($# - 1))
    _inrc2pb_command
    printf '%s\n' "${COMPREPLY[@]}" | sort | tr '\n' ' '
}

completes_commands() {
    is 'options of a verb' "$(offered python/inrc2pb-roster next --)" '--help --his --new-period --out --roster --sce --version '
    is 'options of a command' "$(offered python/inrc2pb-solve --a)" '--ahead --answer '
    is 'options of a mode' "$(offered python/inrc2pb-solve --inrc2 --c)" '--cusIn --cusOut '
    is 'verbs' "$(offered python/inrc2pb-roster '')" 'check fits names next referee results show swap why '
    is 'verbs after a folder' "$(offered python/inrc2pb-plan 'my ward' p)" 'page plan '
    is 'options after a folder and a verb' "$(offered python/inrc2pb-plan 'my ward' files --c)" '--credit '
    is 'a file, which bash completes' "$(offered python/inrc2pb-roster show ward.txt '')" ' '
}

# offered_by_zsh WORD..: the offers of the completion of the Python commands in zsh for the last of these; `files` are file names.
offered_by_zsh() {
    zsh -fc 'compadd() { print -l -- ${(P)2} }; _files() { print files }; words=("$@"); CURRENT=$#; . completions/_inrc2pb-commands' zsh "$@"
}

# offered_by_fish WORD..: the same in fish.
offered_by_fish() { fish -c "source completions/inrc2pb-commands.fish; complete -C '$*'" | cut -f 1; }

# offers SHELL: the verbs of the Python commands, and the options of a verb, are completed in this shell as in bash.
offers() {
    is "verbs in $1" "$("offered_by_$1" python/inrc2pb-roster '' | sort | tr '\n' ' ')" "$(offered python/inrc2pb-roster '')"
    is "verbs after a folder in $1" "$("offered_by_$1" python/inrc2pb-plan ward '' | sort | tr '\n' ' ')" "$(offered python/inrc2pb-plan ward '')"
    is "options of a verb in $1" "$("offered_by_$1" python/inrc2pb-roster next -- | sort | tr '\n' ' ')" "$(offered python/inrc2pb-roster next --)"
}

# The completions are as completions/write.py writes them, and their shells read them.
completions_are_written() {
    local file offered
    begins_case 'the completions'
    completions/write.py "$room"
    for file in inrc2pb{,-bound,-commands}.{bash,fish} _inrc2pb{,-bound,-commands}; do
        cmp -s "$room/$file" "completions/$file" || complain "$file is not as write.py writes it"
    done
    if has zsh 4; then
        begins_case 'the completions in zsh'
        for file in completions/_*; do
            zsh -n "$file" || complain "zsh does not read $file"
        done
        offers zsh
    fi
    if has fish 6; then
        offers fish
        for file in encode decode extend; do
            offered=$(fish -c "source completions/inrc2pb.fish; complete -C 'inrc2pb $file --'" | cut -f 1 | sort | tr '\n' ' ')
            is "fish's completion of $file" "$offered" "$(complete_words inrc2pb $file --)"
        done
    fi
}

# names_the_same_of NAME PROGRAM COMPLETION: the same of a program of one command: its synopsis, its options explained, its completion and
# its help.
names_the_same_of() {
    local name=$1 program=$2 shown page=man/$1.1
    shown=$("$program" --help | grep '^ *-' | options)
    is "synopsis of $name" "$(sed -n '/^\.Sh SYNOPSIS/,/^\.Sh DESC/s/^\.\(O[op] \)\{0,1\}Fl -/--/p' "$page" | options)" \
        "$(sed 's/--help //; s/--version //' <<< "$shown")"
    is "options explained of $name" \
        "$(sed -n '/^\.Sh OPTIONS/,/^\.Sh FILES/s/^\.It Fl \(. , Fl \)\{0,1\}-/--/p' "$page" | options)" "$shown"
    COMP_WORDS=("$name" --)
    COMP_CWORD=1
    $3
    is "completion of $name" "$(printf '%s\n' "${COMPREPLY[@]}" | sort | tr '\n' ' ')" "$shown"
    is "words of the completion of $name" \
        "$(sed -nE "s/^ *'\*?--([a-z]+)\[(.*)\](:.*)?'.*/\1 \2/p" "completions/_$name" | sort)" "$(texts_of_help)"
}

# is_manual PAGE: mandoc and man read it.
is_manual() {
    if has mandoc; then
        begins_case "the manual page $1 in mandoc"
        # Its messages about other pages depend on the machine.
        mandoc -Tlint "$1" 2> /dev/null | grep -v ' STYLE: referenced manual not found' && complain 'mandoc complains'
    fi
    if ! man --version 2> /dev/null | grep -q man-db; then
        skips 1 'needs man-db'
    else
        begins_case "the manual page $1 in man"
        [ -z "$(LC_ALL=C man --warnings -l -Tascii "$1" 2>&1 > /dev/null)" ] || complain 'man warns'
    fi
}

names_the_same
names_the_same_of inrc2pb-bound "$bound" _inrc2pb_bound
completes
completes_commands
completions_are_written
for page in man/*.1; do
    is_manual "$page"
done
finish
