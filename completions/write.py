#!/usr/bin/env python3
"""Writes the completions of the programs and the Python commands for bash, zsh and fish from one
description of the commands and options.

tests/program/manual.sh compares the files with the output of this script, and their words with
those of the program's help and of the manual page. Needs Python 3.11 or later.
"""

import argparse
from pathlib import Path
from typing import Dict, Iterator, List, Tuple

# An option's argument, or '', and its text in the program's help, without its default.
Option = Tuple[str, str]
Options = Dict[str, Option]

ANY: Options = {
    "--help": ("", "Print help"),
    "--version": ("", "Print version"),
}
WEEK: Options = {
    "--sce": ("file", "The scenario"),
    "--his": ("file", "The history before the week"),
    "--week": ("file", "The requirements and requests of the week"),
    "--fix": ("file", "Assignments to keep, as a solution file"),
    "--early": ("", "Charge excess assignments and weekends as soon as they occur"),
}
HELP = {"--help": ANY["--help"]}
OPB = {"--opb": ("file", "Where to write the model, replacing the file")}
SOL = {"--sol": ("file", "Where to write the solution, replacing the file")}
ANSWER = {"--answer": ("file", "The solver's answer")}
FROM = {"--from": ("file", "The roster, as a solution file")}
COMMANDS: Dict[str, Tuple[str, Options]] = {
    "encode": ("Writes the week as a pseudo-Boolean model", {**WEEK, **OPB, **HELP}),
    "decode": (
        "Turns a solver's answer into a solution file, and reports its costs",
        {**WEEK, **SOL, **ANSWER, **HELP},
    ),
    "extend": ("Turns a roster into a solver's answer", {**WEEK, **FROM, **HELP}),
}
BOUND: Options = {
    "--sce": WEEK["--sce"],
    "--his": ("file", "The history before the first week"),
    "--week": ("file", "The requirements and requests of each week, in order"),
    "--fix": ("file", "Assignments to keep, as a solution file; of week N of several as N=FILE"),
    "--early": WEEK["--early"],
    "--given": ("file", "Facts that all plans are asked to meet"),
    "--proof": ("file", "The certificate of the bound: prices, or a tree of cases with prices"),
    "--roster": ("file", "Rosters to judge, one for each week in order, as solution files"),
    "--minimums": ("", "Leave out the soft rules, to prove that no rosters exist"),
    **ANY,
}
# The programs of one command. The options of the second list may be given several times.
PLAIN: Dict[str, Tuple[Options, List[str]]] = {
    "inrc2pb-bound": (BOUND, ["--week", "--fix", "--roster"]),
}
FILES = list(
    dict.fromkeys(
        name
        for _, options in COMMANDS.values()
        for name, (kind, _) in options.items()
        if kind == "file"
    )
)

BASH = """\
# shellcheck shell=bash
# Completion of inrc2pb's commands, options and file names, for bash. Written by completions/write.py.
_inrc2pb() {
    local word=${COMP_WORDS[COMP_CWORD]} before=${COMP_WORDS[COMP_CWORD - 1]} command='' at given choices
    for ((at = 1; at < COMP_CWORD; at++)); do
        case ${COMP_WORDS[at]} in
            %(names)s)
                command=${COMP_WORDS[at]}
                break
                ;;
        esac
    done
    COMPREPLY=()
    # bash takes the sign of `--sce=file` for a word.
    if [ "$word" = = ]; then word=''; elif [ "$before" = = ]; then before=${COMP_WORDS[COMP_CWORD - 2]}; fi
    case $before in
        %(files)s)
            compopt -o filenames 2> /dev/null
            mapfile -t COMPREPLY < <(compgen -f -- "$word")
            return
            ;;
    esac
    case $command in
%(choices)s
        *) choices='%(top)s' ;;
    esac
    # An option that was given already is not offered again.
    for ((at = 1; at < COMP_CWORD; at++)); do
        given=${COMP_WORDS[at]}
        choices=" $choices "
        choices=${choices/ "$given" / }
    done
    mapfile -t COMPREPLY < <(compgen -W "$choices" -- "$word")
}
complete -F _inrc2pb inrc2pb
"""

PLAIN_BASH = """\
# shellcheck shell=bash
# Completion of %(program)s's options and file names, for bash. Written by completions/write.py.
%(function)s() {
    local word=${COMP_WORDS[COMP_CWORD]} before=${COMP_WORDS[COMP_CWORD - 1]} given choices='%(options)s'
    COMPREPLY=()
    # bash takes the sign of `--sce=file` for a word.
    if [ "$word" = = ]; then word=''; elif [ "$before" = = ]; then before=${COMP_WORDS[COMP_CWORD - 2]}; fi
    case $before in
        %(files)s)
            compopt -o filenames 2> /dev/null
            mapfile -t COMPREPLY < <(compgen -f -- "$word")
            return
            ;;
    esac
    # An option that was given already is not offered again%(but)s.
    for given in "${COMP_WORDS[@]:1:COMP_CWORD-1}"; do
%(skip)s        choices=" $choices "
        choices=${choices/ "$given" / }
    done
    mapfile -t COMPREPLY < <(compgen -W "$choices" -- "$word")
}
complete -F %(function)s %(program)s
"""

# The Python commands' own help names their verbs and options, so their completion needs no list.
COMMANDS_BASH = """\
# shellcheck shell=bash
# Completion of the Python commands' verbs, options and file names, for bash. Written by completions/write.py.
_inrc2pb_command() {
    local word=${COMP_WORDS[COMP_CWORD]} first=() given wanted='^ +(-h, )?--[a-zA-Z0-9-]+' place=1
    COMPREPLY=()
    # The verb of inrc2pb-plan follows its folder.
    [[ ${COMP_WORDS[0]} != *inrc2pb-plan ]] || place=2
    if [[ $word != -* ]]; then
        # A word that is no option is a file, which bash completes, or a verb.
        [ "$COMP_CWORD" = $place ] || return
        wanted='^  [a-z]+ '
    elif [[ $place = 1 && ${COMP_WORDS[1]} != -* ]]; then
        first=("${COMP_WORDS[1]}")
    fi
    for given in "${COMP_WORDS[@]:1}"; do
        [[ ${COMP_WORDS[0]} = *inrc2pb-solve ]] || break
        case $given in --inrc2 | --model | --answer) [ "$given" = "$word" ] || first=("$given") ;; esac
    done
    wanted=$("${COMP_WORDS[0]}" "${first[@]}" --help 2> /dev/null | grep -oE -- "$wanted" | sed 's/-h,//')
    mapfile -t COMPREPLY < <(compgen -W "$wanted" -- "$word")
}
complete -o default -F _inrc2pb_command %(names)s
"""

COMMANDS_ZSH = """\
#compdef %(names)s
# Completion of the Python commands' verbs, options and file names, for zsh. Written by completions/write.py.
_inrc2pb_command() {
    local word=$words[CURRENT] first=() offered=() given wanted='^ +(-h, )?--[a-zA-Z0-9-]+' place=2
    # The verb of inrc2pb-plan follows its folder.
    [[ $words[1] != *inrc2pb-plan ]] || place=3
    if [[ $word != -* ]]; then
        # A word that is no option is a verb or a file.
        (( CURRENT == place )) || { _files; return }
        wanted='^  [a-z]+ '
    elif [[ $words[1] = *inrc2pb-roster && $words[2] != -* ]]; then
        first=($words[2])
    elif [[ $words[1] = *inrc2pb-solve ]]; then
        for given in $words; do
            case $given in (--inrc2|--model|--answer) [[ $given = $word ]] || first=($given) ;; esac
        done
    fi
    offered=($("${(Q)words[1]}" $first --help 2> /dev/null | grep -oE -- $wanted | sed 's/-h,//'))
    if (( $#offered )); then compadd -a offered; else _files; fi
}
_inrc2pb_command "$@"
"""

COMMANDS_FISH = """\
# Completion of the Python commands' verbs, options and file names, for fish. Written by completions/write.py.
function __inrc2pb_help
    set -l words (commandline -opc)
    set -l first
    if string match -q '*inrc2pb-roster' -- $words[1]
        set first $words[2]
    else if string match -q '*inrc2pb-solve' -- $words[1]
        set first (string match -r -- '^--(?:inrc2|model|answer)$' $words)[-1]
    end
    command $words[1] $first --help 2> /dev/null
end
# The verb of inrc2pb-plan follows its folder.
function __inrc2pb_awaits_verb
    set -l words (commandline -opc)
    test (count $words) -eq (string match -q '*inrc2pb-plan' -- $words[1]; and echo 2; or echo 1)
end
for name in %(names)s
    complete -c $name -n 'string match -q -- "-*" (commandline -ct)' \\
        -a '(__inrc2pb_help | string replace -rf "^ +(?:-h, )?(--[a-zA-Z0-9-]+).*" "\\$1")'
end
for name in inrc2pb-plan inrc2pb-roster
    complete -c $name -n __inrc2pb_awaits_verb -f -a '(__inrc2pb_help | string replace -rf "^  ([a-z]+) .*" "\\$1")'
end
"""

ZSH = """\
#compdef inrc2pb
# Completion of inrc2pb's commands, options and file names, for zsh. Written by completions/write.py.
_inrc2pb() {
    local context state line
    typeset -A opt_args
    _arguments -C \\
%(top)s
        '1:command:->command' '*::argument:->argument'
    case $state in
        command)
            _values command \\
%(commands)s
            ;;
        argument)
            case $line[1] in
%(cases)s
            esac
            ;;
    esac
}
_inrc2pb "$@"
"""


def quoted(text: str) -> str:
    """The text as one word of a shell."""
    return "'" + text.replace("'", "'\\''") + "'"


def bash() -> str:
    """The completion for bash."""
    choices = [
        f"        {name}) choices='{' '.join(options)}' ;;"
        for name, (_, options) in COMMANDS.items()
    ]
    return BASH % {
        "names": " | ".join(COMMANDS),
        "files": " | ".join(FILES),
        "choices": "\n".join(choices),
        "top": " ".join([*COMMANDS, *ANY]),
    }


def plain_bash(program: str) -> str:
    """The completion of a program of one command for bash."""
    options, again = PLAIN[program]
    return PLAIN_BASH % {
        "program": program,
        "function": "_" + program.replace("-", "_"),
        "files": " | ".join(name for name, (kind, _) in options.items() if kind == "file"),
        "options": " ".join(options),
        "but": f", but {' and '.join(again)} are" if again else "",
        "skip": f"        case $given in {' | '.join(again)}) continue ;; esac\n" if again else "",
    }


def argument(name: str, kind: str, about: str) -> str:
    """An option, as the completion for zsh describes it. A star before its name allows it again."""
    return quoted(f"{name}[{about}]" + (":file:_files" if kind else ""))


def plain_zsh(program: str) -> str:
    """The completion of a program of one command for zsh."""
    options, again = PLAIN[program]
    arguments = " \\\n".join(
        f"    {argument('*' * (name in again) + name, *what)}" for name, what in options.items()
    )
    return f"""#compdef {program}
# Completion of {program}'s options and file names, for zsh. Written by completions/write.py.
_arguments \\
{arguments}
"""


def zsh() -> str:
    """The completion for zsh."""
    cases = []
    for name, (_, options) in COMMANDS.items():
        arguments = " \\\n".join(
            " " * 24 + argument(option, *what) for option, what in options.items()
        )
        cases.append(
            f"                {name})\n                    _arguments \\\n{arguments}\n            "
            "        ;;"
        )
    return ZSH % {
        "top": "\n".join(f"        {argument(name, *what)} \\" for name, what in ANY.items()),
        "commands": " \\\n".join(
            f"                {quoted(f'{name}[{about}]')}" for name, (about, _) in COMMANDS.items()
        ),
        "cases": "\n".join(cases),
    }


def fish() -> Iterator[str]:
    """The lines of the completion for fish."""
    yield (
        "# Completion of inrc2pb's commands, options and file names, for fish. Written by"
        " completions/write.py."
    )
    yield "complete -c inrc2pb -f"
    for name, (_, about) in ANY.items():
        yield f"complete -c inrc2pb -n __fish_use_subcommand -l {name[2:]} -d {quoted(about)}"
    for command, (about, options) in COMMANDS.items():
        yield f"complete -c inrc2pb -n __fish_use_subcommand -a {command} -d {quoted(about)}"
        for option, (kind, meaning) in options.items():
            seen = f"'__fish_seen_subcommand_from {command}'"
            yield (
                f"complete -c inrc2pb -n {seen} -l {option[2:]}{' -r -F' if kind else ''} -d"
                f" {quoted(meaning)}"
            )


def plain_fish(program: str) -> Iterator[str]:
    """The lines of the completion of a program of one command for fish."""
    yield (
        f"# Completion of {program}'s options and file names, for fish. Written by"
        " completions/write.py."
    )
    yield f"complete -c {program} -f"
    for name, (kind, about) in PLAIN[program][0].items():
        yield f"complete -c {program} -l {name[2:]}{' -r -F' if kind else ''} -d {quoted(about)}"


def main() -> None:
    """Writes the files."""
    parser = argparse.ArgumentParser(description="Writes the completions for bash, zsh and fish.")
    here = Path(__file__).resolve().parent
    parser.add_argument(
        "folder",
        nargs="?",
        type=Path,
        default=here,
        help="where the files go [default: beside this script]",
    )
    folder = parser.parse_args().folder
    (folder / "inrc2pb.bash").write_text(bash())
    (folder / "_inrc2pb").write_text(zsh())
    (folder / "inrc2pb.fish").write_text("\n".join(fish()) + "\n")
    names = " ".join(sorted(path.name for path in (here.parent / "python").glob("inrc2pb-*")))
    texts = {
        "inrc2pb-commands.bash": COMMANDS_BASH,
        "_inrc2pb-commands": COMMANDS_ZSH,
        "inrc2pb-commands.fish": COMMANDS_FISH,
    }
    for name, text in texts.items():
        (folder / name).write_text(text % {"names": names})
    for program in PLAIN:
        (folder / f"{program}.bash").write_text(plain_bash(program))
        (folder / f"_{program}").write_text(plain_zsh(program))
        (folder / f"{program}.fish").write_text("\n".join(plain_fish(program)) + "\n")


if __name__ == "__main__":
    main()
