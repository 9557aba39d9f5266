# shellcheck shell=bash
# Completion of inrc2pb-bound's options and file names, for bash. Written by completions/write.py.
_inrc2pb_bound() {
    local word=${COMP_WORDS[COMP_CWORD]} before=${COMP_WORDS[COMP_CWORD - 1]} given choices='--sce --his --week --fix --early --given --proof --roster --minimums --help --version'
    COMPREPLY=()
    # bash takes the sign of `--sce=file` for a word.
    if [ "$word" = = ]; then word=''; elif [ "$before" = = ]; then before=${COMP_WORDS[COMP_CWORD - 2]}; fi
    case $before in
        --sce | --his | --week | --fix | --given | --proof | --roster)
            compopt -o filenames 2> /dev/null
            mapfile -t COMPREPLY < <(compgen -f -- "$word")
            return
            ;;
    esac
    # An option that was given already is not offered again, but --week and --fix and --roster are.
    for given in "${COMP_WORDS[@]:1:COMP_CWORD-1}"; do
        case $given in --week | --fix | --roster) continue ;; esac
        choices=" $choices "
        choices=${choices/ "$given" / }
    done
    mapfile -t COMPREPLY < <(compgen -W "$choices" -- "$word")
}
complete -F _inrc2pb_bound inrc2pb-bound
