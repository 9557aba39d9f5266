# shellcheck shell=bash
# Completion of the Python commands' verbs, options and file names, for bash. Written by completions/write.py.
_inrc2pb_command() {
    local word=${COMP_WORDS[COMP_CWORD]} first=() given wanted='^ +(-h, )?--[a-zA-Z0-9-]+' place=1
    COMPREPLY=()
    # The verb of inrc2pb-plan follows its folder.
    [[ ${COMP_WORDS[0]} != *inrc2pb-plan ]] || place=2
    if [[ $word != -* ]]; then
        # A word that is no option is a file, which bash completes, or a verb.
        [ "$COMP_CWORD" = $place ] || return
        wanted='^  [a-z]+ '
    elif [[ $place = 1 && ${COMP_WORDS[1]} != -* ]]; then
        first=("${COMP_WORDS[1]}")
    fi
    for given in "${COMP_WORDS[@]:1}"; do
        [[ ${COMP_WORDS[0]} = *inrc2pb-solve ]] || break
        case $given in --inrc2 | --model | --answer) [ "$given" = "$word" ] || first=("$given") ;; esac
    done
    wanted=$("${COMP_WORDS[0]}" "${first[@]}" --help 2> /dev/null | grep -oE -- "$wanted" | sed 's/-h,//')
    mapfile -t COMPREPLY < <(compgen -W "$wanted" -- "$word")
}
complete -o default -F _inrc2pb_command inrc2pb-plan inrc2pb-roster inrc2pb-solve
