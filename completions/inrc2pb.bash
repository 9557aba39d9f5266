# shellcheck shell=bash
# Completion of inrc2pb's commands, options and file names, for bash. Written by completions/write.py.
_inrc2pb() {
    local word=${COMP_WORDS[COMP_CWORD]} before=${COMP_WORDS[COMP_CWORD - 1]} command='' at given choices
    for ((at = 1; at < COMP_CWORD; at++)); do
        case ${COMP_WORDS[at]} in
            encode | decode | extend)
                command=${COMP_WORDS[at]}
                break
                ;;
        esac
    done
    COMPREPLY=()
    # bash takes the sign of `--sce=file` for a word.
    if [ "$word" = = ]; then word=''; elif [ "$before" = = ]; then before=${COMP_WORDS[COMP_CWORD - 2]}; fi
    case $before in
        --sce | --his | --week | --fix | --opb | --sol | --answer | --from)
            compopt -o filenames 2> /dev/null
            mapfile -t COMPREPLY < <(compgen -f -- "$word")
            return
            ;;
    esac
    case $command in
        encode) choices='--sce --his --week --fix --early --opb --help' ;;
        decode) choices='--sce --his --week --fix --early --sol --answer --help' ;;
        extend) choices='--sce --his --week --fix --early --from --help' ;;
        *) choices='encode decode extend --help --version' ;;
    esac
    # An option that was given already is not offered again.
    for ((at = 1; at < COMP_CWORD; at++)); do
        given=${COMP_WORDS[at]}
        choices=" $choices "
        choices=${choices/ "$given" / }
    done
    mapfile -t COMPREPLY < <(compgen -W "$choices" -- "$word")
}
complete -F _inrc2pb inrc2pb
