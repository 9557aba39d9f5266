#!/usr/bin/env bash
# Makes the instances of docs/benchmark.md anew, compares the sums of their files and of their models, and lets the proved programs confirm
# the facts of each: its best roster is optimal, none exists, or the lower bound of the best roster known.
#
#   certified/check.sh [NAME ..]
#
# Takes some minutes for all. The programs are out/inrc2pb and out/inrc2pb-bound, or the one that INRC2PB names and the one in its folder.
set -u
cd "$(dirname "$0")/.." || exit 2
program=$(realpath "${INRC2PB:-out/inrc2pb}")
bound=$(dirname "$program")/inrc2pb-bound
if ! { [ -x "$program" ] && [ -x "$bound" ]; }; then
    echo "there is no $program, or no inrc2pb-bound beside it: type make"
    exit 2
fi
room=$(mktemp -d) || exit 2
trap 'rm -rf "$room"' EXIT
confirmed=0
failed=0

# row NAME: the row of the instance in the table.
row() { grep "^$1 " certified/table.txt | cut -d ' ' -f 4-9; }

# files_of WORD..: the files among the options, in the order of the programs: scenario, history, weeks and held cells.
files_of() { printf '%s\n' "$@" | grep -v '^--'; }

# is_as_known NAME WORD..: prints the result of the proof for the instance with these options; the status says whether the table agrees.
is_as_known() {
    local name=$1 words=("${@:2}") known=certified/known/$1 variables constraints files model best lower week rosters said
    [ "$(row "$name" | wc -l)" = 1 ] || { echo "$name: certified/table.txt has not one row of it"; return 1; }
    read -r variables constraints files model best lower < <(row "$name")
    [ "$(files_of "${words[@]}" | xargs cat | sha256sum)" = "$files  -" ] || { echo "$name: other files"; return 1; }
    # The model of a period is the model of its first week.
    week=("${words[@]:0:6}")
    case " ${words[*]} " in *' --fix '*) week=("${words[@]}") ;; *' --early '*) week+=(--early) ;; esac
    "$program" encode "${week[@]}" > "$room/model"
    [ "$(sha256sum < "$room/model")" = "$model  -" ] || { echo "$name: another model"; return 1; }
    [ "$(head -n 1 "$room/model")" = "* #variable= $variables #constraint= $constraints" ] || { echo "$name: other sizes"; return 1; }
    if [ "$best" = none ]; then
        said=$("$bound" "${words[@]}" --proof "$known/certificate.txt" --minimums)
        echo "$name: $said"
        [ "$said" = 'no roster exists' ]
        return
    fi
    mapfile -t rosters < <(printf -- '--roster\n%s\n' "$known"/roster-*.txt)
    [ "${#rosters[@]}" -gt 1 ] || return 1
    said=$("$bound" "${words[@]}" --proof "$known/certificate.txt" "${rosters[@]}" | paste -s -d ' ')
    echo "$name: $said"
    [ "$said" = "lower bound $lower penalty $best$([ "$best" != "$lower" ] || echo ' optimal')" ]
}

python3 certified/instances.py "$room" "$@" > "$room/options" || exit 2
while read -ra instance; do
    if is_as_known "${instance[@]}"; then confirmed=$((confirmed + 1)); else failed=$((failed + 1)); fi
done < "$room/options"
echo "$confirmed confirmed, $failed failed"
[ "$failed" = 0 ] && [ "$confirmed" -gt 0 ]
