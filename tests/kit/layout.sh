#!/usr/bin/env bash
# Says which files of crates are not laid out as `rt fmt` does it: the gate refuses them.
#
#   tests/kit/layout.sh [CRATE..]
#
# Without a name it looks at all crates. It works on a copy. Ends with status 1 if there is such a file.
cd "$(dirname "$0")/../.." || exit 2
room=$(mktemp -d) || exit 2
trap 'rm -rf "$room"' EXIT

crates=("$@")
[ $# -gt 0 ] || mapfile -t crates < <(find crates -mindepth 1 -maxdepth 1 -printf '%f\n' | sort)
cp crates.txt "$room"
mkdir "$room/crates" "$room/.git"
for crate in "${crates[@]}"; do
    for part in src specs proofs; do
        [ ! -d "crates/$crate/$part" ] || cp -R --parents "crates/$crate/$part" "$room"
    done
    (cd "$room/crates/$crate" && rt fmt 2>&1) | sed -n "s|^rt: formatted |crates/$crate/|p"
done > "$room/found"
[ ! -s "$room/found" ] || { sed 's/$/: run rt fmt in the folder of its crate/' "$room/found"; exit 1; }
