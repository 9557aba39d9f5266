#!/usr/bin/env bash
# Prints the commit, the kit, whether the gate passed on that commit with that kit and these programs, and whether each edit of must-fail/ was
# refused there when it was tried alone: the file PROVED of an archive or a package.
#
#   package/proved.sh
#
# The gate leaves in out/gate its commit, its last line, its kit and the checksum of the programs that it tested; GATE names another
# file. PROGRAM and BOUND name other programs than inrc2pb and inrc2pb-bound of out.
# `make edits` leaves in out/edits/alone its commit, its last line and its kit; EDITS names another file.
set -u
cd "$(dirname "$0")/.." || exit 2
. package/commit.sh

kit=$(rt version 2> /dev/null || echo unknown)
gate='have not passed on this commit on the machine that built this'
if [ -r "${GATE:-out/gate}" ]; then
    { read -r gate_commit; read -r gate_line; read -r gate_kit; read -r gate_sum; } < "${GATE:-out/gate}"
    if [ "$gate_commit" = "$commit" ] && [ "$gate_kit" = "$kit" ] && is_committed && [[ $gate_line == *' passed, 0 failed, '*' skipped' ]]; then
        gate="passed on this commit: $gate_line"
        sum=$(sum_of "${PROGRAM:-out/inrc2pb}" "${BOUND:-out/inrc2pb-bound}")
        [ "$gate_sum" = "$sum" ] ||
            gate='passed on this commit, but with another build of the programs'
    fi
fi
edits='have not been tried one by one on this commit on the machine that built this'
if [ -r "${EDITS:-out/edits/alone}" ]; then
    { read -r edits_commit; read -r edits_line; read -r edits_kit; } < "${EDITS:-out/edits/alone}"
    if [ "$edits_commit" = "$commit" ] && [ "$edits_kit" = "$kit" ] && is_committed && [[ $edits_line == *' passed, 0 failed' ]]; then
        edits="refused one by one on this commit: $edits_line"
    fi
fi
echo "commit: $commit"
echo "kit: $kit"
echo "proofs and tests: $gate"
echo "edits: $edits"
