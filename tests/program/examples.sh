#!/usr/bin/env bash
# Compares what the program writes for the week of examples/n005w4 with its model there, byte for byte. That model was made
# by two encoders that were written apart from each other and from this program. The tables that the readers find in the
# week's files are compared with tests/data/n005w4_tables.txt, as copied from the files by hand.
#
#   tests/program/examples.sh [llvm | rattle | PROGRAM]
#
# Also runs `call_report`. Needs bash and the usual tools of a shell.
. "$(dirname "$0")/../kit/kit.sh"
needs_reporter

cp examples/n005w4/*.txt examples/n005w4/week0.opb tests/data/n005w4_tables.txt "$room"
# The tables end with the size of the model, which its first line gives.
size=$(head -n 1 "$room/week0.opb" | tr -cd '0-9 ' | xargs)
printf 'by %s\n' "arithmetic $size" "counting $size" >> "$room/n005w4_tables.txt"

run 'five nurses' 0 week0.opb nothing encode --sce ward.txt --his history-0.txt --week week-0.txt
reports 'five nurses, as tables' n005w4_tables.txt ward.txt history-0.txt week-0.txt
finish
