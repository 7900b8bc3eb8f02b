#!/usr/bin/env bash
# The proved library beside the separately written program on random sheets, by the C entry and by the report's text: no difference may be
# found, contested must be the number of marked rounds, and in a run of 100,000 sheets or more every kind of step, stance and refusal must be
# reached, flags of unmarked and of marked rounds many times; and for every n (02, wish 8) L = W opened, L = W - 1 refused, and a commit and a
# decision with an L below 01's window. Each sheet is run as the bedside cart too (02, wish 9), by the report's text: a commit and a decision
# for every n from 1 to 16, 1 and 2 at its limits where the server opens, and each refusal of a sheet in front of each later one. The seed and
# the counts are printed. Every 50th of the first 100,000 sheets goes through the report's program too.
#
# usage: tests/differential.sh [SHEETS [SEED]]      as long as one likes; 100,000 sheets from seed 1 in the gate
#                                               SHEETS is 1 or more, SEED 0 or more, each of at most 18 digits
set -euo pipefail
. "$(dirname "$0")/../common.sh"
helped "$@"
report=use_report
sheets=${1-100000}
seed=${2-1}
(($# <= 2)) || refuse "this is too much: ${*:3}"
[[ $sheets =~ ^0*[1-9][0-9]{0,17}$ ]] || refuse "'$sheets' is no number of sheets"
[[ $seed =~ ^[0-9]{1,18}$ ]] || refuse "'$seed' is no seed"

needs rt gcc rustc
cd "$root"
./build.sh reference "$report"
export BOARD_REPORT=target/bin/$report
target/reference/differential "$sheets" "$seed"

# A short run passes, and says that it is short.
if (($# == 0)); then
    target/reference/differential 200 7 >target/short.log || { cat target/short.log; exit 1; }
    grep -q '^200 sheets are too few for full coverage, [0-9]* short of it; 100000 are enough$' target/short.log
    echo "differential: a run of 200 sheets says that it is too short"
fi
