#!/usr/bin/env bash
# The sample polls and houses, as README runs the first of each: what the proved program writes is the text beside each.
set -euo pipefail
. "$(dirname "$0")/../common.sh"
takes_nothing "$@"
needs rt python3
cd "$root"
examples/poll.sh | cmp - examples/two_answers.out
examples/house.sh | cmp - examples/two_wards.out
for kind in poll house; do
    count=0
    for list in examples/*."$kind"; do
        "examples/$kind.sh" "$list" | cmp - "${list%."$kind"}.out"
        count=$((count + 1))
    done
    echo "samples: $count of a $kind as on paper"
done
# The line cart alone makes the difference.
[[ $(examples/poll.sh <(grep -v '^cart$' examples/cart.poll)) == "poll 17 0"$'\n'* ]]
