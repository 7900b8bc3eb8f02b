#!/usr/bin/env bash
# The program test_poll beside the separately written one on random polls in close contention (02, wish 6): no difference may be found, the
# claims of the wish and the bound on turns must hold of every poll, and in a run of 4,000 polls or more every answer, by each of its
# reasons, every refusal and every kind of turn must be reached, and answers for every n, in rounds below 01's window (02, wish 8); and as the
# bedside cart (02, wish 9) answers for every n from 1 to 16 and refusals of every one from 17 to 64; and polls that are closed by a session's
# close (02, wish 10), which are refused everything with 3. Then that wrong programs are found.
#
# usage: tests/polls.sh [POLLS [SEED]]      as long as one likes; 4,000 polls from seed 1, and the wrong programs, in the gate
set -euo pipefail
. "$(dirname "$0")/../common.sh"
helped "$@"
needs rt gcc rustc
cd "$root"
./build.sh reference test_poll
polls=$PWD/target/reference/polls
proved=$PWD/target/bin/test_poll
"$polls" "$proved" "${1-4000}" "${2-1}" "${@:3}"
(($# == 0)) || exit 0

out=target/tests/polls
rm -rf "$out"
mkdir -p "$out"

# A short run passes, and says that it is short.
"$polls" "$proved" 100 7 >"$out/short.log" || { cat "$out/short.log"; exit 1; }
grep -q '^100 polls are too few for full coverage, [0-9]* short of it; 4000 are enough$' "$out/short.log"
echo "polls: a run of 100 polls says that it is too short"

found() { # WHAT WORDS COMMAND..: 200 polls must end in a difference, or a claim that fails, told in those words
    local index
    if (cd "$out" && "${@:3}" 200 1 >found.log 2>&1) || ! grep -qE "^(difference|claim): seed 1 index [0-9]+: $2" "$out/found.log"; then
        echo "polls: $1 is not found, or in other words than '$2'"
        cat "$out/found.log"
        exit 1
    fi
    index=$(sed -nE 's/^(difference|claim): seed 1 index ([0-9]+): .*/\2/p' "$out/found.log")
    echo "polls: $1 is found at poll $((index + 1)) of 200"
}
found "a program that prints nothing" 'proved nothing, reference poll ' "$polls" true
found "a program that fails" 'a fault .exit status: 1. with 0 polls in one input' "$polls" false

# A wrong program: a copy of the separate one with a file that is edited by sed.
edited() { # FILE EDIT
    rm -rf "$out/src"
    cp -r reference/src "$out"
    sed -i "$2" "$out/src/$1"
    if cmp -s "reference/src/$1" "$out/src/$1"; then echo "polls: nothing to edit: $2" && exit 1; fi
    rustc --edition 2021 -C incremental="$out/incremental" --crate-type rlib --crate-name janus_reference "$out/src/lib.rs" -o "$out/libjanus_reference.rlib"
    rustc --edition 2021 -C incremental="$out/incremental" --crate-name polls --extern janus_reference="$out/libjanus_reference.rlib" reference/polls.rs -o "$out/polls"
}
wrong() { # WHAT FILE EDIT DIFFERENCE: beside the proved program it differs in those words
    edited "$2" "$3"
    found "a program that $1" "$4" ./polls "$proved"
}
wrong "commits without the checks" phase.rs 's/^            Phase::CheckMark(0)$/            Phase::Commit/' \
    'proved turn [0-9]+ 0 none, reference turn [0-9]+ 0 committed '
wrong "answers committed where a check fails" poll.rs 's/then_some(Answer::Adopted/then_some(Answer::Committed/' \
    'proved turn [0-9]+ 0 adopted ([0-9]+), reference turn [0-9]+ 0 committed \2$'
wrong "answers adopted with the first proposal" poll.rs '
    s/^    pub voters: .*/&\n    first: [u32; MAX_PROCESSES],/
    s/^            voters: session.*/&\n            first: [0; MAX_PROCESSES],/
    s/^        \*voter = Voter::Walking(Process {/        self.first[process] = value;\n&/
    s/^        let process = working(voter)?;/        let first = self.first[process];\n&/
    s/^        let answer = step(.*;/&\n        let adopts = matches!(answer, Some(Answer::Adopted(_)));\n        let answer = if adopts { Some(Answer::Adopted(first)) } else { answer };/' \
    'proved turn [0-9]+ 0 adopted [0-9]+, reference turn [0-9]+ 0 adopted [0-9]+$'
wrong "writes D at commit" poll.rs 's/^        return Some(Answer::Committed(process.estimate));/        board.write_decision(process.estimate);\n&/' \
    'proved tally ([0-9]+) [0-9]+ 0, reference tally \2 [0-9]+ 0$'
wrong "has 01's window" session.rs 's/smallest \* smallest < 4 \* n/smallest * smallest < n/; s/= smallest as u32;/= 2 * smallest as u32 + 1;/' \
    'proved (turn [0-9]+ 0 (committed|adopted) [0-9]+, reference turn [0-9]+ 0 none|seat 0 [a-z0-9 ]+, reference round [0-9]+ [0-9]+ (un)?marked)$'
wrong "has a window one less than the smallest" session.rs 's/= smallest as u32;/= (smallest as u32).saturating_sub(1);/' \
    'proved (turn [0-9]+ 0 none, reference turn [0-9]+ 0 (committed|adopted) [0-9]+|round [0-9]+ [0-9]+ (un)?marked, reference seat 0 [a-z0-9 ]+)$'
wrong "opens the cart's polls by the server's limits" poll.rs 's/caller.limits()/(caller, Caller::Server).1.limits()/' \
    'proved poll [0-9]+ 1, reference poll [0-9]+ 0$'
wrong "has soundness by the cart's seats" sound.rs 's/check_opening(Caller::Server/check_opening(Caller::Cart/' \
    'proved ([a-z]+ [0-9 ]+ [04]( none)?, reference [a-z]+ [0-9 ]+ 3( none)?|seat [0-9]+ [a-z0-9 ]+, reference seat [0-9]+ refused 3)$'
wrong "takes a closed poll for a sound one" poll.rs 's/^        !self.closed$/        true/' \
    'proved ([a-z]+) [a-z0-9 ]*3( none)?, reference \2 [a-z0-9 ]+$'

# On both sides, where nothing differs, the claims find it.
untrue() { # WHAT EDIT CLAIM
    edited poll.rs "$2"
    rustc --edition 2021 -C incremental="$out/incremental" --crate-name reference --extern janus_reference="$out/libjanus_reference.rlib" reference/src/main.rs -o "$out/reference"
    printf '#!/bin/sh\nexec ./reference polls\n' >"$out/beside"
    chmod +x "$out/beside"
    found "a program that $1, beside itself," "$3" ./polls ./beside
}
untrue "answers committed where a check fails" 's/then_some(Answer::Adopted/then_some(Answer::Committed/' 'a seat committed [0-9]+, seat [0-9]+ committed [0-9]+$'
untrue "answers adopted at commit" 's/return Some(Answer::Committed/return Some(Answer::Adopted/' 'one value proposed, seat [0-9]+ adopted [0-9]+$'
untrue "answers with the round" 's/then_some(Answer::Adopted(process.estimate))/then_some(Answer::Adopted(process.round))/' 'seat [0-9]+ adopted [0-9]+, which none proposed$'
untrue "refuses proposals to a closed poll with 18" '
    s/^        !self.closed$/        true/
    s/^            return Err(Refusal::SecondProposal);/&\n        }\n        if self.closed {\n            return Err(Refusal::ClosedToProposals);/' \
    'Propose \{ process: [0-9]+, value: [0-9]+ \} refused with 18$'
