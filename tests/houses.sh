#!/usr/bin/env bash
# The program test_house beside the separately written one on random houses (02, wish 11): no difference may be found, the claims of the
# wish must hold of every house, and in a run of 800 houses or more every place, every end of an outer round, every refusal of every call,
# each reason of 1, 19 and 3, and what 3 leaves free must be reached, and a first house write in each outer round. Then that wrong programs
# are found: beside the proved one by a difference, and those that break a claim also beside themselves.
#
# usage: tests/houses.sh [HOUSES [SEED]]      as long as one likes; 800 houses from seed 1, and the wrong programs, in the gate
set -euo pipefail
. "$(dirname "$0")/../common.sh"
helped "$@"
needs rt gcc rustc
cd "$root"
./build.sh reference test_house
houses=$PWD/target/reference/houses
proved=$PWD/target/bin/test_house
"$houses" "$proved" "${1-800}" "${2-1}" "${@:3}"
(($# == 0)) || exit 0

out=target/tests/houses
rm -rf "$out"
mkdir -p "$out"

# A short run passes, and says that it is short.
"$houses" "$proved" 40 7 >"$out/short.log" || { cat "$out/short.log"; exit 1; }
grep -q '^40 houses are too few for full coverage, [0-9]* short of it; 800 are enough$' "$out/short.log"
echo "houses: a run of 40 houses says that it is too short"

# test_house calls the functions that take the counts by value. A copy of it that calls those of system_house_lent, compiled with no proof,
# must print the same of 6 houses; and a text that differs from it must be found. (The interpreter, which rt tries too, is too slow: it is
# stopped at once.)
# The copy stands outside the repository, where rt ci takes no second one.
printf '#!/bin/sh\ntee -a input | %s\n' "$proved" >"$out/kept"
chmod +x "$out/kept"
(cd "$out" && "$houses" ./kept 6 7 >kept.log)
room=$(mktemp -d)
trap 'rm -rf "$room"' EXIT
mkdir "$room/cases"
tar -c --exclude='crates/*/out' crates | tar -x -C "$room"
copy=$room/crates/test_house
sed 's/^test_house: .* system_house_turn/& system_house_lent/' crates.txt >"$room/crates.txt"
sed -i -E 's/\*left = system_house_(turn|change)::(turn|learn)\((.*), left\.counts\)\?;$/left.state = system_house_lent::\2(\3, \&mut left.counts)?;/' "$copy/src/call.rt"
[[ $(grep -c 'system_house_lent::[a-z]*(.*, &mut left.counts)' "$copy/src/call.rt") == 2 ]]
cp "$out/input" "$room/cases/houses"
"$proved" <"$out/input" >"$room/cases/houses.stdout"
lent() { # VERDICT: whether rt says that of what the copy, compiled with no proof, prints of the input
    (cd "$copy" && rt try --steps 1000 --seconds 900 --cases "$room/cases") >"$out/lent.log" 2>&1 || true
    grep -qE "^case=houses run=ended status=0 .* output=$1 " "$out/lent.log"
}
if ! lent expected; then
    echo "houses: with the counts lent something else is printed"
    cat "$out/lent.log"
    exit 1
fi
echo "one line more" >>"$room/cases/houses.stdout"
if ! lent differs; then
    echo "houses: a text that differs from what is printed with the counts lent is not found"
    cat "$out/lent.log"
    exit 1
fi
echo "houses: with the counts lent the same is printed of 6 houses"

found() { # WHAT WORDS COMMAND..: 400 houses must end in a difference, or a claim that fails, told in those words
    local index
    if (cd "$out" && "${@:3}" 400 1 >found.log 2>&1) || ! grep -qE "^(difference|claim): seed 1 index [0-9]+: $2" "$out/found.log"; then
        echo "houses: $1 is not found, or in other words than '$2'"
        cat "$out/found.log"
        exit 1
    fi
    index=$(sed -nE 's/^(difference|claim): seed 1 index ([0-9]+): .*/\2/p' "$out/found.log")
    echo "houses: $1 is found at house $((index + 1)) of 400"
}
found "a program that prints nothing" 'proved nothing, reference house ' "$houses" true
found "a program that fails" 'a fault .exit status: 1. with 0 houses in one input' "$houses" false

# Wrong programs: one copy of the separate program with all mistakes, of which the environment picks one.
cp -r reference/src "$out"
cat >>"$out/src/house.rs" <<'END'

fn wrong(name: &str) -> bool {
    std::env::var_os("WRONG").is_some_and(|own| own == name)
}
END
mistake() { # NAME EDIT: adds a mistake by sed
    sed -i "$2" "$out/src/house.rs"
    if ! grep -q "wrong(\"$1\")" "$out/src/house.rs"; then echo "houses: nothing to edit for $1" && exit 1; fi
}
# Of the value, the table and the house register.
mistake own-ward 's/^        let entry = self.table.*/&\
        let entry = if wrong("own-ward") { self.table[outer - 1][self.ward(worker) - 1] } else { entry };/'
mistake committed 's/^        if entry != 0/& \&\& !(wrong("committed") \&\& answer == Answer::Committed(answer.value()))/'
mistake adopted 's/^        if entry != 0/& \&\& !(wrong("adopted") \&\& answer == Answer::Adopted(answer.value()))/'
mistake own-entry 's/^        self.decision = self.workers.*/&\
        if wrong("own-entry") {\
            self.decision = self.table[self.workers[worker].outer - 1][self.ward(worker) - 1];\
        }/'
mistake own-value 's/= seat.estimate;/= if wrong("own-value") { self.workers[worker].value } else { seat.estimate };/'
mistake first-proposal '
    s/^    pub decision: u32,/&\n    pub first: [u32; MAX_WORKERS],/
    s/^            decision: 0,/&\n            first: [0; MAX_WORKERS],/
    /pub fn propose(/,/^    }/s/^        let worker = present/        let number = worker;\n&/
    s/^        \*worker = Worker {/        self.first[number] = value;\n&/
    s/^        let value = self.workers\[worker\].value;/&\
        let value = if wrong("first-proposal") { self.first[worker] } else { value };/'
mistake write-once 's/^        self.decision = self.workers.*/\
        if wrong("write-once") \&\& self.decision != 0 {\
            return self.end_round(worker);\
        }\
&/'
mistake early-value 's/^        Ok(match place {/\
        if wrong("early-value") \&\& phase == Phase::Decided {\
            self.workers[worker].value = session.processes[process].estimate;\
        }\
&/'
mistake decides 's/^        self.decision = self.workers.*/&\
        if wrong("decides") {\
            counts.writes += 1;\
            return Stance::Decided;\
        }/'
# Of the places and of the ends.
mistake poll-first '
    s/^            stance: Stance::Working(Place::ProposeWard),/\
            stance: Stance::Working(if wrong("poll-first") { Place::ProposePoll } else { Place::ProposeWard }),/
    s/^        Stance::Working(Place::ProposeWard)$/\
        Stance::Working(if wrong("poll-first") { Place::ProposePoll } else { Place::ProposeWard })/
    s/^            Some(_) => Place::ReadTable,/\
            Some(_) if wrong("poll-first") => Place::ProposeWard,\
&/
    s/^        Stance::Working(Place::ProposePoll)$/\
        Stance::Working(if wrong("poll-first") { Place::ReadTable } else { Place::ProposePoll })/'
mistake adopted-writes 's/^            Answer::Adopted(_) => self.end_round(worker),/\
            Answer::Adopted(_) if wrong("adopted-writes") => Stance::Working(Place::WriteHouse),\
&/'
mistake ninth-round 's/^        if worker.outer == OUTER_ROUNDS/& \&\& !wrong("ninth-round")/'
mistake seventh-round 's/^        if worker.outer == OUTER_ROUNDS/\
        if wrong("seventh-round") \&\& worker.outer == 7 {\
            return Stance::Exhausted;\
        }\
&/'
mistake turn-late 's/^            Place::StepWard if phase == Phase::Exhausted/& \&\& !wrong("turn-late")/'
mistake look-first 's/^            Place::ProposeWard => Stance::Working(Place::StepWard),/\
            Place::ProposeWard if wrong("look-first") => Stance::Working(Place::LearnWard),\
&/'
# Of the tally.
mistake full-tally '/pub fn turn(/,/^    }/s/^        room(counts)?;/\
        if !(wrong("full-tally") \&\& matches!(place, Place::ProposeWard | Place::ProposePoll)) {\
            room(counts)?;\
        }/'
mistake house-look '/pub fn learn(/,/^    }/s/^        counts.reads += 1;/        counts.reads += u32::from(!wrong("house-look"));/'
mistake ward-look 's/^        session.apply_trusted(operation.*/&\
        if wrong("ward-look") \&\& place == Place::LearnWard {\
            counts.reads -= 1;\
        }/'
# Of the seats, and of what 19 and 3 test.
mistake crash-seat 's/^        self.alive(worker)?.stance = Stance::Crashed;/&\
        if wrong("crash-seat") {\
            let (session, seat) = (self.session_of(worker), self.seat(worker));\
            self.sessions[session].processes[seat].phase = Phase::Crashed;\
        }/'
mistake poll-seat 's/^        self.poll_of(worker).propose_trusted(worker, ward)?;/\
        let seat = if wrong("poll-seat") { self.seat(worker) } else { worker };\
        self.poll_of(worker).propose_trusted(seat, ward)?;/'
mistake wards-first 's/^    check_processes(Caller::Server.limits(), wards.len())?;/\
    if wrong("wards-first") \&\& !(1..=MAX_WARDS).contains(\&c) {\
        return Err(Refusal::BadWards);\
    }\
&/'
mistake closed 's/^            && !session.closed/            \&\& (wrong("closed") || !session.closed)/'
mistake seat-numbers 's/^            && poll.voters.iter().all(.*/\
            \&\& (wrong("seat-numbers") || poll.voters.iter().all(|voter| low(voter.value())))/'
mistake all-sessions 's/self.sessions\[..self.c \* OUTER_ROUNDS\]/\
            self.sessions[..if wrong("all-sessions") { SESSIONS } else { self.c * OUTER_ROUNDS }]/'
mistake blank-out 's/^        let proposed = stance != Stance::Idle;/&\
        if wrong("blank-out") \&\& !proposed \&\& value != 0 {\
            return false;\
        }/'
mistake other-seats 's/^                Stance::Working(place) => self.seat_ready/\
                Stance::Working(_) if wrong("other-seats") => true,\
&/'

compiled() { # NAME SOURCE
    rustc --edition 2021 -O --crate-name "$1" --extern janus_reference="$out/libjanus_reference.rlib" "$2" -o "$out/$1"
}
rustc --edition 2021 -O --crate-type rlib --crate-name janus_reference "$out/src/lib.rs" -o "$out/libjanus_reference.rlib"
compiled houses reference/houses.rs
compiled reference reference/src/main.rs
printf '#!/bin/sh\nexec ./reference houses\n' >"$out/beside"
chmod +x "$out/beside"

wrong() { # NAME WHAT DIFFERENCE: beside the proved program it differs in those words
    WRONG=$1 found "a program that $2" "$3" ./houses "$proved"
}
# On both sides, where nothing differs, the claims find it.
untrue() { # NAME WHAT CLAIM
    WRONG=$1 found "a program that $2, beside itself," "$3" ./houses ./beside
}
# Another number or stance than the proved program's: of a worker, a seat, a register or the counts, or by a later call that only one
# refuses.
other='(proved ([a-z]+) [a-z0-9 -]+, reference \3 [a-z0-9 -]+|turn [01 ]+: (the house register holds|value) [0-9]+, then [0-9]+)$'
wrong own-ward "reads the table at its own ward" "$other"
wrong committed "does not take the value where it committed" "$other"
wrong adopted "does not take the value where it adopted" "$other"
wrong own-entry "writes its ward's entry to the house register" "$other"
wrong own-value "writes its value to the table, not the decision" "$other"
wrong first-proposal "carries its first proposal into every round" "$other"
wrong write-once "leaves a filled house register" 'proved tally ([0-9]+) [0-9]+ [0-9]+, reference tally \2 [0-9]+ [0-9]+$'
wrong early-value "takes the value at the ward's decision" "$other"
wrong decides "decides by its own house write" "$other"
wrong poll-first "polls before the ward" "$other"
wrong adopted-writes "writes the house register where it adopted" "$other"
wrong ninth-round "has an outer round 9" "$other"
wrong seventh-round "is spent one round early" "$other"
wrong turn-late "is spent one turn late" "$other"
wrong look-first "looks before it works" "$other"
wrong full-tally "accepts a full tally where nothing is read" 'proved turn ([0-9]+ [01]) 16, reference turn \2 0$'
wrong house-look "does not count house looks" 'proved tally [0-9]+ ([0-9]+ [0-9]+), reference tally [0-9]+ \2$'
wrong ward-look "does not count looks in the ward" 'proved tally [0-9]+ ([0-9]+ [0-9]+), reference tally [0-9]+ \2$'
wrong crash-seat "crashes the ward seat too" 'proved [a-z0-9 ]+, reference (board|seat) [a-z0-9 ]+$'
wrong poll-seat "polls with the seat that it has in the ward" 'proved seat [0-9]+ gate 0 0 [0-9]+, reference seat [0-9]+ gate 0 0 [0-9]+$'
wrong wards-first "tests 19 before 1" 'proved house ([0-9]+ [0-9]+) 1, reference house \2 19$'
wrong closed "takes closed ward sessions for sound ones" 'proved ([a-z]+ [0-9 ]+) 3, reference \2 [0-9]+$'
wrong seat-numbers "lets a poll seat hold a number above c" 'proved ([a-z]+ [0-9 ]+) 3, reference \2 [0-9]+$'
wrong other-seats "does not test the seat that a next turn needs" 'proved ([a-z]+ [0-9 ]+) 3, reference \2 [0-9]+$'
wrong all-sessions "tests sessions of wards above c" 'proved ([a-z]+ [0-9 ]+) [0-9]+, reference \2 3$'
wrong blank-out "asks for a blank value of a worker that is out" 'proved ([a-z]+ [0-9 ]+) [0-9]+, reference \2 3$'

two='turn [0-9]+ 1: the house register holds [0-9]+, then [0-9]+$'
untrue own-ward "reads the table at its own ward" "$two"
untrue committed "does not take the value where it committed" "$two"
untrue adopted "does not take the value where it adopted" "$two"
untrue own-entry "writes its ward's entry to the house register" "$two"
untrue own-value "writes its value to the table, not the decision" "$two"
untrue first-proposal "carries its first proposal into every round" "$two"
untrue poll-first "polls before the ward" "$two"
untrue adopted-writes "writes the house register where it adopted" 'turn [0-9]+ 1 is refused with 3$'
untrue ninth-round "has an outer round 9" 'turn [0-9]+ 1: outer round 8, then 9$'
untrue turn-late "is spent one turn late" 'turn [0-9]+ 1 is refused with 3$'
untrue early-value "takes the value at the ward's decision" 'turn [0-9]+ 1: value [0-9]+, then [0-9]+$'
untrue house-look "does not count house looks" 'look [0-9]+ makes 0 reads and 0 writes$'
untrue crash-seat "crashes the ward seat too" 'crash [0-9]+ changes a board or a register$'
