#!/usr/bin/env bash
# Windows below the bound of 02, wish 7, W times W at least 4n, on the separately written program: for every W from 2 to 15 a list of calls in
# which two turns commit different numbers, at every L from 2W - 1 to 256, and up to a commit and a write of another number in its round at
# every L from W on; and polls with two answers. Within the bound, no such thing. The window in service is the least one within it (02, wish
# 8). Then lists as sheets, with their traces, and that wrong lists and wrong machines are found.
set -euo pipefail
. "$(dirname "$0")/../common.sh"
takes_nothing "$@"
needs rt gcc rustc python3
cd "$root"
./build.sh reference
short_windows=target/reference/short_windows
"$short_windows"

out=target/tests/short_windows
rm -rf "$out"
mkdir -p "$out"
fail() {
    echo "short_windows: FAILED: $*" >&2
    exit 1
}

# A list as it is printed makes a sheet. In service, where its seats have the window W + 1, it is opened too: nothing commits in it, and in the
# end a seat is spent and takes a further turn. At its window two turns write D, and two seats are decided.
traced() { # KIND W ENTRIES SERVED: those carried out in service
    local sheet=$out/$1-$2.sheet
    "$short_windows" "$1" "$2" | examples/sheet.py - "$sheet"
    target/reference/reference trace <"$sheet" >"$out/service"
    target/reference/reference trace "$(($2 + 1))" <"$sheet" | cmp - "$out/service" || fail "$1 $2: the window in service is not $(($2 + 1))"
    if grep ' D written ' "$out/service"; then fail "$1 $2 commits in service"; fi
    [[ $(tail -n 1 "$out/service") =~ ^\ *$4\ .*\ refused\ 9$ ]] || fail "$1 $2 ends otherwise in service: $(tail -n 1 "$out/service")"
    target/reference/reference trace "$2" <"$sheet" >"$out/trace"
    [[ $(wc -l <"$out/trace") == "$3" ]] || fail "$1 $2: $(wc -l <"$out/trace") entries, not $3"
    [[ $(grep -c ' D written ' "$out/trace") == 2 ]] || fail "$1 $2: not two commits: $(grep ' D written ' "$out/trace")"
    [[ $(sed -n 's/.*| look .*| decided .* value \([12]\) .*/\1/p' "$out/trace" | sort) == $'1\n2' ]] || fail "$1 $2: $(grep '| look ' "$out/trace")"
    echo "short_windows: $1 $2: $3 entries; at window $2 two seats are decided, with 1 and with 2; in service none in $4, and the next is refused"
}
traced list 2 36 33
traced list 15 2366 2273
traced short 2 36 31
traced short 3 66 61
traced short 4 109 104
# The list that docs/AGREEMENT.md goes through register by register: the trace, without the tally.
page=$(grep -E '^ *[0-9]+ \| (propose|work|look) ' docs/AGREEMENT.md | sed 's/^ *//')
trace=$(target/reference/reference trace 2 <"$out/list-2.sheet" | cut -d'|' -f1-4 | sed -E 's/ *\| */ | /g; s/^ *//; s/ *$//')
[[ $page == "$trace" ]] || fail "docs/AGREEMENT.md has another trace: $(diff <(echo "$page") <(echo "$trace"))"
echo "short_windows: docs/AGREEMENT.md has the trace of list 2"

# The three searched lists are those of the proved table.
table=crates/model_rule_cases/specs/Table.antt
for w in 2 3 4; do
    python3 tests/short_lists.py "$table" "$w" | diff - <("$short_windows" short "$w" | sed 's/ *#.*//; /^$/d') || fail "short $w is not the list of $table"
done
echo "short_windows: the three searched lists are those of $table"

for arguments in 'list 1' 'list 16' 'list x' 'short 5' list 'list 2 3' more; do
    read -ra words <<<"$arguments"
    code=0
    said=$("$short_windows" "${words[@]}" 2>&1) || code=$?
    [[ $code == 2 && $said == 'usage: short_windows '* ]] || fail "$arguments: ended with $code: $said"
done

# A wrong program: a copy, or the same on a copy of the machine, with a file that is edited by sed.
edit() { # FILE EDIT
    sed -i "$2" "$out/$1"
    if cmp -s "reference/$1" "$out/$1"; then fail "nothing to edit: $2"; fi
}
found() { # WHAT WORDS PROGRAM MACHINE: the program with that machine must end with 1 and tell in those words what is wrong
    local said code=0
    rustc --edition 2021 -C incremental="$out/incremental" --crate-name short_windows --extern janus_reference="$4/libjanus_reference.rlib" "$3/short_windows.rs" -o "$out/short_windows"
    said=$("$out/short_windows") || code=$?
    said=$(tail -n 1 <<<"$said")
    [[ $code == 1 && $said =~ ^wrong:\ $2$ ]] || fail "$1 is not found, or in other words than '$2': $said"
    echo "short_windows: $1 is found: ${said#wrong: }"
}
wrong_list() { # WHAT EDIT WORDS
    cp reference/short_windows.rs "$out"
    edit short_windows.rs "$2"
    found "$1" "$3" "$out" target/reference
}
wrong_list "a list that leaves an overwrite out" '
    s/for process in &writers {/for process in \&writers[usize::from(epoch > 1)..] {/
    s/writers.into_iter().zip(1..) {/writers.into_iter().zip(1..).skip(usize::from(epoch > 1)) {/' \
    'W 3, 3 seats: commits by round \[.*\], not \[\(3, 2\), \(5, 1\)\]'
wrong_list "a list that lets free seats go" 's/self.free.pop();/self.free.pop().filter(|free| free.1 == epoch);/' \
    'W 5: seats and work turns \(8, 170\), not \(7, 169\)'
wrong_list "a list that ends before the second commit" 's/for round in window..2 \* window {/for round in window..2 * window - 1 {/' \
    'W 2, 2 seats: commits by round \[\(2, 2\)\], not \[\(2, 2\), \(3, 1\)\]'
wrong_list "a list that ends before the second write in round W" 's/^    list.step(last, 1);/    list.step(last, 0);/' \
    'W 2, L 2: the last write Some\(\(2, 2\)\), not Some\(\(2, 1\)\)'
wrong_list "a control at W for W + 1" 's/Play::open(list.window + 1, /Play::open(list.window, /' \
    'the construction at W \+ 1, list 0: 2 committed in round 2, 1 written in round 2'
wrong_list "a control at one less than the least window" 's/random_list(least_window(n), /random_list(least_window(n) - 1, /' \
    'random, n from 2 to 16, least W within the bound, list [0-9]+: 1 committed in round 2, 2 written in round 2'
wrong_list "a control that can find nothing" 's/random_list(2, 2, index)/random_list(3, 2, index)/' \
    'random, n 2, W 2: some commit, some two values: \(true, false\), not \(true, true\)'

wrong_machine() { # WHAT FILE EDIT WORDS
    rm -rf "$out/src"
    cp -r reference/src "$out"
    edit "src/$2" "$3"
    rustc --edition 2021 -C incremental="$out/incremental" --crate-type rlib --crate-name janus_reference "$out/src/lib.rs" -o "$out/libjanus_reference.rlib"
    found "a machine that $1" "$4" reference "$out"
}
wrong_machine "opens at the window in service" session.rs 's/|_| window, n, limit)?;/|n| self::window(n).max(window), n, limit)?;/' \
    'W 2, poll of 2 seats: refused 2'
wrong_machine "walks at a window one larger" session.rs 's/^            window: window(self.n),/            window: window(self.n) + 1,/' \
    'W 2, 2 seats: call [0-9]+, work 1 yes: left unsound'
wrong_machine "is sound at a window one larger" sound.rs 's/let (limit, window) = (self.limit, window(self.n));/let (limit, window) = (self.limit, window(self.n) + 1);/' \
    'W 2, 2 seats: call [0-9]+, work 1 yes: left unsound'
wrong_machine "reads over marks" phase.rs 's/if board.read_mark(self.round - i) {/if board.read_mark(self.round - i) \&\& false {/' \
    'W 2, 2 seats: commits by round \[\(2, 2\)\], not \[\(2, 2\), \(3, 1\)\]'
wrong_machine "answers committed where a check fails" poll.rs 's/then_some(Answer::Adopted/then_some(Answer::Committed/' \
    'W 2, poll of 2 seats: answers \[Committed\(2\), Committed\(1\)\], not \[Committed\(2\), Adopted\(1\)\]'
wrong_machine "has 01's window in service" session.rs 's/smallest \* smallest < 4 \* n/smallest * smallest < n/; s/= smallest as u32;/= 2 * smallest as u32 + 1;/' \
    'n 1: in service 3, not 2'
