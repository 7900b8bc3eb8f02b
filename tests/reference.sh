#!/usr/bin/env bash
# The separately written program: its own tests, the sample sheets, the page docs/PAPER-CASES.md, and that its harness finds a wrong library.
set -euo pipefail
. "$(dirname "$0")/../common.sh"
takes_nothing "$@"
needs rt gcc rustc python3
cd "$root"
./build.sh reference
tail -n 1 target/built/reference.log
for made in examples/*.sheet; do
    examples/sheet.py "${made%.sheet}.txt" | cmp - "$made"
done
echo "sample sheets: each is what examples/sheet.py makes of its list"
python3 tests/paper_cases.py check
python3 tests/paper_lists.py

# What a short run of either harness must find: a library that always answers 0 and leaves the buffers alone.
out=target/tests/wrong
mkdir -p "$out"
harness() { # NAME WORDS..: the harness, compiled with the words, in target/tests/wrong; 200 cases must end in a difference
    rustc --edition 2021 -C incremental="$out/incremental" --crate-name "$1" "${@:2}" "reference/$1.rs" -o "$out/$1"
    (cd "$out" && ! "./$1" 200 1 >differs.log) || { echo "$1: no difference in 200 cases" && exit 1; }
}
differs() { # WORDS: the difference that was found must be told so
    grep -q "^difference: seed 1 index $1" "$out/differs.log" || { cat "$out/differs.log"; exit 1; }
}
gcc -x c -c - -o "$out/janus.o" <<'END'
unsigned janus_run(void) { return 0; }
unsigned long janus_report(void) { return 0; }
unsigned janus_write(void) { return 0; }
unsigned long caller_report(void) { return 0; }
unsigned caller_write(void) { return 0; }
END
for name in differential writes; do
    harness "$name" --extern janus_reference=target/reference/libjanus_reference.rlib -C link-arg="$out/janus.o"
    differs ''
    echo "$name: a library that always answers 0 is found in 200 cases"
done

# And a wrong program, here a copy of the separate one beside the library. It goes on where a number of it is too large.
wrong() { # NAME FILE WHAT EDIT DIFFERENCE: the copy, its file edited by sed, differs in those words
    rm -rf "$out/src"
    cp -r reference/src "$out"
    sed -i "$4" "$out/src/$2"
    if cmp -s "reference/src/$2" "$out/src/$2"; then echo "reference: nothing to edit: $4" && exit 1; fi
    rustc --edition 2021 -C incremental="$out/incremental" -C overflow-checks=off --crate-type rlib --crate-name janus_reference "$out/src/lib.rs" -o "$out/libjanus_reference.rlib"
    harness "$1" --extern janus_reference="$out/libjanus_reference.rlib" -L native=target/staticlib -l static=janus -l static=test_callers
    differs ".*: $5"
    echo "$1: a program that $3 is found in 200 cases"
}
miscounts() { # the marked rounds show it, or the report
    wrong differential board.rs "counts $1" "${@:2}"
}
miscounts "every flag write as contested" 's/u32::from(!\*mark)/1/' 'reference: contested [0-9]*, marked rounds [0-9]*$'
miscounts "only flag writes of marked rounds as contested" 's/u32::from(!\*mark)/u32::from(*mark)/' 'reference: contested [0-9]*, marked rounds [0-9]*$'
miscounts "a read for a flag write" 's/ \*mark = true;/ *mark = true; self.counts.reads += 1;/' 'report: library$'
wrong differential phase.rs "reads the hint before the round limit" 's/if self.round == bounds.limit {/if leader \&\& self.round == bounds.limit {/' '\(code: library 9, reference [0-9]*\|report: library\)$'
wrong differential phase.rs "spends a seat one round early" 's/if self.round == bounds.limit {/if self.round + 1 == bounds.limit {/' '\(code: library [0-9]*, reference 9\|report: library\)$'
wrong differential session.rs "lets a spent seat back to the gate" 's/return Err(Refusal::ProcessSpent);/process.phase = Phase::Waiting;/' 'code: library 9, reference [0-9]*$'
miswrites() {
    wrong writes write.rs "$@"
}
miswrites "tests 13 before 17" '/let size = size_of_sheet/{h;d};/check_entries(entries)?;/G' 'code: library 17, reference 13$'
miswrites "adds run lengths up in 64 bits" 's/sum.checked_add(\*run)/Some(sum.wrapping_add(*run))/' 'code: library 17, reference [0-9]*$'
miswrites "leaves a gap of one byte" 's/let mut offset = header.len();/let mut offset = header.len() + 1;/' 'code 0, output byte [0-9]*: '
miswrites "returns the size without the header" '/copy_from_slice(entries)/{n;s/size/size - HEADER/}' 'code 0, size: library [0-9]*, reference [0-9]*$'
miswrites "returns 15 at an exact fit" 's/output.len() < size/output.len() <= size/' 'code: library 0, reference 15$'
# The windows that 02, wish 8, shuts out.
miswindows() { # WHAT EDIT: other sheets are refused with 2, or a seat commits earlier or later
    wrong differential session.rs "has $1 for its window" "$2" '\(code: library [0-9]*, reference [0-9]*\|report: library\)$'
    wrong writes session.rs "has $1 for its window" "$2" '\(code: library \(2, reference [0-9]*\|[0-9]*, reference 2\)\|report: library\)$'
}
miswindows "2 times the rounded-up root of n, plus 1," 's/smallest \* smallest < 4 \* n/smallest * smallest < n/; s/= smallest as u32;/= 2 * smallest as u32 + 1;/'
miswindows "one less than the smallest" 's/= smallest as u32;/= (smallest as u32).saturating_sub(1);/'
miswindows "the root of 4n, rounded down," 's/while smallest \* smallest < 4 \* n {/while (smallest + 1) * (smallest + 1) <= 4 * n {/'
# A cart that has the server's limits. (02, wish 9.)
as_server='s/caller.limits()/(caller, Caller::Server).1.limits()/'
wrong differential sheet.rs "reads the cart's sheets by the server's limits" "$as_server" 'caller [0-9]*, budget [0-9]*: report: library$'
miswrites "writes the cart's sheets by the server's limits" "$as_server" 'caller [0-9]*: code: library [12], reference [0-9]*$'
# Closes. (02, wish 10.)
late='s/Err(Refusal::%s)/Err(if self.closed { Refusal::ClosedToProposals } else { Refusal::%s })/'
told='\(code: library [0-9]*, reference [0-9]*\|report: library\)$'
wrong differential session.rs "tests 18 before 6" "${late//%s/SecondProposal}" 'code: library 6, reference 18$'
wrong differential session.rs "tests 18 before 5" "${late//%s/BlankProposal}" 'code: library 5, reference 18$'
wrong differential session.rs "takes proposals to a closed session" '/^        if self.closed {/,/^        }/d' 'code: library 18, reference [0-9]*$'
wrong differential session.rs "refuses a second close" 's/^            Operation::Close => {/            Operation::Close if self.closed => Err(Refusal::ClosedToProposals),\n&/' "$told"
wrong differential session.rs "counts a close as a write" 's/^                self.close_trusted();/                counts.writes += 1;\n&/' 'report: library$'
wrong differential session.rs "refuses work turns in a closed session" 's/if process.phase == Phase::Exhausted {/if self.closed || process.phase == Phase::Exhausted {/' "$told"
wrong differential sheet.rs "takes kind 4 with any seat" 's/(4, 0, 0) =>/(4, _, 0) =>/' "$told"
wrong differential sheet.rs "takes kind 4 with any value" 's/(4, 0, 0) =>/(4, 0, _) =>/' "$told"
wrong differential runner.rs "does not count closes in the budget" 's/^            done += 1;/            done += u64::from(entry[0] != 4);/' "$told"
wrong differential report.rs 'has "open" for "closed"' 's/{ "closed" } else/{ "open" } else/' 'report: library$'
miswrites "takes kind 4 with any seat" 's/^    (0, 0),/    (u8::MAX, 0),/' 'code: library 13, reference [0-9]*$'
miswrites "takes kind 4 with any value" 's/^    (0, 0),/    (0, u32::MAX),/' 'code: library 13, reference [0-9]*$'
miswrites "does not know kind 4" '/^    (0, 0),/d; s/; 5\] = \[$/; 4] = [/' 'code: library [0-9]*, reference 13$'
