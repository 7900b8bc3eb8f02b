#!/usr/bin/env bash
# The short lists of 02, wish 12: every table, and calls that are refused, of the proved library beside the separate program
# (reference/shorts.rs). Then that wrong programs are found: a library that always answers 0, and copies of the separate program with one
# mistake.
set -euo pipefail
. "$(dirname "$0")/../common.sh"
takes_nothing "$@"
needs rt gcc rustc
cd "$root"
./build.sh reference
target/reference/shorts

out=target/tests/short
rm -rf "$out"
mkdir -p "$out"
fail() {
    echo "short: FAILED: $*" >&2
    exit 1
}

found() { # WHAT DIFFERENCE WORDS..: the program, linked with the words, must fail and tell that difference first
    rustc --edition 2021 -A warnings -C opt-level=1 -C incremental="$out/incremental" --crate-name shorts \
        -L native=target/staticlib -l static=janus "${@:3}" reference/shorts.rs -o "$out/shorts"
    if "$out/shorts" >"$out/found.log" 2>&1 || ! grep -qE "^difference: $2$" "$out/found.log"; then
        cat "$out/found.log"
        fail "$1 is not found, or in other words than '$2'"
    fi
    echo "short: $1 is found: $(cat "$out/found.log")"
}
printf 'unsigned short_first(void) { return 0; }\nunsigned short_next(void) { return 0; }\n' | gcc -x c -c - -o "$out/zero.o"
found "a library that always answers 0" 'next, n 1, length 0, no entry: library 0, reference 21' \
    --extern janus_reference=target/reference/libjanus_reference.rlib -C link-arg="$out/zero.o"

wrong() { # WHAT EDIT DIFFERENCE: a copy of the separate program, edited by sed, differs in those words
    rm -rf "$out/src"
    cp -r reference/src "$out"
    sed -i "$2" "$out/src/short.rs"
    if cmp -s reference/src/short.rs "$out/src/short.rs"; then fail "nothing to edit: $2"; fi
    rustc --edition 2021 -A warnings -C opt-level=1 -C incremental="$out/incremental" --crate-type rlib --crate-name janus_reference \
        "$out/src/lib.rs" -o "$out/libjanus_reference.rlib"
    found "a program $1" "$3" --extern janus_reference="$out/libjanus_reference.rlib" -l static=test_short
}
wrong "that stops at a dead end" 's/^        pass(choices, list, place + 1)?;/        if list[place] == choices[choices.len() - 1] {\n            return Err(Refusal::LastList);\n        }\n&/' \
    'next, n 1, length 4, propose 0 1, work 0 no, look 0, crash 0: library 0, reference 21'
wrong "that orders entries by seat first" 's/^    (kind, seat, u32/    (seat, kind, u32/' \
    'first, n 2, length 2, [a-z0-9 ,]*: code 0, byte 6: library 0, reference 1'
wrong "that leaves a half-written buffer at 21" 's/^    pass(&choices, &mut list, length)?;/&\n    buffer.copy_from_slice(\&list.concat());/' \
    'next, n 1, length 1, propose 0 1: code 21, byte 0: library 0, reference 1'
wrong "with 20 for the last list" 's/Err(Refusal::LastList)/Err(Refusal::IllegalList)/' 'next, n 1, length 0, no entry: library 21, reference 20'
wrong "that takes a close for legal" 's/choices.contains(entry)/(entry[0] == 4 || &)/' 'next, n 1, length 2, propose 0 1, close: library 20, reference 21'
wrong "that takes a proposal of 257" 's/choices.contains(entry)/choices.iter().any(|choice| choice[..3] == entry[..3])/' \
    'next, n 1, length 1, propose 0 257: library 20, reference 21'
wrong "that takes a hint of 256" 's/^    bytes.try_into().*/    match *bytes {\n        [1, seat, hint, ..] => [1, seat, hint, 0, 0, 0],\n        _ => bytes.try_into().unwrap(),\n    }/' \
    'next, n 1, length 2, propose 0 1, entry 1 0 256: library 20, reference 0'
wrong "that tests 15 before 17" 's/^    if length > MAX_LENGTH {/    if buffer.len() != ENTRY * length {\n        return Err(Refusal::BadBuffer);\n    }\n&/' \
    'first, n 1, length 7, 0 bytes: library 17, reference 15'
wrong "without 1" 's/^    if n != 1 && n != 2 {/    if false {/' 'first, n 3, length 0, no entry: library 1, reference 0'
