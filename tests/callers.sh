#!/usr/bin/env bash
# The two callers of 02, wish 9, the server and the bedside cart: openings of sessions and of polls, and headers that are read and written, at
# and past the limits of either, of the proved library beside the separate program (reference/callers.rs). Then that wrong programs are found:
# by that, and where soundness goes by the cart's limits by the program's own tests and beside test_run.
set -euo pipefail
. "$(dirname "$0")/../common.sh"
takes_nothing "$@"
needs rt gcc rustc python3
cd "$root"
./build.sh reference test_run
target/reference/callers

out=target/tests/callers
rm -rf "$out"
mkdir -p "$out"
fail() {
    echo "callers: FAILED: $*" >&2
    exit 1
}

# A wrong program: a copy of the separate one with a file that is edited by sed. It may leave a name unused.
compile=(rustc --edition 2021 -A warnings -C opt-level=1 -C incremental="$out/incremental")
uses=(--extern janus_reference="$out/libjanus_reference.rlib")
edited() { # FILE EDIT
    rm -rf "$out/src"
    cp -r reference/src "$out"
    sed -i "$2" "$out/src/$1"
    if cmp -s "reference/src/$1" "$out/src/$1"; then fail "nothing to edit: $2"; fi
    "${compile[@]}" --crate-type rlib --crate-name janus_reference "$out/src/lib.rs" -o "$out/libjanus_reference.rlib"
}
found() { # WHAT WORDS COMMAND..: the command must fail and tell the words on a line of its own
    if "${@:3}" >"$out/found.log" 2>&1 || ! grep -qE "^$2" "$out/found.log"; then
        cat "$out/found.log"
        fail "a program $1 is not found, or in other words than '$2'"
    fi
    echo "callers: a program $1 is found: $(grep -m 1 -E "^$2" "$out/found.log")"
}
wrong() { # WHAT FILE EDIT DIFFERENCE: beside the library it differs in those words
    edited "$2" "$3"
    "${compile[@]}" "${uses[@]}" --crate-name callers -L native=target/staticlib -l static=janus -l static=test_callers reference/callers.rs -o "$out/callers"
    found "$1" "difference: $4" "$out/callers"
}
wrong "with the cart's rounds on the server" session.rs 's/rounds: MAX_ROUNDS,/rounds: 64,/' 'server, opening, n 1, L 65: library 0, reference 2$'
wrong "with the cart's seats on the server" session.rs 's/processes: MAX_PROCESSES,/processes: 16,/' 'server, opening, n 17, L 0: library 2, reference 1$'
wrong "with a cart that opens 64" session.rs 's/processes: 16,/processes: 64,/' 'cart, opening, n 17, L 0: library 1, reference 2$'
wrong "with a cart that opens 17" session.rs 's/processes: 16,/processes: 17,/' 'cart, opening, n 17, L 0: library 1, reference 2$'
wrong "with a cart that opens 15" session.rs 's/processes: 16,/processes: 15,/' 'cart, opening, n 16, L 0: library 2, reference 1$'
wrong "with the server's rounds on the cart" session.rs 's/rounds: 64,/rounds: MAX_ROUNDS,/' 'cart, opening, n 1, L 65: library 2, reference 0$'
wrong "with 63 rounds on the cart" session.rs 's/rounds: 64,/rounds: 63,/' 'cart, opening, n 1, L 64: library 0, reference 2$'
wrong "that tests 2 before 1" session.rs 's/^    check_processes(most, n)?;/    if limit > most.rounds {\n        return Err(Refusal::BadRoundLimit);\n    }\n&/' \
    'server, opening, n 0, L 257: library 1, reference 2$'
wrong "that opens the cart's sessions by the server's limits" session.rs 's/check_opening(caller.limits(), window/check_opening(Caller::Server.limits(), window/' \
    'cart, opening, n 1, L 65: library 2, reference 0$'
wrong "that opens the cart's polls by the server's limits" poll.rs 's/caller.limits()/Caller::Server.limits()/' 'cart, poll, n 17: library 1, reference 0$'
wrong "that reads the cart's sheets by the server's limits" sheet.rs 's/caller.limits()/Caller::Server.limits()/' 'cart, sheet, n 1, L 65: report: library$'
wrong "that writes the cart's sheets by the server's limits" write.rs 's/caller.limits()/Caller::Server.limits()/' 'cart, writing, n 1, L 65: library 2, reference 0$'

# Soundness by the cart's seats, or by its rounds: a session of the server that has more is then refused with 3.
unsound() { # WHAT LIMITS
    edited sound.rs "s/check_opening(Caller::Server.limits(), /check_opening(crate::Limits { $2, ..Caller::Server.limits() }, /"
    "${compile[@]}" --test --crate-name tests "$out/src/lib.rs" -o "$out/tests"
    found "with soundness by $1" 'test tests::callers::sessions_past_the_limits_of_the_cart_are_sound ... FAILED' "$out/tests" callers
    "${compile[@]}" "${uses[@]}" --crate-name reference "$out/src/main.rs" -o "$out/reference"
    found "with soundness by $1" 'run: random sheet .*, caller 0, .* and the separate program has .*\\n3 0' python3 tests/run.py target/bin/test_run "$out/reference"
}
unsound "the cart's seats" 'processes: 16'
unsound "the cart's rounds" 'rounds: 64'
