#!/usr/bin/env bash
# Builds the reference program, its unit tests, polls and houses, which compare it with
# the programs test_poll and test_house, short_windows, which breaks the agreement rule at
# windows that are too short, and binder, which prints the short lists, into
# target/reference/ and runs the tests. With the paths of a libjanus.a, a libtest_callers.a
# and a libtest_short.a it also builds the programs that compare those with the reference:
# differential, writes, callers and shorts.
#
# usage: reference/build.sh [LIBRARY CALLERS SHORT]
set -euo pipefail
. "$(dirname "$0")/../common.sh"
helped "$@"
needs rustc gcc

library=
if [ $# -gt 0 ]; then
    library=$(cd "$(dirname "$1")" && pwd)
    callers=$(cd "$(dirname "$2")" && pwd)
    short=$(cd "$(dirname "$3")" && pwd)
fi
cd "$root"
out=target/reference
mkdir -p "$out"

build() {
    rustc --edition 2021 -O -D warnings "$@"
}

uses="--extern janus_reference=$out/libjanus_reference.rlib"
build --crate-type rlib --crate-name janus_reference \
    reference/src/lib.rs -o "$out/libjanus_reference.rlib"
build --crate-name reference $uses reference/src/main.rs -o "$out/reference"
for program in polls houses short_windows binder; do
    build --crate-name "$program" $uses "reference/$program.rs" -o "$out/$program"
done
build --test --crate-name tests reference/src/lib.rs -o "$out/tests"
if [ -n "$library" ]; then
    for program in differential writes callers shorts; do
        build --crate-name "$program" $uses \
            -L native="$library" -l static=janus -L native="$callers" -l static=test_callers \
            -L native="$short" -l static=test_short "reference/$program.rs" -o "$out/$program"
    done
fi

"$out/tests" >"$out/tests.txt" 2>&1 || {
    cat "$out/tests.txt"
    exit 1
}
passed=$(sed -n 's/^test result: ok\. \([0-9]*\) passed.*/\1/p' "$out/tests.txt")
echo "reference: $passed tests passed"
