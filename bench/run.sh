#!/usr/bin/env bash
# The benchmark: builds both sides for release and prints a table of sheets that are run, one of a sheet that is written, one of single
# operations, one of calls on a house and one of calls for short lists. With valgrind on the machine it also counts instructions an entry that is run: those of 11 calls on
# a sheet of 10,921 entries less those of one call, by the entries of ten.
#
# usage: bench/run.sh
#
# It needs the Rattle kit, rustc, gcc and python3.
set -euo pipefail
. "$(dirname "$0")/../common.sh"
takes_nothing "$@"
needs rt rustc gcc python3
cd "$root"
./build.sh archive test_bench test_house reference
out=target/bench
mkdir -p "$out"
rustc --edition 2021 -O -D warnings --crate-name bench --extern janus_reference=target/reference/libjanus_reference.rlib \
    -L native=target/staticlib -l static=janus bench/bench.rs -o "$out/bench"
"$out/bench"
"$out/bench" operations target/bin/test_bench
bench/houses.py target/bin/test_house target/reference/reference
rustc --edition 2021 -O -D warnings --crate-name shorts --extern janus_reference=target/reference/libjanus_reference.rlib \
    -L native=target/staticlib -l static=test_short bench/shorts.rs -o "$out/shorts"
"$out/shorts"
command -v valgrind >/dev/null || exit 0

instructions() { # the words of `bench count`
    valgrind --tool=callgrind --callgrind-out-file=/dev/null "$out/bench" count "$@" 2>&1 | sed -n 's/.*Collected : //p'
}
entries=10921
for size in "8 256" "1 2" "8 256 waiting"; do
    for which in proved separate; do
        read -r n limit waiting <<<"$size"
        one=$(instructions "$which" "$n" "$limit" "$entries" 1 $waiting)
        eleven=$(instructions "$which" "$n" "$limit" "$entries" 11 $waiting)
        echo "instructions an entry, n $n, L $limit${waiting:+, waiting}, $which: $(((eleven - one) / (10 * entries)))"
    done
done
