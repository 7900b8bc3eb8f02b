#!/usr/bin/env bash
# The window, the smallest whole number with W times W at least 4n, without a product (02, wishes 4 and 8): the function's source; its compiled
# code, seen by itself, and that of the header's; every window beside the separate program's. Each look is tried on what it must find: a window
# by a product, two that add up the wrong numbers, and the three that wish 8 shuts out: 01's, one less than the smallest, and the root of 4n
# rounded down.
set -euo pipefail
. "$(dirname "$0")/../common.sh"
takes_nothing "$@"
needs rt gcc rustc objdump
cd "$root"
./build.sh archive window reference
out=target/tests/window
mkdir -p "$out"
fail() {
    echo "window: FAILED: $*" >&2
    exit 1
}

# FILE: its lines with a product: a `*`, a shift to the left, a method that multiplies.
products() {
    grep -nE '\*|<<|mul|pow|shl' "$1" || [[ $? == 1 ]]
}
for file in crates/part_window/src/*.rt; do
    found=$(products "$file")
    [[ -z $found ]] || fail "$file: $found"
done
[[ $(products <(echo 'while m * m < end {')) == 1:* ]] || fail "the look at the source finds no product"

# FILE [FUNCTION]: the code of the function, window_alone where none is named, an instruction a line.
code() {
    objdump -d --no-show-raw-insn "$1" | awk -v name="<${2:-window_alone}>:" '/^$/ { on = 0 } on { print } $2 == name { on = 1 }' | cut -f2-
}
# FILE: what in the code of window_alone multiplies, or calls, as a machine without such an instruction would.
multiplies() {
    code "$1" | grep -E '^[a-z]*(mul|madd|msub)|^call' || true
}
# FILE FUNCTION: the multiplications in it that are not by a constant in the instruction. (Divisions by one are made of such.)
products_of_two() {
    code "$1" "$2" | grep -E '^[a-z]*mul' | grep -vE '^imul +\$' || true
}
# FILE: that code has its loop and its end, and multiplies nowhere.
without_product() {
    local seen
    seen=$(code "$1")
    for instruction in add j ret; do
        grep -q "^$instruction" <<<"$seen" || fail "$1: no code was seen: $seen"
    done
    [[ -z $(multiplies "$1") ]] || fail "$1: $(multiplies "$1")"
    echo "window: $1: $(wc -l <<<"$seen") instructions, none multiplies"
}
# NAME, the body on standard input: target/tests/window/NAME.o, with window_alone in C.
in_c() {
    { printf '#include <stddef.h>\n#include "janus.h"\nsize_t window_alone(unsigned char n)\n{\n'; cat; printf '}\n'; } >"$out/$1.c"
    gcc -O2 -Wall -Wextra -Werror -Iinclude -c "$out/$1.c" -o "$out/$1.o"
}

without_product target/staticlib/libtest_window.a
in_c header <<<'return janus_window(n);'
without_product "$out/header.o"
in_c product <<<'size_t m = 0, end = n; end += end; end += end; while (m * m < end) m++; return m;'
[[ $(multiplies "$out/product.o") =~ imul ]] || fail "the look at the code finds no multiplication: $(code "$out/product.o")"
[[ -n $(products_of_two "$out/product.o" window_alone) ]] || fail "the look at the archive finds no product: $(code "$out/product.o")"

# In the archive the function is compiled into its callers, the runner among them.
archive=target/staticlib/libjanus.a
grep -q '^ret' <<<"$(code "$archive" janus::run)" || fail "$archive: the runner was not seen"
found=$(products_of_two "$archive" janus::run)
[[ -z $found ]] || fail "$archive: the runner has a product: $found"
echo "window: $archive: the runner multiplies by constants alone"

# FILE: reference/windows.rs with the function of that file, as target/tests/window/windows.
compare() {
    rustc --edition 2021 -O -D warnings --crate-name windows --extern janus_reference=target/reference/libjanus_reference.rlib \
        -L native=target/staticlib -l static=janus -C link-arg="$1" reference/windows.rs -o "$out/windows"
    "$out/windows"
}
compare target/staticlib/libtest_window.a
compare "$out/header.o"

# The same in C, and with one thing wrong. WHAT N BODY: that function multiplies nowhere either, and gives another window of n processes first.
four='size_t root = 0, square = 0, odd = 1, end = n; end += end; end += end;'
climb='while (square < end) { square += odd; odd += 2; root++; }'
in_c right <<<"$four $climb return root;"
compare "$out/right.o"
wrong() {
    in_c wrong <<<"$3"
    [[ -z $(multiplies "$out/wrong.o") ]] || fail "$1: $(multiplies "$out/wrong.o")"
    said=$(! compare "$out/wrong.o") || fail "no difference with $1"
    [[ $said == "difference: n $2: "* ]] || fail "$1: $said"
    echo "window: $1: $said"
}
wrong "numbers from 0 on for odd ones" 1 "$four odd = 0; $climb return root;"
wrong "numbers from 2 on for odd ones" 3 "$four odd = 2; $climb return root;"
wrong "01's, 2 times the rounded-up root of n, plus 1" 1 "size_t root = 0, square = 0, odd = 1, end = n; $climb return root + root + 1;"
wrong "one less than the smallest" 1 "$four $climb return root - 1;"
wrong "the root of 4n, rounded down" 2 "$four while (square + odd <= end) { square += odd; odd += 2; root++; } return root;"
