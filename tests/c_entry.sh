#!/usr/bin/env bash
# Calls the library from C: the header in each language that it is for, the example of examples/, whose output is compared, and
# the checks of c_*.c.
set -euo pipefail
. "$(dirname "$0")/../common.sh"
takes_nothing "$@"
needs rt gcc g++ rustc python3 nm
cd "$root"

./build.sh archive reference
out=target/tests
archive=target/staticlib/libjanus.a
mkdir -p "$out"
strict=(-Wall -Wextra -Wpedantic -Werror -Iinclude)

# What the archive has: its own functions and their constants, no data that can be written, and two names that it asks for.
odd=$(nm "$archive" | grep -E '.' | grep -vE '^janus\.o:$| T janus_(run|report|write)$| U mem(cpy|set)$| [rt] ' || true)
[[ -z $odd ]] || { echo "c entry: FAILED: the archive has: $odd" >&2; exit 1; }

# The header alone, included twice, and the example, in each language. C++ knows that nothing is thrown.
cat >"$out/header.c" <<'END'
#include "janus.h"
#include "janus.h"
#ifdef __cplusplus
static_assert(noexcept(janus_run(nullptr, 0, 0, nullptr, 0)) && noexcept(janus_report(nullptr, 0, nullptr, 0)), "noexcept");
static_assert(noexcept(janus_write(0, 0, nullptr, 0, nullptr, 0, nullptr, 0, nullptr)), "noexcept");
#endif
END
for language in "gcc -std=c99" "gcc -std=c11" "gcc -std=c17" "g++ -std=c++11 -x c++" "g++ -std=c++17 -x c++"; do
    read -ra compile <<<"$language"
    "${compile[@]}" "${strict[@]}" -fsyntax-only "$out/header.c"
    "${compile[@]}" "${strict[@]}" -c examples/run_sheet.c -o "$out/run_sheet.o"
    "${compile[0]}" "$out/run_sheet.o" "$archive" -o "$out/run_sheet"
    "$out/run_sheet" | diff tests/c_entry.expected -
done

# NAME WORDS: the checks of tests/NAME.c, compiled with the words and linked with the archive, as target/tests/NAME.
build() {
    gcc -std=c11 "${strict[@]}" -g "${@:2}" "tests/$1.c" "$archive" -o "$out/$1"
}
sanitized=(-fsanitize=address,undefined)

build c_entry "${sanitized[@]}"
"$out/c_entry"

build c_decision -O1
"$out/c_decision" >"$out/table.txt"
while IFS= read -r row; do
    grep -qxF -- "$row" include/janus.h || { echo "c decision: FAILED: include/janus.h has no line: $row" >&2; exit 1; }
done <"$out/table.txt"

# janus_report, beside the separately written program.
build c_report "${sanitized[@]}"
"$out/c_report"
for sheet in examples/*.sheet; do
    "$out/c_report" text <"$sheet" | cmp - <(target/reference/reference report <"$sheet")
done

# janus_write, and examples/sheet.py, which makes the same sheets.
build c_write "${sanitized[@]}"
"$out/c_write"
python3 tests/written_sheets.py "$out/c_write"

build c_stack -O1 -pthread -Wl,-z,lazy
"$out/c_stack"
