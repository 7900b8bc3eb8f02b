#!/usr/bin/env bash
# How many turns the shorter windows of 02, wish 8, save a seat that works alone: docs/PAPER-CASES.md has what is measured (tests/turns.py).
# Then that a wrong figure there is found.
set -euo pipefail
. "$(dirname "$0")/../common.sh"
takes_nothing "$@"
needs rt gcc rustc python3
cd "$root"
./build.sh reference use_report
page=docs/PAPER-CASES.md
python3 tests/turns.py check "$page"

out=target/tests/turns
mkdir -p "$out"
refused() { # WHAT EDIT WORDS: the page edited by sed, or without its place for the table, is not let through
    local said
    sed "$2" "$page" >"$out/page.md"
    if said=$(python3 tests/turns.py check "$out/page.md" 2>&1); then echo "turns: $1 is not found"; exit 1; fi
    [[ $said == "turns: $3"* ]] || { echo "turns: $1: $said"; exit 1; }
    echo "turns: $1 is found"
}
refused "one turn less" '/turns-alone/,/end -->/ s/^\(| 64 | 17 | 16 | 222 |\) 201 /\1 200 /' "the table of $out/page.md is not what was measured"
refused "a page without the table" '/<!-- turns-alone -->/d' "$out/page.md has not one place for the table"
