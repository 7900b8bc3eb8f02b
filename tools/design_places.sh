#!/usr/bin/env bash
# Counts the places of the design pass (docs/DESIGN-PASS.md) in the sources of a tree: a line for each pattern, with the point, the number of
# places and what they are. With --list the places themselves follow.
#
# usage: tools/design_places.sh [--list] [TREE]       the repository, if no tree is named
set -euo pipefail
list=no
[[ ${1-} != --list ]] || { list=yes && shift; }
cd "${1:-$(dirname "$0")/..}/crates"

places() { # POINT WHAT PATTERN [NOT]: the lines of */src/*.rt that match, and do not match NOT
    local found
    found=$(grep -rnE --include='*.rt' -- "$3" ./*/src | grep -vE -- "${4-^$}" || true)
    printf '%s %4d  %s\n' "$1" "$(grep -c . <<<"$found" || true)" "$2"
    [[ $list == no || -z $found ]] || sed 's|^\./|      |; s|:\s*|: |2' <<<"$found"
}
places 1 'fields that hold a number of a refusal beside a value' '^\s+pub code: u32,'
places 1 'constants that number the refusals' '^pub const [A-Z_]+: u32 = [0-9]+;'
places 1 'functions that answer a number of a refusal (extern "C" aside)' \
    '^(pub |pub\(crate\) )?fn \w*(refusal|refusal_of|first|next|given|put_report)\(.*-> (u32|usize)|^\) -> u32' 'part_next|part_poll|sheet_place|crates/janus/|test_callers|use_report'
places 1 'tests of such a number' 'code (!=|==) 0|\bcode\(?\)? as u64|\.code\b' 'ensures|ghost'
places 1 'own enums of the shape of an Option or a Result, and values that stand for none' 'enum (Handed|Input|Asked)\b|const NO_[A-Z]+'
places 1 'numbers of refusals in an enum' '^\s+(Refused|Rejected)\(u32'
places 2 'helpers that stand more than once, or that the library has' \
    'fn (least|bounded|places|minus|less|prior|wide|copy|padded|put_entries|uncounted|unasked|no_counts|is_out|is_outside|is_active|is_decided|whole)\('
places 2 'tallies of three zeros' '^\s+reads: 0,'
places 2 'functions of 16 and of 32 bits' 'fn (put16|put32|word16|word32|number16|number32)\('
places 3 'loops by while' '^\s*while ' 'while let'
places 3 "loops over a range of indices" "^\s*('\w+: )?for \w+ in .*\.\."
places 4 'equality, order, copying and conversion by hand' \
    'fn (same|bit|newly_marked|process|counts|part|digit|stance_of|session_phase|poll_phase|caller_of|number16|number32)\('
places 4 'fields set to a variable of their name' '^\s+(\w+): \1,'
places 4 'printing by hand' 'fn (word|number|line|write|print|print_line|print_next|print_answer|print_mark|phase_of|place|stance)\(rt'
places 5 'a page and the place on it' 'out: &mut Bytes, at: usize|page: &mut Bytes,'
places 5 'a length that the type of an array says already' 'length \w+\.now ≡ (16|256)'
places 5 'a fact that three functions of the search ask for' 'requires \{ SearchReady'
places 6 'a buffer with a length beside it' 'pub (len|count): usize,$'
places 6 'an array of rows in place of an array of arrays' 'pub (rows|entries): \['
places 7 'a match on a number that says which step to run' '^\s+(let \w+ = |after = )?match (operation|kind|v|k) \{'
