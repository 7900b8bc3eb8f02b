#!/usr/bin/env bash
# The board report's program beside the separately written one: the sample that README runs first, the sample sheets, the unstarred
# cases on sheets, the least L of one seat and of 64, sheets over the bedside cart's limits (02, wish 9: "the C entry and the report
# use the server's"), and the board line of open and closed sessions (02, wish 10).
set -euo pipefail
. "$(dirname "$0")/../common.sh"
takes_nothing "$@"
needs rt gcc rustc
cd "$root"
crate=use_report
program=target/bin/$crate
./build.sh reference
out=target/tests
mkdir -p "$out"

# As README has it; this proves and builds the program where it changed.
examples/report.sh >"$out/ours.txt"
target/reference/reference report <examples/two_decide.sheet | cmp - "$out/ours.txt"
[[ $(grep -c '^seat [01] decided 3$' "$out/ours.txt") == 2 ]]

same() { # the name of a case; its sheet on standard input
    cat >"$out/case.sheet"
    "$program" <"$out/case.sheet" >"$out/ours.txt"
    target/reference/reference report <"$out/case.sheet" >"$out/theirs.txt"
    cmp "$out/ours.txt" "$out/theirs.txt" || { echo "report: $1 differs"; exit 1; }
    count=$((count + 1))
}
count=0
for sheet in examples/*.sheet; do
    same "$sheet" <"$sheet"
done
same "an empty sheet" </dev/null
[[ $(cat "$out/ours.txt") == "sheet refused 10" ]]
says_first() { # OUTCOME BOARD: those lines of the report that has just been made
    [[ $(sed -n '1p;3p' "$out/ours.txt") == "outcome $1"$'\n'"board $2" ]] || { echo "report: it should have '$1' and '$2'"; exit 1; }
}
opens() { # the report that has just been made is of a session with no entries
    says_first "finished 0" "0 0 open"
}
same "no entries" < <(printf '\1\0\3\0')
opens
same "no entries, L at its least" < <(printf '\1\0\2\0')
opens
same "64 seats, L = 15" < <(printf '\100\0\17\0')
[[ $(cat "$out/ours.txt") == "sheet refused 2" ]]
same "64 seats, L = 16" < <(printf '\100\0\20\0')
opens
same "16 seats, L = 65" < <(printf '\20\0\101\0')
opens
same "17 seats, L = 64" < <(printf '\21\0\100\0')
opens
same "64 seats, L = 256" < <(printf '\100\0\0\1')
opens
entries() { # BYTES..: a sheet of two seats with L = 3 and one run, of these bytes in octal digits
    printf %b "$(printf '\\0%s' 2 1 3 0 10 0 "$(printf %o $#)" 0 "$@")"
}
close=(4 0 0 0 0 0)
propose=(0 0 7 0 0 0)
same "a close" < <(entries "${close[@]}")
says_first "finished 1" "0 0 closed"
same "two closes, a work turn between them" < <(entries "${propose[@]}" "${close[@]}" 1 0 1 0 0 0 "${close[@]}")
says_first "finished 4" "0 0 closed"
same "a proposal after a close" < <(entries "${close[@]}" "${propose[@]}")
says_first "refused 18 1" "0 0 closed"
same "a second proposal after a close" < <(entries "${propose[@]}" "${close[@]}" "${propose[@]}")
says_first "refused 6 2" "0 0 closed"
same "a close of seat 1" < <(entries "${propose[@]}" 4 1 0 0 0 0)
says_first "refused 13 1" "0 0 open"
same "a close of seat 64" < <(entries 4 100 0 0 0 0)
says_first "refused 13 0" "0 0 open"
same "a close with value 1" < <(entries 4 0 1 0 0 0 "${close[@]}")
says_first "refused 13 0" "0 0 open"
same "a sheet of 65,536 bytes" < <(head -c 65536 /dev/zero)
[[ $(cat "$out/ours.txt") == "sheet refused 10" ]]
# Its stored run, in two pieces.
stored=crates/$crate
(head -c 60 "$stored/stdin"; sleep 0.2; tail -c +61 "$stored/stdin") | "$program" | cmp - "$stored/stdout"
says() { # the words on standard error; what was printed is in ours.txt
    [[ $(cat "$out/said.txt") == "report: $1" ]] || { echo "report: it should say '$1'"; exit 1; }
}
"$program" <examples >"$out/ours.txt" 2>"$out/said.txt"
says "standard input cannot be read"
[[ ! -s $out/ours.txt ]]
"$program" <examples/solo.sheet >/dev/full 2>"$out/said.txt"
says "standard output cannot be written"
echo "report: $count sheets as the separate program has them, and one that comes in pieces"
