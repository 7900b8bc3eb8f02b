#!/usr/bin/env bash
# The training binder's program (02, wish 12) beside the separate one, reference/binder.rs: what each prints for every pair of digits is the
# same, byte for byte. Lists cut out of the binder finish as sheets; wrong input and a write that fails are told; wrong programs are found.
set -euo pipefail
trap 'echo "binder: line $LINENO: $BASH_COMMAND"' ERR
. "$(dirname "$0")/../common.sh"
takes_nothing "$@"
needs rt gcc rustc python3
cd "$root"
program=target/bin/use_binder
./build.sh reference use_binder use_report
out=target/tests/binder
rm -rf "$out"
mkdir -p "$out/lists"
fail() {
    echo "binder: FAILED: $*" >&2
    exit 1
}

# ---------------------------------------------------------------- what is printed
for pair in {0..9}\ {0..9}; do
    "$program" <<<"$pair" >"$out/$pair" 2>"$out/said"
    [[ ! -s $out/said ]] || fail "for $pair it says $(cat "$out/said")"
done

# MAKER: whether it prints the same for every pair of digits; if not, `differs` is the first of which it does not.
same() {
    for differs in {0..9}\ {0..9}; do
        "$1" ${differs% *} ${differs#* } | cmp -s - "$out/$differs" || return 1
    done
}
same target/reference/binder || fail "for $differs it prints something else than the separate program"
counts=$(for n in 1 2; do for length in {0..6}; do tail -n 1 "$out/$n $length" | tr -dc '0-9 '; done; done)
[[ $counts == ' 1  1  4  12  36  108  324  1  2  10  48  264  1536  9144 ' ]] || fail "the numbers of lists are$counts"
[[ $(cat "$out"/[03-9]\ * | sort -u) == "lists refused 1" && $(cat "$out"/[12]\ [789] | sort -u) == "lists refused 17" ]] ||
    fail "other seats and lengths are not refused as they should be"
examples/binder.sh | cmp - examples/binder_2_2.txt
examples/binder.sh 1 3 | cmp - "$out/1 3"
printf '2 2' | "$program" | cmp - examples/binder_2_2.txt
(printf 2 && sleep 0.1 && printf ' 2\n') | "$program" | cmp - examples/binder_2_2.txt
echo "binder: the lists of 14 sizes, and 86 refusals, as the separate program has them"

# ---------------------------------------------------------------- lists cut out of it, each with the lines above the first
for pair in {1,2}\ {0..3}; do
    awk -v RS= -v to="$out/lists/${pair/ /_}" '
        NR == 1 { head = $0 }
        /^# list / { file = to "_" $3 ".txt"; print head "\n\n" $0 >file; close(file) }' "$out/$pair"
done
lists=("$out"/lists/*.txt)
((${#lists[@]} == 79)) || fail "${#lists[@]} lists were cut out, and not 79"
python3 -B - "${lists[@]}" <<'END'
import sys
sys.path.append("examples")
import sheet
for name in sys.argv[1:]:
    sheet.write(name.replace(".txt", ".sheet"), sheet.sheet(*sheet.listed(sheet.read(name))))
END
for list in "${lists[@]}"; do
    name=${list##*/}
    target/bin/use_report <"${list%.txt}.sheet" >"$out/report"
    [[ $(head -n 1 "$out/report") == "outcome finished ${name:2:1}" ]] || fail "$list: $(cat "$out/report")"
done
echo "binder: ${#lists[@]} lists of up to 3 entries finish as sheets"

# ---------------------------------------------------------------- what it cannot read, understand or write
# WORDS: it has said this, and nothing else; and unless it could not write, it has printed nothing.
says() {
    [[ $(cat "$out/said") == "binder: $1" && $(wc -l <"$out/said") == 1 ]] || fail "it should say '$1': $(cat "$out/said")"
    [[ ! -s $out/printed ]] || fail "it says '$1', and prints something"
}
wrong_input=('' '\n' '2' '2 \n' '2 3 ' '2 3x' '2 3\r\n' '2 33' '12 3' '2  3' ' 2 3' '2\t3' '2,3' '23\n' 'a 3' '2 b' '/ 3' ': 3' '2 /' '2 :' '+2 3'
    '2 3\n\n' '2 3\n2 3\n' '2 3\0' '\0 3')
for input in "${wrong_input[@]}" "$(printf '2 3%070000d' 0)"; do
    printf %b "$input" >"$out/input"
    "$program" <"$out/input" >"$out/printed" 2>"$out/said"
    says "standard input must be the seats and the length, one digit each, as 2 3"
done
"$program" <examples >"$out/printed" 2>"$out/said"
says "standard input cannot be read"
rm "$out/printed"
for pair in '2 6' '2 0' '0 0'; do
    "$program" <<<"$pair" >/dev/full 2>"$out/said"
    says "standard output cannot be written"
done
# A disk that is full after 8 KiB.
(trap '' XFSZ && ulimit -f 8 && "$program" <<<"2 6" >"$out/part" 2>"$out/said")
says "standard output cannot be written"
head -c 8192 "$out/2 6" | cmp - "$out/part"
echo "binder: $((${#wrong_input[@]} + 1)) wrong inputs, a read and 4 writes that fail are told"

# ---------------------------------------------------------------- wrong programs, here copies of the separate one
# WHAT EDIT PAIR: the copy, edited by sed, prints something else, and first for that pair.
wrong() {
    sed "$2" reference/binder.rs >"$out/wrong.rs"
    if cmp -s reference/binder.rs "$out/wrong.rs"; then fail "nothing to edit: $2"; fi
    rustc --edition 2021 -A warnings --crate-name wrong --extern janus_reference=target/reference/libjanus_reference.rlib \
        "$out/wrong.rs" -o "$out/wrong"
    if same "$out/wrong" || [[ $differs != "$3" ]]; then fail "a program that $1 is not found, or not for $3"; fi
    echo "binder: a program that $1 is found, for $differs"
}
wrong "leaves out the last of the lists" 's/Ok(()) => lists/Ok(()) if lists.len() == 9_143 => {}\n            &/' '2 6'
wrong "has yes for no" 's/format!("{}\\n", Operation.*entry"))/&.replace(" no", " yes")/' '1 2'
wrong "has the lists in another order" 's/lists.iter()/&.rev()/' '1 2'
wrong "has an L that is not the least" 's/window(n))/window(n) + 1)/' '1 0'
wrong "has 1 lists" 's/"list", "lists"/"lists", "lists"/' '1 0'
wrong "numbers the lists from 0" 's/place + 1/place/' '1 0'
