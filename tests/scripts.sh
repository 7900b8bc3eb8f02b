#!/usr/bin/env bash
# The scripts as somebody new calls them: files, errors, exit codes, --help, what they say while they prove, in a pipe and on a terminal,
# and what they say without the kit. Nothing is proved here: a script in place of rt says when it is called.
set -euo pipefail
trap 'echo "scripts: line $LINENO: $BASH_COMMAND"' ERR
. "$(dirname "$0")/../common.sh"
takes_nothing "$@"
needs python3 script
cd "$root"
# rt ci takes no crates.txt below the top of the repository: the tree stands outside it.
out=$(mktemp -d)
trap 'rm -rf "$out"' EXIT
mkdir -p "$out/bin" "$out/bare" "$out/tree/examples" "$out/tree/crates" "$out/elsewhere"
count=0

# CODE WORDS COMMAND..: the command must end with that code and tell those words on standard error, write nothing, and give no traceback.
told() {
    local code=0
    "${@:3}" >"$out/stdout" 2>"$out/stderr" || code=$?
    if [[ $code != "$1" || -s $out/stdout ]] || ! grep -qF -- "$2" "$out/stderr" || grep -q Traceback "$out/stderr"; then
        echo "scripts: ${*:3}: ended with $code, should be $1 and '$2'; it wrote $(wc -c <"$out/stdout") bytes and said:"
        cat "$out/stderr"
        exit 1
    fi
    count=$((count + 1))
}

# What was just done must have led to this.
same() {
    cmp "$@"
    count=$((count + 1))
}

# ---------------------------------------------------------------- sheet.py
sheet=$root/examples/sheet.py
list=$root/examples/crash.txt
made=$root/examples/crash.sheet

printf '\xef\xbb\xbf' >"$out/windows.txt"
sed 's/$/\r/' "$list" >>"$out/windows.txt"
truncate -s -2 "$out/windows.txt"
same <("$sheet" "$out/windows.txt") "$made"
same <("$sheet" <"$list") "$made"
same <("$sheet" - <"$list") "$made"
"$sheet" "$list" "$out/named.sheet"
same "$out/named.sheet" "$made"
"$sheet" --help >"$out/help"
grep -q '^usage: sheet.py \[LIST \[SHEET\]\]' "$out/help"

# WORDS LINES: the list of those lines after n 2 and L 3 is wrong for that reason.
wrong() {
    printf 'n 2\nL 3\n%b\n' "$2" >"$out/wrong.txt"
    told 1 "$out/wrong.txt: $1" "$sheet" "$out/wrong.txt" "$out/never.sheet"
    [[ ! -e $out/never.sheet ]]
}
wrong 'line 4: seat 300 is out of range: it must be a whole number from 0 to 255' 'look 1\nlook 300'
wrong 'line 3: value 4294967296 is out of range: it must be a whole number from 0 to 4294967295' 'propose 0 4294967296'
wrong 'line 3: kind 256 is out of range' 'entry 256 0 0'
wrong 'line 3: value 1_000 is not a whole number from 0 to 4294967295' 'propose 0 1_000'
wrong 'line 3: seat ٣ is not a whole number from 0 to 255' 'look ٣'
wrong 'line 3: seat -1 is not a whole number' 'look -1'
wrong "line 3: value $(printf '9%.0s' {1..5000}) is out of range" "propose 0 $(printf '9%.0s' {1..5000})"
wrong 'line 3: n is given twice' 'n 2'
wrong 'line 4: L is given twice' 'look 0\nL 3'
wrong 'line 3: hint maybe is neither yes nor no' 'work 0 maybe'
wrong 'line 3: work takes SEAT HINT, not 0' 'work 0'
wrong 'line 3: look takes SEAT, not 0 1' 'look 0 1'
wrong 'line 3: close takes nothing, not 0' 'close 0'
wrong 'line 3: jump is none of n, L, run, propose, work, look, crash, close, entry' 'jump 0'
wrong '256 runs are too many' "$(printf 'run\\n%.0s' {1..256})"
told 1 'n 256 is out of range: it must be a whole number from 0 to 255' "$sheet" <(echo n 256)
told 1 'L 65536 is out of range: it must be a whole number from 0 to 65535' "$sheet" <(echo L 65536)
told 1 'there is no line L' "$sheet" <(echo n 2)
told 1 'no text in UTF-8' "$sheet" <(printf 'n 2\nL 3\n\377')
cp "$made" "$out/kept.sheet"
told 1 'line 1' "$sheet" <(echo nonsense) "$out/kept.sheet"
same "$out/kept.sheet" "$made"
cp "$list" "$out/kept.txt"
told 1 'cannot be the list and the sheet at once' "$sheet" "$out/kept.txt" "$out/kept.txt"
same "$out/kept.txt" "$list"
told 1 'Is a directory' "$sheet" "$out"
told 1 'Is a directory' "$sheet" "$list" "$out"
told 1 'No such file' "$sheet" "$out/none.txt"
told 1 'No space left' "$sheet" "$list" /dev/full
told 1 'standard output: No space left' bash -c '"$0" "$1" >/dev/full' "$sheet" "$list"
told 1 'standard output: Broken pipe' bash -c 'set -o pipefail; { sleep 0.3; "$0" "$1"; } | :' "$sheet" "$list"
told 2 'try --help' "$sheet" one two three
told 2 'try --help' "$sheet" --what

# ---------------------------------------------------------------- poll.py, which reads its lines as sheet.py does
poll=$root/examples/poll.py
same <(printf 'n 2\npropose 1 258\nturn 1 # a remark\ncrash 0\n' | "$poll") <(printf '\0\2\3\0\0\1\2\1\0\0\1\1\0\0\0\0\2\0\0\0\0\0')
same <(printf 'turn 1\ncart # a remark\nn 17\n' | "$poll") <(printf '\1\21\1\0\1\1\0\0\0\0')
"$poll" --help >"$out/help"
grep -q '^usage: poll.py \[POLL \[BYTES\]\]' "$out/help"
told 1 'line 2: turn takes SEAT, not 0 yes' "$poll" <(printf 'n 2\nturn 0 yes\n')
told 1 'L is none of n, cart, propose, turn, crash' "$poll" <(printf 'n 2\nL 3\n')
told 1 'line 3: cart is given twice' "$poll" <(printf 'cart\nn 2\ncart\n')
told 1 'line 2: cart takes nothing, not 1' "$poll" <(printf 'n 2\ncart 1\n')
told 1 'there is no line n' "$poll" <(echo turn 0)
told 1 'n 256 is out of range' "$poll" <(echo n 256)
told 1 '10923 operations are too many' "$poll" <(echo n 1; yes turn 0 | head -n 10923)
told 1 'No such file' "$poll" "$out/none.poll"
told 2 'try --help' "$poll" one two three

# ---------------------------------------------------------------- house.py, which reads its lines as poll.py does
house=$root/examples/house.py
printf 'c 2\npropose 1 258\nturn 1 yes # a remark\nturn 0 no\nlook 0\ncrash 1\nset 146 3 7\nwards 2 1\n' >"$out/here.house"
printf '\2\2\2\1\6\0\0\1\2\1\0\0\1\1\1\0\0\0\1\0\0\0\0\0\3\0\0\0\0\0\2\1\0\0\0\0\222\3\7\0\0\0' >"$out/here.bytes"
same <("$house" "$out/here.house") "$out/here.bytes"
same <(printf 'wards\nc 0\n' | "$house") <(printf '\0\0\0\0')
"$house" --help >"$out/help"
grep -q '^usage: house.py \[HOUSE \[BYTES\]\]' "$out/help"
told 1 'line 2: turn takes WORKER HINT, not 0' "$house" <(printf 'c 2\nturn 0\n')
told 1 'line 1: n is none of c, wards, propose, turn, look, crash, set' "$house" <(echo n 2)
told 1 'line 3: wards is given twice' "$house" <(printf 'wards 1\nc 1\nwards 1\n')
told 1 'line 1: ward 256 is out of range' "$house" <(echo wards 1 256)
told 1 'there is no line c' "$house" <(echo wards 1)
told 1 'there is no line wards; c and wards must be given' "$house" <(echo c 1)
told 1 '256 workers are too many' "$house" <(echo c 1; echo wards $(yes 1 | head -n 256))
told 1 '10922 operations are too many: the program reads 10921 at most' "$house" <(printf 'c 1\nwards 1 1 1\n'; yes look 0 | head -n 10922)

# ---------------------------------------------------------------- a tree of its own, with a script in place of rt
export PATH=$out/bin:$PATH
cat >"$out/bin/rt" <<'RT'
#!/usr/bin/env bash
# In place of rt: tells of three crates, and makes a program or an archive that says how often rt was called and shows its input.
# With a file called broken in the tree it fails after the first crate; with one called slow it goes on after that only when there is
# one called seen.
if [[ $1 == ci ]]; then
    echo "$*" >>calls
    printf '%s\n' "rt: base proved" "rt: ok; handles allowed: none; must-fail edits: 7 refused$(cat bad 2>/dev/null); done in this run: 1 of the 2 proofs" \
        "4 passed, $(cat failing 2>/dev/null || echo 0) failed"
    [[ ! -e failing ]]
    exit
fi
top=../..
crate=$(basename "$PWD")
echo "$* $crate" >>$top/calls
[[ $1 == lib ]] || exec 3>&1 >&2
proved() { printf '%s\n' "fn $1::first: proved" "library std: modules loaded=1 checked=0" "crate $1: modules loaded=2 checked=1" "logic=proved functions=1"; }
proved base
[[ ! -e $top/broken ]] || { printf '%s\n' "crate model: modules loaded=2 checked=1" "a proof that failed" "logic=not-proved"; exit 1; }
while [[ -e $top/slow && ! -e $top/seen ]]; do sleep 0.05; done
proved model
echo "a note, and no end of words"
proved "$crate"
case $1 in
run) made=out/$crate ;;
lib) made=out/lib$crate.a ;;
esac
mkdir -p out
printf '#!/bin/sh\necho build %s\ncat\n' "$(wc -l <$top/calls)" >"$made"
chmod +x "$made"
[[ $1 == lib ]] || { echo "rt: running $made"; exec "$made" >&3; }
RT
chmod +x "$out/bin/rt"
cat >"$out/tree/crates.txt" <<'CRATES'
# NAME: DEP DEP ..
base:
model: base io
other: base model
use_report: io base model
use_binder: io base model
test_poll: model base
test_house: model base
janus staticlib: model
CRATES
for crate in base model other use_report use_binder test_poll test_house janus; do
    mkdir -p "$out/tree/crates/$crate/src"
    echo "what is stored" >"$out/tree/crates/$crate/stdin"
done
cp -r build.sh common.sh install.sh include "$out/tree"
cp examples/{report.sh,binder.sh,poll.sh,house.sh,poll.py,house.py,sheet.py,two_decide.sheet,two_answers.poll,two_wards.house} "$out/tree/examples"
cd "$out/elsewhere"
cp "$made" here.sheet
cp "$list" here.txt

# CRATE: what is told while it is proved, but for the seconds.
told_of() {
    echo "proving $1 and what it is made of, 3 crates"
    printf 'proved %s\n' base model "$1"
    echo "proved $1, 3 of its 3 crates anew, in N s"
}
without_seconds() { sed -E 's/ in [0-9]+ s/ in N s/' "$@"; }

# ---------------------------------------------------------------- report.sh
report=$out/tree/examples/report.sh
"$report" here.sheet >stdout 2>stderr
same stdout <(echo build 1; cat here.sheet)
same <(without_seconds stderr) <(told_of use_report)
"$report" >stdout 2>stderr
same stdout <(echo build 1; cat "$root/examples/two_decide.sheet")
same stderr /dev/null
told 2 "here.txt is a list in words; make a sheet of it: $out/tree/examples/sheet.py here.txt here.sheet" "$report" here.txt
told 2 'this is too much: more' "$report" here.sheet more
told 2 'none.sheet: there is no such file' "$report" none.sheet
told 2 'this is no file that can be read' "$report" .
same <(wc -l <"$out/tree/calls") <(echo 1)

# A crate is told when it is proved, not at the end.
touch "$out/tree/slow" "$out/tree/crates/model/src/changed"
"$report" here.sheet >stdout 2>stderr &
running=$!
for _ in {1..200}; do
    if grep -q 'proved base' stderr; then break; fi
    sleep 0.05
done
same stderr <(told_of use_report | head -n 2)
touch "$out/tree/seen"
wait "$running"
same <(without_seconds stderr) <(told_of use_report)
same stdout <(echo build 2; cat here.sheet)
rm "$out/tree/slow" "$out/tree/seen"

# What rt ci has made anew of the same files is taken as it is.
printf '#!/bin/sh\necho by the gate\n' >"$out/tree/crates/use_report/out/use_report"
rm "$out/tree/target/bin/use_report"
"$report" here.sheet >stdout 2>stderr
same stdout <(echo by the gate)
same stderr /dev/null

# On a terminal each takes the place of the one before, and only the last one stays.
rm -r "$out/tree/crates/use_report/out" "$out/tree/target/bin/use_report"
script -qec "$(printf %q "$report") here.sheet" /dev/null </dev/null >terminal
same <(head -n 1 terminal | sed 's/\r$//; s/\r\x1b\[K/\n/g' | tail -n +2 | without_seconds) <(told_of use_report)
same <(sed -n 2p terminal) <(printf 'build 3\r\n')

touch "$out/tree/broken" "$out/tree/crates/model/src/changed"
told 1 'a proof that failed' "$report" here.sheet
same <(head -n 3 "$out/stderr" | without_seconds) <(told_of use_report | sed -n '1,2p; 5s/3 of its/1 of its/p')
same <(tail -n 1 "$out/stderr") <(echo "build.sh: use_report was not built; what was said is above")

# ---------------------------------------------------------------- poll.sh
play=$out/tree/examples/poll.sh
told 1 'a proof that failed' "$play"
told 1 'No such file' "$play" none.poll
told 2 'this is too much: b' "$play" a b
rm "$out/tree/broken"
printf 'n 1\nturn 0\n' >here.poll
"$play" here.poll >stdout 2>stderr
same stdout <(echo build 6; "$poll" here.poll)
same <(without_seconds stderr) <(told_of test_poll)
"$play" >stdout 2>stderr
same stdout <(echo build 6; "$poll" "$root/examples/two_answers.poll")
same stderr /dev/null

# ---------------------------------------------------------------- house.sh
play=$out/tree/examples/house.sh
told 2 'one house at a time; this is too much: b' "$play" a b
"$play" >stdout 2>stderr
same stdout <(echo build 7; "$house" "$root/examples/two_wards.house")
same <(without_seconds stderr) <(told_of test_house)
"$play" "$out/here.house" >stdout 2>stderr
same stdout <(echo build 7; cat "$out/here.bytes")

# ---------------------------------------------------------------- binder.sh
binder=$out/tree/examples/binder.sh
for arguments in 2 '1 2 3'; do
    read -ra words <<<"$arguments"
    told 2 "the seats and the length are both named, or neither; this was: $arguments" "$binder" "${words[@]}"
done
told 2 "'12' is no digit" "$binder" 2 12
told 2 "'' is no digit" "$binder" '' 2
told 2 "'-1' is no digit" "$binder" -1 2
"$binder" >stdout 2>stderr
same stdout <(printf 'build 8\n2 2\n')
same <(without_seconds stderr) <(told_of use_binder)
"$binder" 1 6 >stdout 2>stderr
same stdout <(printf 'build 8\n1 6\n')
same stderr /dev/null

# ---------------------------------------------------------------- build.sh and install.sh
build=$out/tree/build.sh
told 2 "there is no part called 'more'" "$build" archive more
told 2 "there is no crate called 'use_more'" "$build" use_more
told 2 'no part is named' "$build"
same <(wc -l <"$out/tree/calls") <(echo 8)
"$out/tree/install.sh" prefix >stdout 2>stderr
same <(without_seconds stderr) <(told_of janus)
same stdout <(echo "installed include/janus.h, lib/libjanus.a and lib/pkgconfig/janus.pc under $PWD/prefix")

# ---------------------------------------------------------------- .ci/run: verdicts as they come, the output of what fails, the last line
mkdir -p "$out/tree/.ci" "$out/tree/tests"
cp "$root/.ci/run" "$out/tree/.ci/run"
echo 'echo what the first says' >"$out/tree/tests/first.sh"
echo 'echo what the longest says' >"$out/tree/tests/theorem_edits.sh"
rm "$out/tree/calls"
"$out/tree/.ci/run" >stdout 2>stderr
same "$out/tree/calls" <(echo ci)
same <(sed -n 1p stdout) <(echo "rt: base proved")
same <(sed -n 3,4p stdout) <(printf '%s\n' "4 passed, 0 failed" "2 tests, $(nproc) at a time")
same <(tail -n +5 stdout | head -n 2 | sort | sed -E 's/ [0-9]+ s$/ N s/') <(printf 'tests/%s.sh passed, N s\n' first theorem_edits)
same <(tail -n +7 stdout) <(echo "4 passed, 0 failed")
same "$out/tree/target/said/tests/first.sh" <(echo what the first says)
echo 'echo what the second says; exit 3' >"$out/tree/tests/second.sh"
if "$out/tree/.ci/run" >stdout 2>stderr; then echo "scripts: the gate lets a test fail"; exit 1; fi
grep -qE '^tests/second.sh FAILED, [0-9]+ s$' stdout
same <(tail -n 3 stdout) <(printf '%s\n' "== tests/second.sh FAILED" "what the second says" "1 of 3 tests FAILED")
rm "$out/tree/tests/second.sh"
for bad in ', 1 bad' ', 2 of them only by a limit, 10 bad'; do
    echo "$bad" >"$out/tree/bad"
    if "$out/tree/.ci/run" >stdout 2>stderr; then echo "scripts: the gate lets an edit be bad$bad"; exit 1; fi
    same <(tail -n 1 stdout) <(echo "must-fail edits that are BAD, as rt ci tells them above: the gate FAILED")
done
echo ', 2 of them only by a limit' >"$out/tree/bad"
"$out/tree/.ci/run" >stdout 2>stderr
rm "$out/tree/bad"
echo 1 >"$out/tree/failing"
if "$out/tree/.ci/run" >stdout 2>stderr; then echo "scripts: the gate lets a crate fail"; exit 1; fi
same <(tail -n 1 stdout) <(echo "4 passed, 1 failed")

# ---------------------------------------------------------------- --help, of every script, and each without the kit
cd "$root"
rm -f calls
scripts=(build.sh install.sh .ci/run bench/run.sh docs/print.sh reference/build.sh examples/*.sh tests/*.sh)
for script in "${scripts[@]}" examples/*.py tests/{paper_cases,paper_lists,run,short_lists,theorem_edits,turns,written_sheets}.py; do
    "./$script" --help >"$out/stdout" 2>"$out/stderr"
    same "$out/stderr" /dev/null
    grep -q '^[A-Z]' "$out/stdout" || { echo "scripts: $script --help does not say what it is for"; exit 1; }
done
python3 docs/print.py --help >"$out/stdout"
grep -q '^usage: docs/print.py FOLDER' "$out/stdout"
for program in bash env dirname sed cat; do
    ln -s "$(type -P "$program")" "$out/bare"
done
for script in "${scripts[@]}"; do
    words=()
    case $script in
    build.sh) words=(archive) ;;
    install.sh) words=("$out/never") ;;
    docs/print.sh | reference/build.sh | tests/documents.sh | tests/scripts.sh) continue ;;
    esac
    told 127 "${script##*/}: not found on PATH: rt, the command of the Rattle kit" env PATH="$out/bare" "./$script" "${words[@]}"
    same <(wc -l <"$out/stderr") <(echo 1)
done
[[ ! -e $out/never ]]
told 127 'poll.sh: not found on PATH: python3' env PATH="$out/bin:$out/bare" examples/poll.sh
told 127 'build.sh: not found on PATH: rustc, the Rust compiler; gcc' env PATH="$out/bin:$out/bare" ./build.sh reference
told 127 'build.sh: not found on PATH: rustc, the Rust compiler; gcc' env PATH="$out/bin:$out/bare" reference/build.sh
told 127 'documents.sh: not found on PATH: python3' env PATH="$out/bare" tests/documents.sh
told 2 'it takes no arguments; this is too much: more' tests/documents.sh more

# ---------------------------------------------------------------- print.sh: the pages, if what makes them is installed
told 2 'one folder is named at most' docs/print.sh one two
if /usr/bin/python3 -c 'import markdown, weasyprint' 2>/dev/null; then
    same <(docs/print.sh "$out/print" | sed -E 's/[0-9]+ pages/N pages/') \
        <(printf "print: $out/print/%s\n" 'PAPER-CASES.pdf, N pages' 'form.pdf, 1 page')
else
    echo "scripts: the pages for the printer are not made here, for weasyprint is not installed"
fi

# ---------------------------------------------------------------- differential.sh: wrong arguments are told before anything is built
for arguments in many 0 -5 1.5 '5000 x' '5000 -1' '5000 7 8' '5000 7777777777777777777'; do
    read -ra words <<<"$arguments"
    told 2 'try --help' tests/differential.sh "${words[@]}"
done
told 2 "'' is no number of sheets" tests/differential.sh ''
[[ ! -e calls ]]

echo "scripts: $count calls as they should be"
