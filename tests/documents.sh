#!/usr/bin/env bash
# The pages: their limits, what they cite, the table of crates, the edits and the refusals, held to the code; the public functions, held to two
# rules. Then that wrong pages, names and functions are found, in a copy.
#
# usage: tests/documents.sh
set -euo pipefail
. "$(dirname "$0")/../common.sh"
takes_nothing "$@"
needs python3
cd "$root"
python3 tests/pages.py
python3 tests/layers.py check
python3 tests/wrong_answers.py check
python3 tests/refusals.py
python3 tests/contracts.py

room=$(mktemp -d)
trap 'rm -rf "$room"' EXIT
mkdir "$room/tests"
for name in crates crates.txt include examples reference bench .ci build.sh install.sh; do
    ln -s "$PWD/$name" "$room/$name"
done
find tests -maxdepth 1 -type f ! -name documents.sh -exec cp {} "$room/tests" \;
touch "$room/tests/documents.sh" # without the words that are wrong below
ln -s "$PWD/tests/theorem-edits" "$room/tests/theorem-edits"
count=0
wrong() { # WORDS PAGE LINES: with these lines at its end the page is refused in those words
    local said
    rm -rf "$room/docs" "$room/README.md"
    cp -r docs README.md "$room"
    printf '%b\n' "$3" >>"$room/$2"
    if said=$(python3 "$room/tests/pages.py" 2>&1) || ! grep -qF -- "$1" <<<"$said"; then
        echo "documents: FAILED: not found, or in other words than '$1': $said" >&2
        exit 1
    fi
    count=$((count + 1))
}
wrong '`sheet_runs::run`: there is no such name' docs/PROVED.md '`sheet_runs::run`'
wrong '`sheet_run::walk`: there is no such name' docs/PROVED.md '`sheet_run::walk`'
wrong '`sheet_runs`: no such word is in the code' docs/PROVED.md '`sheet_runs`'
wrong '`tests/gone.sh 5`: there is no such file' docs/TESTING.md '`tests/gone.sh 5`'
wrong '`part_window/gone`: there is no such file' docs/WRONG-ANSWERS.md '`part_window/gone`'
wrong 'the link to GONE.md# leads nowhere' docs/NAMES.md '[GONE](GONE.md)'
wrong 'the link to PROVED.md#gone leads nowhere' docs/NAMES.md '[PROVED](PROVED.md#gone)'
wrong 'README.md has no link to GONE.md' docs/GONE.md 'a page'
wrong '101 columns' docs/NAMES.md "$(printf '%0101d' 0)"
wrong 'and may have 100 and 1,000' README.md "$(printf '\\n%.0s' {1..100})"
wrong 'and 150 are wanted at most: a note' docs/CHANGES.md "## a note\n\n$(printf 'word\\n%.0s' {1..151})"

# WORDS PROGRAM FILE OLD NEW: with the new text in place of the old one in that file the program fails, in those words.
misled() {
    local said
    rm -rf "$room"/*
    tar -c --exclude='crates/*/out' crates include reference docs | tar -x -C "$room"
    mkdir "$room/tests"
    cp "tests/$2" "$room/tests"
    grep -qF -- "$4" "$room/$3"
    python3 - "$room/$3" "$4" "$5" <<'END'
import sys
path, old, new = sys.argv[1:]
text = open(path, encoding="utf-8").read()
open(path, "w", encoding="utf-8").write(text.replace(old, new, 1))
END
    if said=$(python3 "$room/tests/$2" 2>&1) || ! grep -qF -- "$1" <<<"$said"; then
        echo "documents: FAILED: $2 with '$5' in $3: $said" >&2
        exit 1
    fi
    count=$((count + 1))
}
misled 'code: 9 is PROCESS_SPENT, and None in the definitions' refusals.py crates/model/specs/Numbers.antt 'process_spent = 9' 'process_spent = 19'
misled 'code: 6 is SECOND_ONE' refusals.py crates/model/src/refusal.rt 'SecondProposal = 6' 'SecondOne = 6'
misled 'separate program: 12 is BAD_CUTS' refusals.py reference/src/refusal.rs 'BadRun = 12' 'BadCuts = 12'
misled 'header: 4 is NO_SEAT' refusals.py include/janus.h JANUS_NO_SUCH_SEAT JANUS_NO_SEAT
misled 'page: 14, NO_SUCH_ROUND, is missing' refusals.py docs/REFUSALS.md '| 14 |' '| 24 |'
misled "'return 3;' has a number and no name" refusals.py crates/session_refusal/src/lib.rt 'return Err(Refusal::Unsound);' 'return 3;'
misled 'session_refusal/src/lib.rt: first_refusal has a `requires`' contracts.py crates/session_refusal/src/lib.rt '    ensures {' '    requires { n ≡ 3 }
    ensures {'
misled 'has no `ensures`' contracts.py crates/session_refusal/src/lib.rt '    ensures {' '    hides {'
echo "documents: $count wrong pages, names and functions are found"
