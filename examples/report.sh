#!/usr/bin/env bash
# Proves and builds the board report's program, as far as something has changed since the last time, and runs it on a sheet.
# The first time takes minutes; what it is at, and how long it took, is told on standard error.
#
# usage: examples/report.sh [SHEET]      examples/two_decide.sheet where left out
#
# It needs the Rattle kit.
set -euo pipefail
. "$(dirname "$0")/../common.sh"
helped "$@"
program=use_report
sheet=${1:-$root/examples/two_decide.sheet}
(($# <= 1)) || refuse "one sheet at a time; this is too much: ${*:2}"
[[ -e $sheet ]] || refuse "$sheet: there is no such file"
[[ -r $sheet && ! -d $sheet ]] || refuse "$sheet: this is no file that can be read"
[[ $sheet != *.txt ]] || refuse "$sheet is a list in words; make a sheet of it: $(dirname "$0")/sheet.py $sheet ${sheet%.txt}.sheet"
needs rt

"$root/build.sh" "$program"
"$root/target/bin/$program" <"$sheet"
