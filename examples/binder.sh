#!/usr/bin/env bash
# Proves and builds the training binder's program, as far as something has changed since the last time, and prints every legal list of
# LENGTH entries for SEATS seats, in the lines of examples/sheet.py.
# The first time takes minutes; what it is at, and how long it took, is told on standard error.
#
# usage: examples/binder.sh [SEATS LENGTH]      2 2 where left out; there are lists for 1 and 2 seats and lengths 0 to 6
#
# It needs the Rattle kit.
set -euo pipefail
. "$(dirname "$0")/../common.sh"
helped "$@"
program=use_binder
(($# == 0 || $# == 2)) || refuse "the seats and the length are both named, or neither; this was: $*"
seats=${1-2}
length=${2-2}
for number in "$seats" "$length"; do
    [[ $number =~ ^[0-9]$ ]] || refuse "'$number' is no digit"
done
needs rt

"$root/build.sh" "$program"
"$root/target/bin/$program" <<<"$seats $length"
