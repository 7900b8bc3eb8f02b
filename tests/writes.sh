#!/usr/bin/env bash
# The proved library's writer beside the separately written one on random calls: no difference may be found, each sheet that is written must
# be read as it was given, run alike and written again byte for byte, and in a run of 200,000 calls or more every refusal must be reached for
# each of its reasons, and before each one that comes later; and for every n (02, wish 8) L = W written, and L = W - 1 refused. All of it as
# the server and as the bedside cart (02, wish 9).
#
# usage: tests/writes.sh [CALLS [SEED]]      200,000 calls from seed 1 in the gate
set -euo pipefail
. "$(dirname "$0")/../common.sh"
helped "$@"
needs rt gcc rustc
cd "$root"
./build.sh reference
target/reference/writes "${1-200000}" "${2-1}" "${@:3}"
