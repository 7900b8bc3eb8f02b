#!/usr/bin/env bash
# The program test_run beside the separately written one, line by line and as either caller of 02, wish 9 (tests/run.py).
set -euo pipefail
. "$(dirname "$0")/../common.sh"
takes_nothing "$@"
needs rt gcc rustc python3
cd "$root"
./build.sh test_run reference
python3 tests/run.py target/bin/test_run target/reference/reference
