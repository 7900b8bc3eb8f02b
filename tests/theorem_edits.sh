#!/usr/bin/env bash
# The theorem's proof refuses wrong machines.
set -euo pipefail
. "$(dirname "$0")/../common.sh"
takes_nothing "$@"
needs rt python3
python3 "$root/tests/theorem_edits.py"
