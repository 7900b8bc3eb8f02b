#!/usr/bin/env bash
# Proves and builds the program of houses, as far as something has changed since the last time, and runs it on a house.
# The first time takes minutes; what it is at, and how long it took, is told on standard error.
#
# usage: examples/house.sh [HOUSE]      examples/two_wards.house where left out
#
# It needs the Rattle kit and python3. examples/house.py --help has the lines of a house.
set -euo pipefail
. "$(dirname "$0")/../common.sh"
helped "$@"
plays house two_wards "$@"
