#!/usr/bin/env bash
# Proves and builds the program of polls, as far as something has changed since the last time, and runs it on a poll.
# The first time takes minutes; what it is at, and how long it took, is told on standard error.
#
# usage: examples/poll.sh [POLL]      examples/two_answers.poll where left out
#
# It needs the Rattle kit and python3. examples/poll.py --help has the lines of a poll.
set -euo pipefail
. "$(dirname "$0")/../common.sh"
helped "$@"
plays poll two_answers "$@"
