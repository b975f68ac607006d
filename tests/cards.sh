#!/usr/bin/env bash
# Orders as fast as they go keep no card waiting, over a clock of the test's own. Takes the path of the program.
set -u
program=$(cd "$(dirname "$1")" && pwd)/$(basename "$1")
cd "$(dirname "$0")/.." || exit 1
timeout 300 python3 -B tests/cards.py "$program"
