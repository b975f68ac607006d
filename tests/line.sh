#!/usr/bin/env bash
# Runs a panel and three readers over four pseudo terminals that a relay joins: by the examples in Python, and once
# more by those in C, over the archive that `c.sh` has built. The relay loses, damages and repeats bursts. Looks at what was ordered, taken, settled, queued
# and reported. Takes the path of the program.
set -u
program=$(cd "$(dirname "$1")" && pwd)/$(basename "$1")
cd "$(dirname "$0")/.." || exit 1
work=$(mktemp -d)
trap 'rm -rf "$work"' EXIT
failed=0
timeout 300 python3 tests/line.py "$program" || failed=1
{ examples/c/build "$work" -Werror && timeout 300 python3 tests/line.py "$program" 1 "$work"; } || failed=1
exit "$failed"
