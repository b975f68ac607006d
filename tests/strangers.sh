#!/usr/bin/env bash
# Lines of panels and readers that aren't ours, for `monitor`: whom it accuses, and what it tells. Takes the path of the program.
set -u
program=$(cd "$(dirname "$1")" && pwd)/$(basename "$1")
cd "$(dirname "$0")/.." || exit 1
timeout 200 python3 tests/strangers.py "$program"
