#!/usr/bin/env bash
# A million packets of good lines of ten habits, for `monitor`: nobody is accused. Takes the path of the program.
set -u
program=$(cd "$(dirname "$1")" && pwd)/$(basename "$1")
cd "$(dirname "$0")/.." || exit 1
timeout 1800 python3 tests/habits.py "$program"
