#!/usr/bin/env bash
# Lines with a fault that the counts tell, for `monitor`: which diagnosis stands after the table. Takes the path of the program.
set -u
program=$(cd "$(dirname "$1")" && pwd)/$(basename "$1")
cd "$(dirname "$0")/.." || exit 1
timeout 200 python3 tests/diagnoses.py "$program"
