#!/usr/bin/env bash
# Lines whose readers take so long, with moments: which answers `monitor --times` tells as late. Takes the path of the program.
set -u
program=$(cd "$(dirname "$1")" && pwd)/$(basename "$1")
cd "$(dirname "$0")/.." || exit 1
timeout 100 python3 tests/late.py "$program"
