#!/usr/bin/env bash
# Listens to live lines by `monitor`: our own panel and readers over a line with losses, noise and damage; a reader that answers a repeat anew; a damaged
# length before good packets; a table by the clock; a terminal; and what was recorded and is read late. Takes the path of the program.
set -u
program=$(cd "$(dirname "$1")" && pwd)/$(basename "$1")
cd "$(dirname "$0")/.." || exit 1
timeout 100 python3 tests/monitor.py "$program"
