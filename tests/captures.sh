#!/usr/bin/env bash
# Reads captures of other tools, which a script writes, and compares them with lines of digits of the same bytes. Takes the path of the program.
set -u
exec timeout 300 /usr/bin/python3 "$(dirname "$0")/captures.py" "$1"
