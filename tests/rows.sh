#!/usr/bin/env bash
# Runs the program on each row of rows/*.txt: words and input, and the output and status that they must give. It has 448 KiB of stack, as the manual
# says that it needs. Takes the path of the program.
ulimit -s 448 || exit 1
exec python3 "$(dirname "$0")/rows.py" "$1" "$(dirname "$0")"/rows/*.txt
