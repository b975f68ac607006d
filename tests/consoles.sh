#!/usr/bin/env bash
# Runs the commands that README, the pages beside the code and those of docs/ show, and compares what they print. Takes the path of the program.
exec python3 "$(dirname "$0")/consoles.py" "$1"
