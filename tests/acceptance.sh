#!/usr/bin/env bash
# Runs the acceptance test of a site against our own reader over pseudo terminals, and compares its report. Takes the path of the program.
exec timeout 200 /usr/bin/python3 -B "$(dirname "$0")/acceptance.py" "$1"
