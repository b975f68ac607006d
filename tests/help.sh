#!/usr/bin/env bash
# Holds the helps to the manual pages, and runs their examples and recipes. Takes the path of the program.
exec python3 "$(dirname "$0")/help.py" "$1"
