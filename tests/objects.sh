#!/usr/bin/env bash
# Reads the objects of `osdp monitor --json` back, and compares them with its lines of text. Takes the path of the program.
set -u
/usr/bin/python3 -c 'import jsonschema' 2>/dev/null || { apt-get update -qq && apt-get install -qqy --no-install-recommends python3-jsonschema; } >/dev/null
exec timeout 300 /usr/bin/python3 -B "$(dirname "$0")/objects.py" "$1"
