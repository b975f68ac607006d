#!/usr/bin/env bash
# Pages that `osdp-report` makes of lines with known moments: their words, answer times, timelines and accusations, and what they say of the whole line (`paces.py`).
# Takes the path of the program.
set -u
/usr/bin/python3 -c 'import jsonschema' 2>/dev/null || { apt-get update -qq && apt-get install -qqy --no-install-recommends python3-jsonschema; } >/dev/null
timeout 300 /usr/bin/python3 "$(dirname "$0")/reports.py" "$1" && exec timeout 200 /usr/bin/python3 "$(dirname "$0")/paces.py" "$1"
