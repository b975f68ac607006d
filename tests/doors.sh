#!/usr/bin/env bash
# What is wrong at a door, on lines of a panel and readers that aren't ours: `monitor --talk` leads to the row of docs/INSTALLING.md. Takes the path of the program.
exec timeout 200 /usr/bin/python3 -B "$(dirname "$0")/doors.py" "$1"
