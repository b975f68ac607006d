#!/usr/bin/env bash
# Makes captures with each fault of the tables of docs/INSTALLING.md, on lines with and without losses, and goes down those tables. Takes the path of the program.
exec timeout 500 /usr/bin/python3 -B "$(dirname "$0")/installing.py" "$1"
