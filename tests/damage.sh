#!/usr/bin/env bash
# Derives what the tests of damage must find, and compares it with their tables.
exec python3 "$(dirname "$0")/damage.py"
