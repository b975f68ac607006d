#!/usr/bin/env bash
# The bounds of the laws in time and of `osdp plan`, on random runs of a model of its own (`times.py`). The seed and how many runs there are stand here, so the
# runs are the same each time. Takes the path of the program, which it doesn't need.
set -u
cd "$(dirname "$0")/.." || exit 1
timeout 300 python3 -B tests/times.py 67 2000
