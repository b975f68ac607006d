#!/usr/bin/env bash
# Holds the Python of the tree to one style, by flake8, and the types of the package osdp, by mypy. tests/style.cfg has their settings.
set -u
cd "$(dirname "$0")/.." || exit 1
/usr/bin/python3 -c 'import flake8, mypy' || { echo 'flake8 or mypy is missing: apt-get install python3-flake8 mypy'; exit 1; }
failed=0
# what has no ending is Python by its first line
mapfile -t named < <(grep -rlE --exclude='*.py' --exclude='*.sh' --exclude-dir=__pycache__ --exclude-dir=target -m 1 '^#!.*python' port python examples tests tools install release bench demo)
/usr/bin/python3 -m flake8 --config tests/style.cfg port python examples tests tools release bench "${named[@]}" || failed=1
/usr/bin/python3 -m mypy --config-file tests/style.cfg --cache-dir /dev/null python/osdp || failed=1
exit "$failed"
