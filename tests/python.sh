#!/usr/bin/env bash
# The package for Python, over the shared library that `install` makes of the archive: `python.py`, and `stored.py`, which ends a panel at random moments, in
# Python and in C; `stood_still.py`, which stops the examples for a while. The archive is the one that `c.sh` has built.
set -u
cd "$(dirname "$0")/.." || exit 1
. tests/passes.bash
passes python3 -c "import runpy; from pathlib import Path; runpy.run_path('install')['compiled'](Path('$work'))" || exit 1
export OSDP_LIBRARY=$work/libosdp.so.0
# they wait for most of the time, so two run side by side
{ examples/c/build "$work" -Werror && python3 tests/stored.py 2 "$work/stored_panel" C; } &
stored=$!
python3 tests/python.py || failed=1
python3 tests/stored.py || failed=1
timeout 200 python3 -B tests/stood_still.py python || failed=1
wait "$stored" || failed=1
exit "$failed"
