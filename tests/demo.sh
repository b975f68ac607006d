#!/usr/bin/env bash
# Makes the page of demo/, and clicks on it in Chromium without a window (`demo.py`), which is installed where it isn't there. Takes the path of the program; the
# module of the machines is that which `c.sh` has built.
set -u
cd "$(dirname "$0")/.." || exit 1
. tests/passes.bash
command -v chromium >/dev/null || { apt-get update -qq && apt-get install -qqy --no-install-recommends chromium; } >"$work/said" 2>&1 || { cat "$work/said"; fail 'no chromium'; }
passes tools/demo "$work/index.html" || exit 1
python3 tests/demo.py "$1" "$work/index.html" || failed=1
exit "$failed"
