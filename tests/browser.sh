#!/usr/bin/env bash
# Opens a page of `osdp-report` in Chromium without a window and without a network, and asks what a person sees there (`browser.py`). Chromium is installed where
# it isn't there. Takes the path of the program.
set -u
program=$(cd "$(dirname "$1")" && pwd)/$(basename "$1")
cd "$(dirname "$0")/.." || exit 1
. tests/passes.bash
command -v chromium >/dev/null || { apt-get update -qq && apt-get install -qqy --no-install-recommends chromium; } >"$work/said" 2>&1 || { cat "$work/said"; fail 'no chromium'; }
timeout 300 python3 -B tests/browser.py "$program" || failed=1
exit "$failed"
