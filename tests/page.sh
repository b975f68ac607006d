#!/usr/bin/env bash
# Drives the page of `osdp-port .. page` in Chromium without a window: its parts alone, the demo and a line of pseudo terminals, hostile pages, and what it uses (`page.py`).
# Chromium and aiohttp are installed where they aren't there. Takes the path of the program.
set -u
program=$(cd "$(dirname "$1")" && pwd)/$(basename "$1")
cd "$(dirname "$0")/.." || exit 1
. tests/passes.bash
command -v chromium >/dev/null && /usr/bin/python3 -c 'import aiohttp, serial' 2>/dev/null \
  || { apt-get update -qq && apt-get install -qqy --no-install-recommends chromium python3-aiohttp python3-serial; } >"$work/said" 2>&1 || { cat "$work/said"; fail 'no chromium, or no aiohttp'; }
timeout 60 /usr/bin/python3 -B tests/page_parts.py || failed=1
timeout 900 /usr/bin/python3 -B tests/page.py "$program" || failed=1
exit "$failed"
