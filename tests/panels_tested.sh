#!/usr/bin/env bash
# Holds `osdp test panel` to planted panels: each wrong one breaks its rules and no others, and those that follow the standard in another way break none, also where
# one packet in ten, or three, is lost. The report in docs/TESTING_PANELS.md is that of its panel. Our own panel is tested over pseudo terminals. Takes the path of the program.
set -u
program=$(cd "$(dirname "$1")" && pwd)/$(basename "$1")
cd "$(dirname "$0")/.." || exit 1
failed=0
timeout 300 python3 -B tests/panels_tested.py "$program" || failed=1
diff <(sed -n '/^```text$/,/^```$/p' docs/TESTING_PANELS.md | sed '1d;$d') <(python3 -B tests/panels_tested.py --report "$program" GoesOnAfterARefusal) || { echo 'docs/TESTING_PANELS.md: another report'; failed=1; }
timeout 400 /usr/bin/python3 -B tests/panels_line.py "$program" || failed=1
exit "$failed"
