#!/usr/bin/env bash
# Holds `osdp test` to planted devices: each wrong one breaks its rules and no others, and those that follow the standard in another way break none, also where
# one packet in ten is lost. Strange devices have faults that show beside the scenarios: each is found, also where 3 packets of 100 are lost, and sound ones with habits are
# accused of nothing. The report in docs/TESTING_DEVICES.md is that of its device. Our own reader is tested over pseudo terminals. Takes the path of the program.
set -u
program=$(cd "$(dirname "$1")" && pwd)/$(basename "$1")
cd "$(dirname "$0")/.." || exit 1
failed=0
timeout 600 python3 -B tests/devices_strange.py "$program" &
strange=$!
timeout 600 python3 -B tests/devices.py "$program" || failed=1
wait "$strange" || failed=1
diff <(sed -n '/^```text$/,/^```$/p' docs/TESTING_DEVICES.md | sed '1d;$d') <(python3 -B tests/devices.py --report "$program" ForgetsAtAWrongNumber) || { echo 'docs/TESTING_DEVICES.md: another report'; failed=1; }
timeout 200 /usr/bin/python3 -B tests/devices_line.py "$program" || failed=1
exit "$failed"
