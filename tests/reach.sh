#!/usr/bin/env bash
# One seeded session on six targets that `tools/retarget` makes, against that of 64-bit x86 (`reach.py`), each place that was changed by itself
# (`reach_places.py`), and the unit tests of the lowering. Emulators that aren't there are installed from Debian.
set -u
cd "$(dirname "$0")/.." || exit 1
missing=()
for pair in qemu-i386:qemu-user qemu-system-arm:qemu-system-arm node:nodejs; do
  command -v "${pair%%:*}" >/dev/null || missing+=("${pair##*:}")
done
[ "${#missing[@]}" -eq 0 ] || { apt-get update -qq && apt-get install -qqy --no-install-recommends "${missing[@]}"; } >/dev/null
python3 tools/retargeting/test_lowering.py && python3 tests/reach_places.py && python3 tests/reach.py
