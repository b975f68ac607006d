#!/usr/bin/env bash
# Runs the firmware of `examples/firmware/` under emulation against `osdp panel` (`firmware.py`), over the module that `c.sh` has kept. Takes the path of the
# program. An emulator that isn't there is installed from Debian.
set -u
program=$(cd "$(dirname "$1")" && pwd)/$(basename "$1")
cd "$(dirname "$0")/.." || exit 1
command -v qemu-system-arm >/dev/null || { apt-get update -qq && apt-get install -qqy --no-install-recommends qemu-system-arm; } >/dev/null
exec timeout 300 python3 -B tests/firmware.py "$program"
