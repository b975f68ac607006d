#!/usr/bin/env bash
# Over a pseudo terminal with slow readers: how long orders and cards wait at worst, beside what `osdp plan` says. Takes the path of the program.
set -u
program=$(cd "$(dirname "$1")" && pwd)/$(basename "$1")
cd "$(dirname "$0")/.." || exit 1
/usr/bin/python3 -c 'import serial' || { echo 'pyserial is missing: apt-get install python3-serial'; exit 1; }
timeout 200 /usr/bin/python3 -B tests/waits.py "$program"
