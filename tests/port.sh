#!/usr/bin/env bash
# Runs `osdp-port`, over pyserial of the system's Python: the walk of an installer over pseudo terminals; a line that loses, damages and repeats bursts; and a
# simulated line, where devices are found after a COMSET whose answers were lost; ports and files that fail; what its parts answer; and programs that ask, which are stopped while an answer comes. Runs the short examples in Python. Stops both for a while. Takes the path of the program.
set -u
program=$(cd "$(dirname "$1")" && pwd)/$(basename "$1")
cd "$(dirname "$0")/.." || exit 1
/usr/bin/python3 -c 'import serial' || { echo 'pyserial is missing: apt-get install python3-serial'; exit 1; }
failed=0

# $1: after so many seconds it has failed; the rest: a script of tests/ and its words
tries() {
  timeout "$1" /usr/bin/python3 -B "tests/$2" "${@:3}" || failed=1
}

# they wait for most of the time, so two run side by side
(
  tries 60 port_parts.py
  tries 60 port_pieces.py
  tries 60 port_machines.py
  tries 400 port_places.py "$program"
  tries 300 port_faults.py "$program"
  tries 300 port_files.py "$program"
  exit "$failed"
) &
beside=$!
tries 500 port_walk.py "$program"
tries 200 port_noise.py "$program"
tries 200 short_examples.py "$program"
tries 200 stood_still.py "$program"
wait "$beside" || failed=1
tries 100 port_stopped.py "$program"
exit "$failed"
