#!/usr/bin/env bash
# Lines as services over a broker: their parts alone (`broker_parts.py`), who may what (`broker_who.py`), and a broker, two lines and their services, of which nothing stays (`broker.py`),
# also what breaks each of three rules where it is left out, which has to be found. Mosquitto and paho are installed where they aren't there. Takes the path of the program, and more words for
# `broker.py`, which is run alone then: `tests/broker.sh PROGRAM --seed 7 --orders 2000 --cards 2000 --longest 20`.
set -u
program=$(cd "$(dirname "$1")" && pwd)/$(basename "$1")
cd "$(dirname "$0")/.." || exit 1
. tests/passes.bash
{ command -v mosquitto && command -v openssl && /usr/bin/python3 -c 'import jsonschema, paho.mqtt, serial'; } >/dev/null 2>&1 \
  || { apt-get update -qq && apt-get install -qqy --no-install-recommends mosquitto openssl python3-jsonschema python3-paho-mqtt python3-serial; } >"$work/said" 2>&1 \
  || { cat "$work/said"; fail 'no mosquitto, or no paho'; }
[ $# -eq 1 ] || { /usr/bin/python3 -B tests/broker.py "$program" "${@:2}"; exit; }
/usr/bin/python3 -B tests/broker_parts.py || failed=1
running=()
runs() { timeout 400 /usr/bin/python3 -B "$@" & running+=($!); }
runs tests/broker_who.py "$program"
runs tests/broker.py "$program" --seed 1
runs tests/broker.py "$program" --seed 3 --orders 60 --cards 30 --by-expiry
runs tests/broker.py "$program" --seed 5 --orders 100 --cards 60 --by-expiry --longest 7 --kinds 'stops disk,locks disk,kills panel'
runs tests/broker.py "$program" --rules
for rule in dedupe expiry store; do runs tests/broker.py "$program" --wrong "$rule"; done
for process in "${running[@]}"; do wait "$process" || failed=1; done
exit "$failed"
