#!/usr/bin/env bash
# A maker's panel over a line that loses, damages and repeats 5% of all bursts makes one order for each card that isn't marked, and none for one that is, and no card
# is missing: the small panel in C, with the sanitizers, on a port in simulated time (`tests/c/repeated.c`), which judges each mark, and that in Rattle
# (`repeated.py`). The panel in C without its test for cards that may have been told before makes second orders there, and with the test turned makes none where
# it should, so the run can fail. The small device in C, and the reader with keys, let a card go that nobody has asked for in time. Takes the path of the program, beside which the crates stand. The archive is that which `c.sh` has built.
set -u
crates=$(cd "$(dirname "$1")/../.." && pwd) || exit 1
cd "$(dirname "$0")/.." || exit 1
. tests/passes.bash

# $1: the name of what is built; the rest: what it is made of
build() {
  "$CC" -std=c11 -Wall -Wextra -Werror -pedantic -O2 -g -Iinclude -Iexamples/c -o "$work/$1" "${@:2}" examples/c/{settings,store,words}.c \
    c/{heap_malloc,osdp_site,osdp_texts}.c crates/osdp_c/out/libosdp_c.a -lsqlite3 -fsanitize=address,undefined -fno-sanitize-recover=all >"$work/said" 2>&1 || { cat "$work/said"; fail "$1 was not built"; return 1; }
}

panel=(examples/c/{door,kept}.c tests/c/repeated.c -Wl,--wrap=tell_report)
build panel examples/c/door_panel.c "${panel[@]}" && passes "$work/panel" 20000 9600 && grep '^repeated:' "$work/said"

# $1: the name of a panel that is broken; $2: how the test for cards that may have been told before becomes another; $3: what the run tells of it
broken() {
  sed "s/ && report.detail != OSDP_EVENT_MAYBE_AGAIN/$2/" examples/c/door_panel.c >"$work/$1.c"
  cmp -s examples/c/door_panel.c "$work/$1.c" && fail 'door_panel.c has no test for cards that may have been told before'
  build "$1" "$work/$1.c" "${panel[@]}" || return
  "$work/$1" 20000 9600 >"$work/said" 2>&1 && fail "a panel $1 the test makes the same orders, so nothing was tried"
  grep -q "^repeated: 20000 cards told of 20000, .* $3, 0 wrong marks" "$work/said" || { cat "$work/said"; fail "a panel $1 the test fails otherwise"; }
  sed -n "s/^repeated:/$1 the test:/p" "$work/said"
}
broken without '' '[1-9][0-9]* second orders, 0 missing orders'
broken turning ' \&\& report.detail == OSDP_EVENT_MAYBE_AGAIN' '[1-9][0-9]* second orders, [1-9][0-9]* missing orders'

# the card that no panel asks for leaves in time, and isn't told later; the one that was told leaves as in doubt
wanted='29950 withdrawn RAW 0 0 26 12345640 30050 sent 45 sent 40 sent 50 61150 in doubt RAW 0 0 26 65432180 61250 sent 45 sent 40'
build device examples/c/{devices,door_device,kept}.c tests/c/stale.c && passes "$work/device" PORT 9600 &&
  { [ "$(tr '\n' ' ' <"$work/said")" = "$wanted " ] || { cat "$work/said"; fail 'the device lets cards go otherwise'; }; }
build keypad examples/c/{devices,keypad_reader,kept}.c tests/c/stale.c '-DCARD="RAW 0 0 26 "' && passes "$work/keypad" PORT 9600 5 &&
  { [ "$(tr '\n' ' ' <"$work/said")" = "relay off $wanted relay off " ] || { cat "$work/said"; fail 'the reader with keys lets cards go otherwise'; }; }

timeout 100 python3 -B tests/repeated.py "$crates"/osdp_example_panel/out/osdp_example_panel "$crates"/osdp_example_device/out/osdp_example_device 400 1 || failed=1
exit "$failed"
