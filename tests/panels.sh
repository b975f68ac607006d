#!/usr/bin/env bash
# Runs panels and readers in C and in Rust where something goes wrong (`panels.py`), over the archive that `c.sh` has built. Before that, a small panel whose
# heap has no room for its door says so. Takes the path of the program, beside which the crates stand.
set -u
crates=$(cd "$(dirname "$1")/../.." && pwd) || exit 1
cd "$(dirname "$0")/.." || exit 1
. tests/passes.bash
archive=$PWD/crates/osdp_c/out/libosdp_c.a
export OSDP_C_LIB_DIR=$PWD/crates/osdp_c/out
examples/c/build "$work" -Werror || exit 1
cargo build --quiet --offline --locked --examples --manifest-path rust/Cargo.toml --target-dir "$work/target" || exit 1

# a heap with room for the panel, and not for its door
"$CC" -std=c11 -O2 -Iinclude -DOSDP_POOL=8200 -o "$work/little" examples/c/{door_panel,door,kept,owner,port,settings,store,trace,words}.c c/{heap_pool,osdp_site,osdp_texts}.c "$archive" -lsqlite3 ||
  fail "door_panel was not built over a pool"
"$work/little" /dev/null 9600 >"$work/said" 2>&1
[ $? -eq 4 ] && [ "$(cat "$work/said")" = "out of memory" ] || fail "door_panel without memory for its door says: $(cat "$work/said")"

# a panel whose library refuses the address at which a device is to be tried
examples/c/build "$work/refused" "$PWD/tests/c/refuses.c" -Wl,--wrap=osdp_panel_retarget -Werror && passes python3 -B tests/c_refuses.py "$work/refused/panel" || failed=1

timeout 900 python3 tests/panels.py "$work" "$work/target/debug/examples" "$crates" || failed=1
exit "$failed"
