#!/usr/bin/env bash
# Stops panels at random moments, and asks their devices whether an order was acted on after its last moment, or a card of long ago opened a door (`stopped_panels.py`): `osdp-port panel`,
# and the examples in C, Python and Rust. Takes the path of the program, and more words for that script: `--orders 2000 --seed 7` is a long run. The archive is the one that `c.sh` has built.
set -u
program=$(cd "$(dirname "$1")" && pwd)/$(basename "$1")
cd "$(dirname "$0")/.." || exit 1
. tests/passes.bash
export OSDP_C_LIB_DIR=$PWD/crates/osdp_c/out
"$CC" -O1 -Wall -Wextra -Werror -shared -fPIC -o "$work/stops.so" tests/stops.c || exit 1
examples/c/build "$work" -Werror || exit 1
cargo build --quiet --offline --locked --examples --manifest-path rust/Cargo.toml --target-dir "$work/target" || exit 1
passes python3 -c "import runpy; from pathlib import Path; runpy.run_path('install')['compiled'](Path('$work'))" || exit 1
/usr/bin/python3 -B tests/stopped_panels.py "$program" "$work/stops.so" --c "$work" --rust "$work/target/debug/examples" --python "$work/libosdp.so.0" "${@:2}" || failed=1
exit "$failed"
