#!/usr/bin/env bash
# The stores of the programs in C, Python and Rust (`store.py`): a panel is killed at some of its writes over a day, and loses power there; disks are full, read only and slow;
# devices are killed while they move; and each program reads the stores of the others. Takes the path of the program, and more words for `store.py`: `--all` tries each write.
# The archive is the one that `c.sh` has built.
set -u
program=$(cd "$(dirname "$1")" && pwd)/$(basename "$1")
cd "$(dirname "$0")/.." || exit 1
. tests/passes.bash
export OSDP_C_LIB_DIR=$PWD/crates/osdp_c/out
examples/c/build "$work" -Werror || exit 1
cargo build --quiet --offline --locked --examples --manifest-path rust/Cargo.toml --target-dir "$work/target" || exit 1
passes python3 -c "import runpy; from pathlib import Path; runpy.run_path('install')['compiled'](Path('$work'))" || exit 1
export OSDP_LIBRARY=$work/libosdp.so.0
python3 tests/stored.py 3 "$work/target/debug/examples/stored_panel" Rust &
stored=$!
python3 -B tests/store.py "$work" "$work/target/debug/examples" "$program" "${@:2}" || failed=1
wait "$stored" || failed=1
exit "$failed"
