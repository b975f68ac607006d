#!/usr/bin/env bash
# The two programs that a maker writes first, a panel for three doors and a reader with a keypad and a relay, in C and in Rust: how many lines they have, and what
# they do on a line (`newcomers.py`). Takes the path of the program, beside which the crates stand. The archive is the one that `c.sh` has built.
set -u
cd "$(dirname "$0")/.." || exit 1
. tests/passes.bash
export OSDP_C_LIB_DIR=$PWD/crates/osdp_c/out
examples/c/build "$work" -Werror || exit 1
cargo build --quiet --offline --locked --examples --manifest-path rust/Cargo.toml --target-dir "$work/target" || exit 1
timeout 300 python3 tests/newcomers.py "$work" "$work/target/debug/examples" || failed=1
exit "$failed"
