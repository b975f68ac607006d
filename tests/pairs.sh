#!/usr/bin/env bash
# Each small panel of the guide with each small device (`pairs.py`), sixteen pairs. Before that, the decision of each program in C by its
# own unit test; those of the others are tested by `c.sh` and with their crates. Takes the path of the program, beside which the crates stand. The archive is the one
# that `c.sh` has built.
set -u
crates=$(cd "$(dirname "$1")/../.." && pwd) || exit 1
cd "$(dirname "$0")/.." || exit 1
work=$(mktemp -d)
trap 'rm -rf "$work"' EXIT
failed=0
for name in door_panel door_device; do
  "${CC:-cc}" -std=c11 -Wall -Wextra -Werror -pedantic -DUNIT_TEST -Iinclude -Iexamples/c -o "$work/unit" "examples/c/$name.c" && "$work/unit" ||
    { echo "pairs.sh: the decision of $name.c is another"; failed=1; }
done
for name in examples/c/door_*.c rust/examples/door_*.rs crates/osdp_example_{panel,device}/src/main.rt; do
  [ "$(wc -l <"$name")" -le 120 ] || { echo "pairs.sh: $name has more than 120 lines"; failed=1; }
done
export OSDP_C_LIB_DIR=$PWD/crates/osdp_c/out
examples/c/build "$work" -Werror || exit 1
cargo build --quiet --offline --locked --examples --manifest-path rust/Cargo.toml --target-dir "$work/target" || exit 1
for name in door_panel door_device; do
  keep='[--keep FILE [--new]]'
  said=$("$work/target/debug/examples/$name" 2>&1)
  [ $? -eq 2 ] && [ "$said" = "usage: $name $keep [--late MS] PORT RATE" ] || { echo "pairs.sh: $name in Rust says of no words: $said"; failed=1; }
done
python3 -c "import runpy; from pathlib import Path; runpy.run_path('install')['compiled'](Path('$work'))" || exit 1
export OSDP_LIBRARY=$work/libosdp.so.0
timeout 300 python3 tests/pairs.py "$work" "$work/target/debug/examples" "$crates" python/examples || failed=1
exit "$failed"
