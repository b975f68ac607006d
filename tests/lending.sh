#!/usr/bin/env bash
# While an item of a framer is in use, its bytes may not change: `push` and `advance` do not compile there.
# Writes two small crates beside a copy of the repository's sources, and looks for the borrow error.
set -uo pipefail
cd "$(dirname "$0")/.." || exit 1
copy=$(mktemp -d)
trap 'rm -rf "$copy"' EXIT

mkdir -p "$copy/crates"
for crate in osdp_check osdp_frame; do
  (cd crates && tar c --exclude=out --exclude=must-fail "$crate") | (cd "$copy/crates" && tar x) || exit 1
done
git init -q "$copy"
grep -E '^osdp_(check|frame):' crates.txt > "$copy/crates.txt"
echo 'lending: osdp_frame' >> "$copy/crates.txt"

# $1: what is done while the item is in use; $2: the text that the check must say; $3: the text that it must not say before. It is waited for as long as other
# copies of the repository build the libraries below.
try() {
  mkdir -p "$copy/crates/lending/src"
  cat > "$copy/crates/lending/src/lib.rt" <<CODE
//! An item that is used after a call of the framer that lent it.
#![tactic(auto)]

use osdp_frame::Framer;

pub fn size_of_next(framer: &mut Framer) -> usize {
    match framer.next() {
        Some(item) => {
            $1
            item.size()
        }
        None => 0,
    }
}
CODE
  : >"$copy/said"
  (cd "$copy/crates/lending" && exec timeout 600 rt lib) >"$copy/said" 2>&1 &
  while kill -0 $! 2>/dev/null && ! grep -q "$2" "$copy/said"; do sleep 1; done
  kill $! 2>/dev/null
  wait $! 2>/dev/null
  if ! grep -q "$2" "$copy/said" || grep -q "$3" "$copy/said"; then
    echo "with '$1' the check says:"
    cat "$copy/said"
    exit 1
  fi
}

# The borrow check comes first and takes seconds. Where it finds nothing, a library below is built, which isn't waited for, or all is proved at once. Which
# library that is depends on what other copies on this machine have built.
try 'framer.advance();' 'borrow-e0502' 'for osdp_\(check\|frame\)'
try 'let _ = framer.push(&[0]);' 'borrow-e0502' 'for osdp_\(check\|frame\)'
try '' 'for osdp_\(check\|frame\)\|logic=proved' 'borrow-e0502'
exit 0
