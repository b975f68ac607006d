#!/usr/bin/env bash
# A program that lets go what a turn has to send isn't compiled: neither one that drops it, nor one that may leave before it is written.
# Writes a small crate beside a copy of the repository's sources, and looks for the errors.
set -uo pipefail
cd "$(dirname "$0")/.." || exit 1
copy=$(mktemp -d)
trap 'rm -rf "$copy"' EXIT

# the crates below those that the program uses, and these
crates=$(python3 - <<'PYTHON'
lines = [line.split(":") for line in open("crates.txt") if ":" in line and not line.startswith("#")]
uses = {name.split()[0]: libraries.split() for name, libraries in lines}
found, open_ones = set(), ["osdp_panel", "osdp_device"]
while open_ones:
    one = open_ones.pop()
    if one in uses and one not in found:
        found.add(one)
        open_ones += uses[one]
print(*sorted(found))
PYTHON
)
mkdir -p "$copy/crates/program/src"
for crate in $crates; do
  (cd crates && tar c --exclude=out --exclude=must-fail --exclude=planted "$crate") | (cd "$copy/crates" && tar x) || exit 1
  grep -E "^$crate:" crates.txt >> "$copy/crates.txt"
done
echo 'program: osdp_device osdp_panel' >> "$copy/crates.txt"
git init -q "$copy"

# $1: how many errors there are to be; $2: how many seconds it may take. The program stands in standard input.
try() {
  cat > "$copy/crates/program/src/lib.rt"
  said=$(cd "$copy/crates/program" && timeout "$2" rt lib 2>&1)
  count=$(grep -c 'error\[linear-value-let-go\]' <<<"$said")
  others=$(grep 'error\[' <<<"$said" | grep -vc 'linear-value-let-go')
  if [ "$count" -ne "$1" ] || [ "$others" -ne 0 ]; then
    echo "$1 errors are wanted of this program:"
    cat "$copy/crates/program/src/lib.rt"
    echo "$said"
    exit 1
  fi
}

try 4 600 <<'CODE'
//! Each function lets go what a turn has to send.
#![tactic(auto)]

use osdp_device::{Burst, Device, ProgramAnswers};
use osdp_panel::Panel;

pub fn a_panel_drops(panel: &mut Panel, now: u64) {
    let mut turn = osdp_panel::Turn::new();
    let _ = panel.tick(now, &mut turn);
}

pub fn a_panel_leaves(panel: &mut Panel, bytes: &[u8], now: u64) -> Option<u8> {
    let mut turn = osdp_panel::Turn::new();
    let unsent = panel.tick(now, &mut turn);
    bytes.first()?;
    panel.write(unsent?, now, &turn).first().copied()
}

pub fn a_device_drops(device: &mut Device<ProgramAnswers>, now: u64) {
    let mut out = Burst::new();
    let _ = device.turn(&[], now, &mut out);
}

pub fn a_device_leaves(device: &mut Device<ProgramAnswers>, bytes: &[u8], now: u64) -> Option<u8> {
    let mut out = Burst::new();
    let (_, unsent) = device.turn(bytes, now, &mut out);
    bytes.first()?;
    unsent?.bytes(&out).first().copied()
}
CODE

# where nothing is let go nothing is found: then the libraries below are built, which isn't waited for
try 0 60 <<'CODE'
//! What a turn has to send is handed on.
#![tactic(auto)]

use osdp_panel::{Panel, Turn};

pub fn a_panel_sends(panel: &mut Panel, bytes: &[u8], now: u64) -> Option<u8> {
    let mut turn = Turn::new();
    panel.hear(bytes, now);
    let unsent = panel.tick(now, &mut turn)?;
    panel.write(unsent, now, &turn).first().copied()
}
CODE
exit 0
