#!/usr/bin/env bash
# Holds docs/MESSAGES.md to the crates, the header, rust/ and the tests of each message. `rt ci` runs those of Rattle, and tests/c.sh those of C and Rust.
exec python3 "$(dirname "$0")/typed.py"
