#!/usr/bin/env bash
# Holds what the programs of a panel and two devices see on random lines against the ledger of one entry (`ledger.py`). Takes the path of the program.
exec python3 "$(dirname "$0")/ledger.py" "$1"
