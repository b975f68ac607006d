#!/usr/bin/env bash
# The text that each planted edit replaces stands once in its file, and the law or test that is to refuse it is there: an edit that no
# longer applies is written anew with the code. The contract of each function in a PINNED list still gives what comes of it by equations.
exec python3 "$(dirname "$0")/../tools/planted" --texts
