#!/usr/bin/env bash
# Runs each script of examples/ and compares its account, and the pictures of turns and of a restart. Runs the examples of a panel and of a
# reader in C, over the archive that `c.sh` has built, by what their users see (`examples.py`); those in Python are run by `port.sh`. Takes the path of the program.
set -uo pipefail
program=$(cd "$(dirname "$1")" && pwd)/$(basename "$1")
failed=0
cd "$(dirname "$0")/../examples" || exit 1

for script in *.script; do
  if ! "$program" sim <"$script" | diff "${script%.script}.account" -; then
    echo "$script: another account, or a status that isn't 0"
    failed=1
  fi
done

python3 ../tests/turns.py "$program" || failed=1
timeout 60 python3 ../tests/restart.py "$program" || failed=1

work=$(mktemp -d)
trap 'rm -rf "$work"' EXIT
{ c/build "$work" -Werror && timeout 900 python3 ../tests/examples.py "$program" "$work"; } || failed=1

exit "$failed"
