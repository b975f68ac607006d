#!/usr/bin/env bash
# The manual pages: each is formatted without a warning, and its examples print what it says. Takes the path of the program osdp.
set -u
PATH="$(cd "$(dirname "$1")" && pwd):$(cd "$(dirname "$0")/../port" && pwd):$PATH"
work=$(mktemp -d)
trap 'rm -rf "$work"' EXIT
failed=0
cd "$(dirname "$0")/../man" || exit 1
command -v man >/dev/null || { echo 'manual.sh: man is missing'; exit 1; }

for page in *.1; do
  if ! MANROFFOPT= man --warnings -E UTF-8 -l "$page" 2>"$work/warnings" >/dev/null || [ -s "$work/warnings" ]; then
    echo "$page: it is not formatted well"
    cat "$work/warnings"
    failed=1
  fi
  # an example is a line that begins with "$ " between .EX and .EE, and the lines after it are what it prints
  awk '/^\.EX/ { on = 1; next } /^\.EE/ { on = 0 } on && /^\$ / { asked = 1 } on && asked' "$page" |
    sed 's/\\e/\\/g; s/\\-/-/g' >"$work/wanted"
  [ -s "$work/wanted" ] || { echo "$page: it has no example"; failed=1; }
  while IFS= read -r line; do
    [[ $line == '$ '* ]] || continue
    printf '%s\n' "$line"
    bash -c "${line#'$ '}" 2>&1
  done <"$work/wanted" >"$work/got"
  if ! diff "$work/wanted" "$work/got"; then
    echo "$page: an example prints something else"
    failed=1
  fi
done

exit "$failed"
