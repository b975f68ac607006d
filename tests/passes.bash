# What a script that looks at something built needs, read at the top of the repository: a compiler, a folder for its work, a fault that is told under the
# script's name and remembered, and a command that must end well.
CC=${CC:-cc}
work=$(mktemp -d)
trap 'rm -rf "$work"' EXIT
failed=0

fail() {
  echo "$(basename "$0"): $1"
  failed=1
}

# The rest: a program with its words, which must end well. The status tells whether it did, since in a subshell `fail` sets nothing out here.
passes() {
  "$@" >"$work/said" 2>&1 && return
  cat "$work/said"
  fail "${*//$work\//} has failed"
  return 1
}
