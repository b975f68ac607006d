# What a script needs that runs the program on words and an input: what it prints and its status must be those that are wanted. It takes `$program` and the
# folder `$work`, and sets `failed`.

# $1: what is tried; $2: the status that is wanted; $3: standard output; $4: standard error; then the words.
# Standard input is the caller's.
expect() {
  local name=$1 status=$2 out=$3 err=$4
  shift 4
  "$program" "$@" >"$work/out" 2>"$work/err"
  local got=$?
  printf '%s' "$out" >"$work/wanted_out"
  printf '%s' "$err" >"$work/wanted_err"
  if [ "$got" -ne "$status" ] || ! cmp -s "$work/out" "$work/wanted_out" || ! cmp -s "$work/err" "$work/wanted_err"; then
    echo "$name: status $got, wanted $status"
    diff "$work/wanted_out" "$work/out"
    diff "$work/wanted_err" "$work/err"
    failed=1
  fi
}
