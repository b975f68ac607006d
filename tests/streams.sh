#!/usr/bin/env bash
# Makes each read and each write of `sim` fail in turn, by a library preloaded into the program, with an error of the
# device and with an interrupted call: the program ends with status 3. After a failed read it has printed nothing; after
# a failed write, what was taken before it. Reads and writes are short, so that there are many. Takes the path of the
# program, which is linked with the C library as a shared one; needs a C compiler.
set -u
program=$1
work=$(mktemp -d)
trap 'rm -rf "$work"' EXIT
folder=$(cd "$(dirname "$0")" && pwd)
most=100

"${CC:-cc}" -O1 -shared -fPIC -o "$work/streams.so" "$folder/streams.c" || exit 1

# Tells a fault. It is kept in a file, since what runs in a shell of its own can't set a variable here.
fault() {
  echo "$1"
  : >"$work/faults"
}

# Runs `sim` on $work/in with its streams as the words say, each a name, = and a value.
sim_with() {
  rm -f "$work/mark"
  env LD_PRELOAD="$work/streams.so" FAILED_MARK="$work/mark" AT_MOST=$most "$@" "$program" sim \
    <"$work/in" >"$work/out" 2>"$work/err"
}

# $1: what is tried; $2: the status, standard error and standard output that are wanted, the last as a file's name.
wants() {
  local name=$1 got=$2 status=$3 error=$4 out=$5
  [ "$got" -eq "$status" ] || fault "$name: status $got, wanted $status"
  printf '%s' "$error" | cmp -s - "$work/err" || fault "$name: other text on standard error"
  cmp -s "$out" "$work/out" || fault "$name: other text on standard output"
}

# Each read or each write fails in turn: $1 is what is tried, $2 which of the two, $3 the error's number, $4 the status and $5 the text
# without a failure.
fail_each_call() {
  local name=$1 call=$2 with=$3 right=$4 error=$5 number got least
  # The end of the input is a read of its own.
  least=$(($(stat -c %s "$work/in") / most + 2))
  [ "$call" = read ] || least=$(($(stat -c %s "$work/right") / most + 1))
  for ((number = 1; ; number++)); do
    sim_with "FAILED_${call^^}=$number" FAILED_WITH="$with"
    got=$?
    [ -e "$work/mark" ] || break
    # What was written before the write that failed; `sim` writes once it has read all.
    : >"$work/part"
    [ "$call" = read ] || head -c $(((number - 1) * most)) "$work/right" >"$work/part"
    wants "$name: $call $number fails by $with" "$got" 3 "osdp: $call failed"$'\n' "$work/part"
  done
  wants "$name: no $call fails" "$got" "$right" "$error" "$work/right"
  [ "$number" -ge "$least" ] || fault "$name: only $((number - 1)) calls of $call failed"
  echo "$name: $((number - 1)) calls of $call failed in turn by $with"
}

# $1: what is tried; $2 and $3: the status and the text on standard error without a failure. The script is $work/in.
fail_each() {
  local name=$1 right=$2 error=$3 with call
  "$program" sim <"$work/in" >"$work/right" 2>/dev/null
  # EIO and EINTR
  for with in 5 4; do
    for call in read write; do
      fail_each_call "$name" "$call" "$with" "$right" "$error"
    done
  done
}

{
  printf '# a script whose text takes many reads\nreader 5 40\n'
  for ((i = 0; i < 12; i++)); do printf 'issue 1 OUT 0:2:0\nqueue 1 KEYPAD 0 31\n'; done
  echo 'clean 40'
} >"$work/script"

cp "$work/script" "$work/in"
fail_each 'one reader' 0 ''

# 24 orders and the 123 steps of the rounds stand before it.
{ cat "$work/script"; echo 'to-reader damage 53000700006046'; } >"$work/in"
fail_each 'a step that is refused' 2 $'osdp: step 148: damage holds a packet\n'

{ printf 'reader 5 4\nreader 6 4\nissue 1 OUT 0:2:0\nissue 2 BUZ 0 2 5 5 1\nqueue 2 KEYPAD 0 31\nwait 400\n'; } >"$work/in"
fail_each 'two readers' 0 ''

[ ! -e "$work/faults" ]
