#!/usr/bin/env bash
# Each line of the commands that speak lines is answered, and the answer flushed, before the next line is read: a line is written alone, its answer is
# waited for, and only then comes the next line. Takes the path of the program.
set -u
osdp=$(cd "$(dirname "$1")" && pwd)/$(basename "$1")
failed=0

# $1: the command; $2: the first word of the line that ends each answer; the rest: lines, none of which ends the input.
speaks() {
  local command=$1 end=$2 line answer answered
  shift 2
  coproc live { exec "$osdp" "$command" ${words[@]+"${words[@]}"}; }
  local process=$live_PID from=${live[0]} to=${live[1]}
  for line in "$@"; do
    echo "$line" >&"$to"
    answered=0
    while read -r -t 60 answer <&"$from"; do
      [ "${answer%% *}" = "$end" ] && answered=1 && break
    done
    [ "$answered" -eq 1 ] || { echo "at_once.sh: $command: $line: no answer while the input stays open"; failed=1; break; }
  done
  eval "exec $to>&-"
  wait "$process" || { echo "at_once.sh: $command: status $?"; failed=1; }
}

words=(check sum)
speaks panel due 'add 5 0' 'begin 1' 'no call' 'at 400' tick write 'bytes 53851300004553494D010101000000010000E3' silence
words=(address 5)
speaks reader waiting 'at 10' 'bytes 530508000061003F' 'no call' 'event KEYPAD 0 31' tick silence
exit "$failed"
