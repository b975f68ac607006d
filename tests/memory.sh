#!/usr/bin/env bash
# Refuses each request for memory of the program in turn, by a library preloaded into it: whichever is refused, the
# program ends with status 4, and all that it has printed is a beginning of what it prints with ample memory. Each
# is refused twice: alone, and with all that follow it. Then counts what the program holds at most on long scripts.
# Takes the path of the program, which is linked with the C library as a shared one; needs a C compiler.
set -u
program=$1
work=$(mktemp -d)
trap 'rm -rf "$work"' EXIT
folder=$(cd "$(dirname "$0")" && pwd)

refuses=$work/refuse.so
"${CC:-cc}" -O1 -shared -fPIC -o "$refuses" "$folder/refuse.c" || exit 1
"${CC:-cc}" -O1 -shared -fPIC -o "$work/held.so" "$folder/held.c" || exit 1

# Tells a fault. It is kept in a file, since a case runs in a shell of its own.
faults=$work/faults
fault() {
  echo "$1"
  : >"$faults"
}

# Runs the program with the request of number $1 refused; the words follow. Standard input is $work/in.
refused_run() {
  local number=$1
  shift
  rm -f "$work/mark"
  LD_PRELOAD="$refuses" REFUSED_REQUEST=$number REFUSED_MARK="$work/mark" \
    "$program" "$@" <"$work/in" >"$work/out" 2>"$work/err"
}

# $1: what is tried; $2: the fewest requests that the program must make, so that the library is known to count;
# the rest: the words. Standard input is the caller's. The cases run side by side, each with files of its own.
refuse_each() {
  local name=$1 fewest=$2 own
  shift 2
  own=$(mktemp -d -p "$work") && local work=$own
  cat >"$work/in"
  "$program" "$@" <"$work/in" >"$work/right_out" 2>"$work/right_err"
  local right=$? after number got
  for after in '' '+'; do
    for ((number = 1; ; number++)); do
      refused_run "$number$after" "$@"
      got=$?
      [ -e "$work/mark" ] || break
      # once bad words are told the program reads its words again, to say which one: what it has told is a beginning of what it tells
      if [ "$got" -eq 2 ] && [ "$(head -n 1 "$work/err")" = 'osdp: bad words' ] && [ ! -s "$work/out" ] &&
        head -c "$(stat -c %s "$work/err")" "$work/right_err" | cmp -s - "$work/err"; then
        continue
      fi
      if [ "$got" -ne 4 ]; then
        fault "$name: request $number$after refused: status $got, wanted 4"
      fi
      if [ "$(cat "$work/err")" != 'osdp: no memory' ]; then
        fault "$name: request $number$after refused: other text on standard error"
      fi
      if ! head -c "$(stat -c %s "$work/out")" "$work/right_out" | cmp -s - "$work/out"; then
        fault "$name: request $number$after refused: other text on standard output"
      fi
    done
    if [ "$got" -ne "$right" ] || ! cmp -s "$work/out" "$work/right_out" || ! cmp -s "$work/err" "$work/right_err"; then
      fault "$name: no request refused, and the answer is another one"
    fi
    if [ "$number" -le "$fewest" ]; then
      fault "$name: only $((number - 1)) requests were refused"
    fi
  done
  echo "$name: $((number - 1)) requests refused in turn"
}

# Lines that grow, comments, refusals of frames and of messages, and a packet of 1,440 bytes.
capture() {
  printf '# a capture\n53 00 07 00 00 60 46\n'
  printf 'FFFF53000700006046\n53000700006047\n530009000060000044\n'
  printf '5300A00500%02868d08\n' 0
  printf '53850F00015000001A000A0B0C404D\n530008000460EBAA\n'
}

# The same as bytes.
bytes() { printf "$(capture | sed 's/^#.*//; s/ //g; s/../\\x&/g' | tr -d '\n')"; }

capture | refuse_each 'show' 3 show &
capture | refuse_each 'show, joined' 3 show --join &
bytes | refuse_each 'show, raw' 3 show --raw &
capture | refuse_each 'check' 3 check &
capture | refuse_each 'check, both options' 3 check --raw --join &
{ capture; echo 5; } | refuse_each 'show, a bad line' 3 show &
objects() { capture | sed '/^#/d; s/.*/{"timeSec":"1","timeNano":"2","io":"input","data":"&"}/'; }
objects | refuse_each 'show, objects' 10 show --osdpcap &
{ objects; echo '{"data":"5"}'; } | refuse_each 'check, objects, a bad line' 10 check --osdpcap &
objects | refuse_each 'monitor, objects' 10 monitor --osdpcap &
{ printf '00000000: '; capture | sed '/^#/d' | head -n 1; } | refuse_each 'show, a dump' 5 show --xxd &
capture | sed '/^#/d; s/^/1 RX /' | refuse_each 'show, stamped' 5 show --stamped &
# A listener takes a block for each address, and lines or text that grow.
listened() { cat "$(dirname "$0")/../examples/two_readers.hex"; echo 53070700006040; }
listened | refuse_each 'monitor' 5 monitor &
listened | refuse_each 'monitor, with packets' 5 monitor --packets --hex &
timed() { listened | awk '/^#/ { next } { printf "# %d.%03d %s\n%s\n", NR / 10, NR % 10 * 100, NR % 2 ? "out" : "in", $0 }'; }
timed | refuse_each 'monitor, with moments' 10 monitor --times &
{ timed; echo 5; } | refuse_each 'monitor, with moments, a bad line' 10 monitor --times &
# A POLL that comes back, and its answer.
echoed() { printf '# 1.000 out\n53050700006041\n# 1.001 in\n53050700006041\n# 1.020 in\n538507000040E1\n'; }
echoed | refuse_each 'monitor, with an echo' 10 monitor --times &
{ timed; echoed; } | refuse_each 'monitor, as JSON with an echo' 15 monitor --times --json &
objects | refuse_each 'monitor, objects with moments' 10 monitor --osdpcap --times &
listened | refuse_each 'monitor, as JSON' 10 monitor --json --hex &
timed | refuse_each 'monitor, as JSON with moments' 15 monitor --times --json &
bytes | refuse_each 'monitor, bytes' 5 monitor --packets --raw &
{ listened; echo 5; } | refuse_each 'monitor, a bad line' 5 monitor --hex &
refuse_each 'monitor, bad words' 1 monitor --gap 0 </dev/null &
refuse_each 'make' 3 make 5 1 crc OUT 0:2:0 </dev/null &
refuse_each 'make, a long text' 3 make 5 1 sum MFG 53494D "$(printf '%02858d' 0)" </dev/null &
refuse_each 'make, bad words' 3 make 5 4 sum POLL </dev/null &
script() {
  printf '# a script\nreader 5 4\nissue 1 OUT 0:2:0\nissue 1 BUZ 0 2 5 5 1\nqueue 1 KEYPAD 0 31\n'
  printf 'clean 3\nwait 50\nto-reader damage 53\n'
}

script | refuse_each 'sim' 20 sim &
{ script; echo 'reopen 1'; } | refuse_each 'sim, a line that isn'"'"'t quiet' 20 sim &
{ script; echo 'reader 6 4'; } | refuse_each 'sim, a bad line' 10 sim &

# Two readers, whose sessions open, and a command to each.
two_readers() {
  printf 'reader 5 4\nreader 6 4\nissue 1 OUT 0:2:0\nissue 2 BUZ 0 2 5 5 1\nqueue 2 KEYPAD 0 31\n'
  printf 'wait 400\nto-reader deliver\nto-controller deliver\nwait 0\nto-reader deliver\nto-controller deliver\n'
  printf 'wait 0\nto-reader repeat\nto-controller drop\nwait 200\nto-reader deliver\nto-controller deliver\n'
}

two_readers | refuse_each 'sim, two readers' 30 sim &
{ two_readers; echo 'to-controller damage 53000700006046'; } | refuse_each 'sim, two readers, damage' 30 sim &
refuse_each 'bad words' 1 show --all </dev/null &

for case in $(jobs -p); do
  wait "$case" || fault 'a case has not come to its end'
done

# $1: how many lines; $2: what they say. Tells how many bytes the program holds at most on a script of a reader and these lines.
held() {
  { echo 'reader 5 4'; yes "$2" | head -n "$1"; } >"$work/in"
  rm -f "$work/held"
  LD_PRELOAD="$work/held.so" HELD_MARK="$work/held" "$program" sim <"$work/in" >"$work/out" || fault "sim: a script of lines '$2' fails"
  cat "$work/held"
}

# $1: what the lines of a script say. Each takes 100 bytes at most beside twice its own length, since the text of the script grows by doubling.
hold_few() {
  local lines=20000 short long most
  short=$(held 1 "$1")
  long=$(held "$lines" "$1")
  most=$((short + lines * (100 + 2 * ${#1})))
  if [ "$long" -gt "$most" ]; then
    fault "sim: $lines lines '$1' take $long bytes, and at most $most are wanted"
  fi
  echo "sim: a line '$1' takes $(((long - short) / lines)) bytes"
}

hold_few 'wait 0'
hold_few 'issue 1 ID 0'
hold_few 'issue 1 TEXT 0 1 0 1 1 48454C4C4F'
hold_few 'queue 1 KEYPAD 0 31'
hold_few 'to-reader damage 0001020304050607'

# $1: how many POLLs, each of which comes back and is answered, and each tenth late. With moments the program holds the text, which grows by doubling, and what it
# prints twice: a line of it for each late answer, and the stamp and the times in it. Nothing else grows: no list has an entry for each line.
hold_text() {
  local size most held
  awk -v polls="$1" 'BEGIN {
    for (n = 0; n < polls; n++) {
      at = 1000 + 100 * n
      printf "# %d.%03d out\n53050700016040\n# %d.%03d in\n53050700016040\n", at / 1000, at % 1000, (at + 1) / 1000, (at + 1) % 1000
      printf "# %d.%03d in\n538507000140E0\n", (at + 20) / 1000, (at + 20) % 1000
    }
  }' >"$work/in"
  size=$(stat -c %s "$work/in")
  rm -f "$work/held"
  LD_PRELOAD="$work/held.so" HELD_MARK="$work/held" "$program" monitor --times <"$work/in" >"$work/out" || fault "monitor, with moments: $1 POLLs fail"
  held=$(cat "$work/held")
  most=$((2 * size + 200000))
  if [ "$held" -gt "$most" ]; then
    fault "monitor, with moments: $size bytes take $held, and at most $most are wanted"
  fi
  echo "monitor, with moments: $size bytes of a capture take $held"
}

hold_text 2000
hold_text 20000

# $1: what becomes of packets. Tells how many bytes the program holds at most where an OUT, and a round, come 5,000 times.
held_by_account() {
  held 20000 "$(printf 'issue 1 OUT 0:2:0\nwait 50\nto-reader %s\nto-controller %s' "$1" "$1")"
}

# A command is issued, taken and settled: it stands in three lists. What it takes there is what a script takes more than one in which all is lost, so that
# no session opens. Wanted are at most 40 bytes for each of the three beside the 16 bytes of the messages, and the text that is printed of them, which
# grows by doubling.
hold_small_entries() {
  local entries most=$((3 * 40 + 16 + 2 * 40))
  entries=$((($(held_by_account deliver) - $(held_by_account drop)) / 5000))
  if [ "$entries" -le 0 ] || [ "$entries" -gt "$most" ]; then
    fault "sim: the entries of a command take $entries bytes, and at most $most are wanted"
  fi
  echo "sim: the entries of a command take $entries bytes"
}

hold_small_entries

[ ! -e "$work/faults" ]
