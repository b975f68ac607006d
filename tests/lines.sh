#!/usr/bin/env bash
# The commands that speak lines: their statuses and standard error, and each request for memory, each read and each write refused in
# turn, by libraries preloaded into the program. Whichever is refused, it ends with its status, 4 or 3, and all that it has printed is a
# beginning of what it prints else. Takes the path of the program, which is linked with the C library as a shared one; needs a C compiler.
set -u
program=$(cd "$(dirname "$1")" && pwd)/$(basename "$1")
work=$(mktemp -d)
trap 'rm -rf "$work"' EXIT
folder=$(cd "$(dirname "$0")" && pwd)
most=40
failed=0

"${CC:-cc}" -O1 -shared -fPIC -o "$work/refuse.so" "$folder/refuse.c" || exit 1
"${CC:-cc}" -O1 -shared -fPIC -o "$work/streams.so" "$folder/streams.c" || exit 1

fault() {
  echo "$1"
  failed=1
}

. "$folder/expect.bash"

# $1: what is tried; then the words of the program. Standard input is a table: a row is a line of its input, ` > `, and its answer,
# whose lines are parted by `;`.
answers() {
  local name=$1
  shift
  cat >"$work/table"
  expect "$name" 0 "$(sed 's/.* > //' "$work/table" | tr ';' '\n')"$'\n' '' "$@" < <(sed 's/ > .*//' "$work/table")
}

expect 'a panel that is told nothing' 0 '' '' panel </dev/null
expect 'a name without a value' 2 '' $'osdp: bad words\nosdp: no value after check\n' panel check </dev/null
expect 'a check that is none' 2 '' $'osdp: bad words\nosdp: no setting: check md5\n' panel check md5 </dev/null
expect 'a time of none' 2 '' $'osdp: bad words\nosdp: no setting: reply-wait 0\n' panel reply-wait 0 </dev/null
expect 'the second of two' 2 '' $'osdp: bad words\nosdp: no setting: gap x\n' panel check sum gap x sends 0 </dev/null
expect 'a last name' 2 '' $'osdp: bad words\nosdp: no value after sends\n' panel gap 20 sends </dev/null
expect 'a name that is none, alone' 2 '' $'osdp: bad words\nosdp: no value after adress\n' reader adress </dev/null
expect 'an hour' 0 '' '' panel reply-wait 3600000 poll-interval 3600000 busy-wait 3600000 quiet-wait 3600000 gap 3600000 </dev/null
expect 'more than an hour' 2 '' $'osdp: bad words\nosdp: no setting: gap 3600001\n' panel gap 3600001 </dev/null
expect 'no sends' 2 '' $'osdp: bad words\nosdp: no setting: sends 0\n' panel sends 0 </dev/null
expect 'many sends' 0 '' '' panel sends 255 busy-limit 255 capacity 1024 </dev/null
expect 'too many sends' 2 '' $'osdp: bad words\nosdp: no setting: sends 256\n' panel sends 256 </dev/null
expect 'too many may wait' 2 '' $'osdp: bad words\nosdp: no setting: capacity 1025\n' panel capacity 1025 </dev/null
expect 'a setting of the other program' 2 '' $'osdp: bad words\nosdp: no setting: address 5\n' panel address 5 </dev/null
expect 'a word that is no text' 2 '' $'osdp: bad words\n' panel check $'\xff' </dev/null
expect 'the later of two' 0 $'due none\norder 0 waits 1\ndue none\nrefused C3\ndue none\n' '' panel capacity 2 capacity 1 \
  < <(printf 'add 5 0\nsubmit 1 never ID 0\nsubmit 1 never ID 0\n')
expect 'the last address' 0 '' '' reader address 126 </dev/null
expect 'the configuration address' 2 '' $'osdp: bad words\nosdp: no setting: address 127\n' reader address 127 </dev/null
expect 'an age above an hour' 2 '' $'osdp: bad words\nosdp: no setting: expire 3600001\n' reader expire 3600001 </dev/null
expect 'no age' 2 '' $'osdp: bad words\nosdp: no setting: expire off\n' reader expire off </dev/null
expect 'neither on nor off' 2 '' $'osdp: bad words\nosdp: no setting: presence yes\n' reader expire 0 presence yes </dev/null
expect 'a vendor of two bytes' 2 '' $'osdp: bad words\nosdp: no setting: vendor 5349\n' reader vendor 5349 </dev/null
expect 'firmware of two numbers' 2 '' $'osdp: bad words\nosdp: no setting: firmware 1:2\n' reader firmware 1:2 </dev/null
expect 'a capability too great' 2 '' $'osdp: bad words\nosdp: no setting: cap 1:1:256\n' reader cap 1:1:256 </dev/null
expect 'no room' 2 '' $'osdp: bad words\nosdp: no setting: room 0\n' reader room 0 </dev/null
caps() { for ((i = 0; i < $1; i++)); do printf 'cap 1:1:8 '; done; }
expect 'as many capabilities as there may be' 0 '' '' reader $(caps 477) </dev/null
expect 'one capability more' 2 '' $'osdp: bad words\nosdp: one too many: cap 1:1:8\n' reader $(caps 478) </dev/null

long=$(printf 'tick%08188d' 0 | tr 0 ' ')
expect 'a line of 8,192 characters' 0 $'waiting 0\n' '' reader <<<"$long"
expect 'a line above that' 0 $'refused line\nwaiting 0\nwaiting 0\n' '' reader < <(printf '%s \ntick\n' "$long")
expect 'a line of a megabyte' 0 $'refused line\ndue none\ndue none\n' '' panel < <(head -c 1000000 /dev/zero | tr '\0' 'a'; printf '\ntick\n')
expect 'a line that is no text' 0 $'refused line\ndue none\n' '' panel < <(printf 'tick\xff\n')
expect 'a last line without a line feed' 0 $'due none\n' '' panel < <(printf 'tick')

for which in panel reader; do
  expect 'a directory as input' 3 '' "osdp: read failed"$'\n' "$which" </
  expect 'a closed input' 3 '' "osdp: read failed"$'\n' "$which" <&-
  "$program" "$which" <<<tick >/dev/full 2>"$work/err"
  [ $? -eq 3 ] || fault "$which: a full device ends it with another status"
  echo 'osdp: write failed' | cmp -s - "$work/err" || fault "$which: a full device: other text on standard error"
done

answers 'a session opens, a command is settled, an event is told, and it is lost with a command' panel check sum capacity 1 <<'TABLE'
add 5 0 > due none
begin 1 > due 400
submit 1 never OUT 0:2:0 > order 0 waits 1;due 400
at 400 > due 400
tick > burst;due 600
write > send 530508000061003F;due 600
at 410 > due 600
bytes 53851300004553494D010101000000010000E3 > opened 1 PDID 53494D 1 1 1 1 0 0;due 410
tick > due 410
tick > burst;due 610
write > send 53050B0001680002000032;due 610
at 420 > due 610
bytes 538507000140E0 > order 0 settled 1 OUT 0:2:0 = ACK;due 420
tick > due 470
at 470 > due 470
tick > burst;due 670
write > send 5305070002603F;due 670
at 480 > due 670
bytes 53850B0002530002313263 > event 1 since 470 KEYPAD 0 3132;due 480
tick > due 530
submit 1 never ID 0 > order 1 waits 1;due 480
tick > burst;due 680
write > send 530508000361003C;due 680
bytes 53850800034104D8 > order 1 lost 1 number-refused ID 0;due 480
tick > due none
TABLE
answers 'what a device that demands Secure Channel answers is told, until its session opens' panel check sum <<'TABLE'
add 5 0 > due none
add 6 0 > due none
bytes 53850800004106D9 > passed over 1 NAK 6;due none
begin 1 > due 400
at 400 > due 400
tick > burst;due 600
write > send 530508000061003F;due 600
at 410 > due 600
bytes 5385080000 > due 430
bytes 4106D9 > passed over 1 NAK 6;due 600
bytes 5386090000410600D7 > passed over 2 NAK 6 00;due 600
bytes 538507000342DC > passed over 1 seq 3 code 42;due 600
bytes 530507000000A1 > due 600
bytes 5387090000410600D6 > due 600
bytes 53850800004104DB > lost 1 number-refused;due 410
tick > due none
begin 1 > due 810
TABLE
answers 'an opening has number 0, and passes over what comes with another; a moment that goes back is the greatest seen' panel check sum gap 20 <<'TABLE'
add 5 0 > due none
begin 1 > due 400
at 400 > due 400
tick > burst;due 600
write > send 530508000061003F;due 600
at 410 > due 600
bytes 53851300024553494D010101000000010000E1 > passed over 1 seq 2 PDID 53494D 1 1 1 1 0 0;due 600
bytes 538507000179A7 > passed over 1 seq 1 BUSY;due 600
bytes 53850800034104D8 > passed over 1 seq 3 NAK 4;due 600
bytes 53850800014101DD > passed over 1 seq 1 NAK 1;due 600
bytes 538507000142DE > passed over 1 seq 1 code 42;due 600
bytes 53850A000A02154106B6 > passed over 1 seq 2 block 02154106;due 600
at 500 > due 600
bytes 5385080000 > due 520
at 410 > due 520
bytes 41 > due 520
at 515 > due 520
bytes 06D9 > passed over 1 NAK 6;due 600
TABLE
answers 'an open session tells nothing of it, a lost one does again, and a run that is over is read to its end' panel check sum <<'TABLE'
add 5 0 > due none
begin 1 > due 400
at 400 > due 400
tick > burst;due 600
write > send 530508000061003F;due 600
bytes 538507000079A8 > due 450
at 450 > due 450
tick > burst;due 650
write > send 530508000061003F;due 650
bytes 53851300004553494D010101000000010000E3 > opened 1 PDID 53494D 1 1 1 1 0 0;due 450
tick > due 500
bytes 53850800004106D9 > due 500
at 500 > due 500
tick > burst;due 700
write > send 53050700016040;due 700
bytes 53850800014104DA > lost 1 number-refused;due 500
tick > due none
bytes 53850800004106D9 > passed over 1 NAK 6;due none
bytes 53850A000802154106B8 > passed over 1 block 02154106;due none
bytes 5385FF0053850800004106D9 > due 500
silence > passed over 1 NAK 6;due none
bytes 5385FF0053850800004106D9 > due 500
at 519 > due 500
tick > due none
at 520 > due none
tick > passed over 1 NAK 6;due none
bytes 5385FF0053850800004106D9 > due 520
at 540 > due 520
bytes none > due 540
bytes 00 > passed over 1 NAK 6;due none
TABLE
answers 'an event that may have been told before' panel check sum <<'TABLE'
add 5 0 > due none
begin 1 > due 400
at 400 > due 400
tick > burst;due 600
write > send 530508000061003F;due 600
bytes 53851300004553494D010101000000010000E3 > opened 1 PDID 53494D 1 1 1 1 0 0;due 400
tick > due 450
at 450 > due 450
tick > burst;due 650
write > send 53050700016040;due 650
bytes 53850A00015300013198 > event 1 since 450 KEYPAD 0 31;due 450
tick > due 500
at 500 > due 500
tick > burst;due 700
write > send 5305070002603F;due 700
bytes 53850A00025300013197 > event 1 since 500 KEYPAD 0 31;due 500
tick > due 550
at 550 > due 550
tick > burst;due 750
write > send 5305070003603E;due 750
bytes 53850800034104D8 > lost 1 number-refused;due 550
tick > due none
begin 1 > due 950
at 950 > due 950
tick > burst;due 1150
write > send 530508000061003F;due 1150
bytes 53851300004553494D010101000000010000E3 > opened 1 PDID 53494D 1 1 1 1 0 0;due 950
tick > due 1000
at 1000 > due 1000
tick > burst;due 1200
write > send 53050700016040;due 1200
bytes 53850A00015300013198 > maybe-again 1 since 1000 KEYPAD 0 31;due 1000
tick > due 1050
at 1050 > due 1050
tick > burst;due 1250
write > send 5305070002603F;due 1250
bytes 53850A00025300013197 > event 1 since 1050 KEYPAD 0 31;due 1050
tick > due 1100
TABLE
answers 'a command that waits is taken back, and a device goes to another address' panel check sum capacity 1 <<'TABLE'
add 5 0 > due none
submit 1 never COMSET 7 9600 > order 0 waits 1;due none
retarget 1 6 > refused B3;due none
withdraw 1 > order 0 withdrawn 1 COMSET 7 9600;due none
withdraw 1 > due none
retarget 1 6 > due none
add 6 0 > refused B3;due none
TABLE
answers 'each refusal, and lines that are none' panel check sum capacity 1 <<'TABLE'
add 127 0 > refused B5;due none
add 5 0 > due none
add 5 0 > refused B3;due none
begin 2 > refused B4;due none
withdraw 2 > refused B4;due none
retarget 2 5 > refused B4;due none
submit 2 never ID 0 > refused B4;due none
submit 1 never POLL > refused C4;due none
submit 1 never COMSET 127 9600 > refused B6;due none
submit 2 never COMSET 255 9600 > refused B4;due none
submit 1 never ID 0 > order 0 waits 1;due none
submit 1 never ID 0 > refused C3;due none
begin 1 > due 400
begin 1 > refused C5;due 400
begin 0 > refused line;due 400
add 128 0 > refused line;due 400
tick 1 > refused line;due 400
submit 1 never NOTHING > refused line;due 400
at 007 > refused line;due 400
silence > due 400
TABLE
answers 'an ID with number 0 is answered, and told as acted on' reader address 5 vendor 53494D model 1 version 1 serial 1 firmware 1:0:0 <<'TABLE'
bytes 530508000061003F > send 53851300004553494D010101000000010000E3;again ID 0;waiting 0
TABLE

# ---- what fails in turn

# Runs the program with its streams, or its memory, as the words say, each a name, = and a value. Standard input is $work/in.
run_with() {
  rm -f "$work/mark"
  env REFUSED_MARK="$work/mark" FAILED_MARK="$work/mark" AT_MOST=$most "$@" "$program" "${words[@]}" \
    <"$work/in" >"$work/out" 2>"$work/err"
}

# $1: what fails, as a preloaded library and a variable; $2: the suffix of the number; $3: the status; $4: the text after the program's
# name; $5: how often it must fail; then more variables.
fail_each() {
  local library=$1 variable=$2 after=$3 status=$4 text=$5 fewest=$6 number got
  shift 6
  for ((number = 1; ; number++)); do
    run_with LD_PRELOAD="$work/$library.so" "$variable=$number$after" "$@"
    got=$?
    [ -e "$work/mark" ] || break
    [ "$got" -eq "$status" ] || fault "${words[0]}: $variable=$number$after: status $got, wanted $status"
    [ "$(cat "$work/err")" = "osdp: $text" ] || fault "${words[0]}: $variable=$number$after: other text on standard error"
    head -c "$(stat -c %s "$work/out")" "$work/right" | cmp -s - "$work/out" || fault "${words[0]}: $variable=$number$after: other text on standard output"
  done
  [ "$got" -eq 0 ] && cmp -s "$work/right" "$work/out" || fault "${words[0]}: nothing fails, and the answer is another one"
  [ "$number" -gt "$fewest" ] || fault "${words[0]}: $variable: only $((number - 1)) failed"
  echo "${words[0]}: $variable: $((number - 1)) refused in turn"
}

fail_all() {
  "$program" "${words[@]}" <"$work/in" >"$work/right" 2>"$work/err" || fault "${words[0]}: status $?"
  local after with
  for after in '' '+'; do
    fail_each refuse REFUSED_REQUEST "$after" 4 'no memory' 20
  done
  # EIO and EINTR
  for with in 5 4; do
    fail_each streams FAILED_READ '' 3 'read failed' $(($(stat -c %s "$work/in") / most)) FAILED_WITH=$with
    fail_each streams FAILED_WRITE '' 3 'write failed' $(($(stat -c %s "$work/right") / most)) FAILED_WITH=$with
  done
}

words=(panel check crc capacity 2)
{
  printf 'add 5 0\nadd 6 0\nadd 5 0\nbegin 1\nbegin 2\nsubmit 1 never OUT 0:2:0\nsubmit 1 500 TEXT 0 1 0 1 1 48\nsubmit 1 never ID 0\nwithdraw 1\n'
  printf 'at 400\ntick\nwrite\nbytes 53\nat 700\ntick\nwrite\nat 900\ntick\nat 1100\ntick\nretarget 1 9\nno call\n'
} >"$work/in"
fail_all

words=(reader address 5 vendor 53494D cap 1:1:8 room 2)
{
  printf 'inputs 00\noutputs 0000\nreaders 00\nlocal 0 0\nbytes 530508000061003F\nbytes 5305\nat 40\ntick\n'
  printf 'event KEYPAD 0 31\nevent RAW 0 0 26 12345640\nevent KEYPAD 0 32\nbusy on\nbusy off\nsilence\nno call\n'
  printf 'bytes 53050B0001680002000032\nbytes 53050700026039\n'
} >"$work/in"
fail_all

exit "$failed"
