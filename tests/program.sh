#!/usr/bin/env bash
# What no contract can say of the program: statuses and standard error over pipes, files, closed and full
# streams, and words that are no text. Takes the path of the program.
set -u
program=$1
work=$(mktemp -d)
trap 'rm -rf "$work"' EXIT
failed=0

. "$(dirname "$0")/expect.bash"

poll=$'1:0 cmd 0 seq 0 sum POLL\n'

expect 'a poll' 0 "$poll" '' show <<<'53 00 07 00 00 60 46'
expect 'no input' 0 '' '' show </dev/null
expect 'no input, counted' 0 $'runs 0 packets 0 skipped 0 refused 0\n' '' check </dev/null
expect 'two lines' 0 $'1:0 cmd 0 seq 0 crc POLL\n2:0 reply 0 seq 1 crc ACK\n' '' show <<<$'530008000460EBAA\n538008000540689F'
expect 'noise' 0 $'1:0 skip FF\n1:1 skip FF\n1:2 cmd 0 seq 0 sum POLL\n' '' show <<<'FFFF53000700006046'
expect 'a packet on two lines' 1 $'1:0 refused F4\n1:1 skip 00\n1:2 skip 07\n2:0 skip 00\n2:1 skip 00\n2:2 skip 60\n2:3 skip 46\n' '' show <<<$'530007\n00006046'
expect 'the same, joined' 0 "$poll" '' show --join <<<$'530007\n00006046'
expect 'a wrong check' 1 $'1:0 refused F3\nruns 1 packets 0 skipped 6 refused 1\n' '' check <<<'53000700006047'
expect 'raw bytes' 0 "$poll" '' show --raw < <(printf '\x53\x00\x07\x00\x00\x60\x46')
expect 'raw bytes, joined' 0 "$poll" '' show --join --raw < <(printf '\x53\x00\x07\x00\x00\x60\x46')
expect 'a bad line' 2 '' $'osdp: line 1: not hex\n' show <<<'5'
expect 'a bad line after a good one' 2 "$poll" $'osdp: line 2: not hex\n' show <<<$'53000700006046\n5x\n53000700006046'
expect 'a bad line, counted' 2 $'runs 1 packets 1 skipped 0 refused 0\n' $'osdp: line 2: not hex\n' check <<<$'53000700006046\n5'
expect 'comments and blank lines' 0 $'1:0 cmd 0 seq 0 sum POLL\n' '' show < <(printf ' \t# a capture\r\n\r\n 53 00\t07 00\r00 60 46')

bad=$'osdp: bad words\n'
expect 'no words' 0 "$("$program" help </dev/null)"$'\n' '' </dev/null
expect 'unknown word' 2 '' "$bad"$'osdp: no command: shows; try: osdp help\n' shows </dev/null
expect 'unknown option' 2 '' "$bad"$'osdp: no word of show: --all; try: osdp help show\n' show --all </dev/null
expect 'a file that is none' 2 '' "$bad"$'osdp: no word of show: ; try: osdp help show\n' show --raw '' </dev/null
expect 'a word that is no text' 2 '' "$bad" show $'\xff' </dev/null
expect 'the version' 0 $'osdp 0.1.0\n' '' --version </dev/null
expect 'the version and more' 2 '' "$bad" --version show </dev/null
expect 'help of a word that is no command' 2 '' "$bad"$'osdp: no command: nothing; try: osdp help\n' help nothing </dev/null
expect 'help of two commands' 2 '' "$bad" help show check </dev/null
expect 'help and more' 2 '' "$bad" --help show </dev/null
expect 'help after a command' 0 "$("$program" help show </dev/null)"$'\n' '' show --help </dev/null
expect 'help after a command, and more' 2 '' "$bad"$'osdp: no word of make: --help; try: osdp help make\n' make --help --help </dev/null
expect 'short help and more' 2 '' "$bad" -h -h </dev/null

expect 'a packet made' 0 $'53050C000568000200005183\n' '' make 5 1 crc OUT 0:2:0 </dev/null
expect 'no packet' 2 '' "$bad"$'osdp: no word of make: 4; try: osdp help make\n' make 5 4 sum POLL </dev/null
expect 'a text that is no text' 2 '' "$bad" make 5 1 sum TEXT 0 1 0 1 1 $'\xff' </dev/null

capture=$(dirname "$0")/../examples/door.hex
expect 'a capture in a file' 1 '1:0 cmd 5 seq 0 sum ID 0
2:0 reply 5 seq 0 sum PDID 53494D 1 1 1 1 0 0
3:0 cmd 5 seq 1 sum POLL
4:0 skip FF
4:1 skip FF
4:2 reply 5 seq 1 sum ACK
5:0 cmd 5 seq 2 sum POLL
6:0 refused F3
6:1 skip 85
6:2 skip 07
6:3 skip 00
6:4 skip 02
6:5 skip 40
6:6 skip E0
' '' show <"$capture"

expect 'a directory as input' 3 '' $'osdp: read failed\n' show </
expect 'a closed input' 3 '' $'osdp: read failed\n' show <&-

expect 'noise that fills all rooms' 0 "$(seq -f '1:%g skip FE' 0 8999)"$'\n' '' show --raw < <(printf '\xFE%.0s' {1..9000})
expect 'as many bytes as are read' 0 $'runs 1 packets 0 skipped 67108864 refused 0\n' '' check --raw < <(head -c 67108864 /dev/zero)
expect 'one byte more' 2 '' $'osdp: input too long\n' check --raw < <(head -c 67108865 /dev/zero)
expect 'a script of as many bytes' 2 '' $'osdp: line 2: bad step\n' sim < <(head -c 67108864 /dev/zero | tr '\0' ' ')
expect 'a script of one byte more' 2 '' $'osdp: input too long\n' sim < <(head -c 67108865 /dev/zero | tr '\0' ' ')
expect 'lines of one byte more' 2 $'1:0 skip FF\n' $'osdp: input too long\n' show < <(printf 'FF\n#'; head -c 67108865 /dev/zero | tr '\0' ' ')
expect 'a bad line before the limit' 2 '' $'osdp: line 1: not hex\n' show < <(printf '5\n'; head -c 67108865 /dev/zero | tr '\0' ' ')

# $1: what is tried; $2: the status that is wanted; $3: standard error; then the words. The output is the
# caller's.
expect_status() {
  local name=$1 status=$2 err=$3
  shift 3
  "$program" "$@" 2>"$work/err"
  local got=$?
  printf '%s' "$err" >"$work/wanted_err"
  if [ "$got" -ne "$status" ] || ! cmp -s "$work/err" "$work/wanted_err"; then
    echo "$name: status $got, wanted $status"
    diff "$work/wanted_err" "$work/err"
    failed=1
  fi
}

write_failed=$'osdp: write failed\n'
expect_status 'a full device' 3 "$write_failed" show <<<'53000700006046' >/dev/full
expect_status 'a full device, counted' 3 "$write_failed" check </dev/null >/dev/full
expect_status 'a full device for a packet' 3 "$write_failed" make 5 0 sum BUSY </dev/null >/dev/full
expect_status 'a full device for a help' 3 "$write_failed" help show >/dev/full
expect_status 'a full device for the version' 3 "$write_failed" --version >/dev/full
expect_status 'a full device for many lines' 3 "$write_failed" show < <(yes 53000700006046 | head -n 100000) >/dev/full
expect_status 'a closed output' 3 "$write_failed" show <<<'53000700006046' >&-
expect_status 'a closed output that is not written to' 0 '' show </dev/null >&-

# A packet in a pipe that stays open is shown within a second.
mkfifo "$work/line"
"$program" show --raw <"$work/line" >"$work/out" &
exec 7>"$work/line"
printf '\x53\x00\x07\x00\x00\x60\x46' >&7
for _ in 1 2 3 4 5 6 7 8 9 10; do
  [ -s "$work/out" ] && break
  sleep 0.1
done
printf '%s' "$poll" | cmp -s - "$work/out" || { echo 'a line that stays open: its packet is not shown'; failed=1; }
exec 7>&-
wait $! || { echo "a line that stays open: status $?"; failed=1; }

# So are the packets of a first read that gives all that was asked for, 65,536 bytes: 9,362 packets, and two bytes of the next one. The bytes
# stand in the pipe before the program begins, so that one read takes all.
poll_packets() {
  yes 53000700006046 | head -n "$1" | tr -d '\n' | python3 -c 'import sys; sys.stdout.buffer.write(bytes.fromhex(sys.stdin.read()))'
}
mkfifo "$work/full"
exec 7<>"$work/full" 8<"$work/full"
poll_packets 9363 | head -c 65536 >&7
: >"$work/out"
"$program" show --raw <&8 7>&- 8<&- >>"$work/out" &
for _ in {1..100}; do
  [ "$(wc -l <"$work/out")" -eq 9362 ] && break
  sleep 0.1
done
[ "$(wc -l <"$work/out")" -eq 9362 ] || { echo "a full first read: $(wc -l <"$work/out") packets are shown, wanted 9362"; failed=1; }
poll_packets 1 | tail -c 5 >&7
exec 7>&- 8<&-
wait $! || { echo "a full first read: status $?"; failed=1; }
[ "$(wc -l <"$work/out")" -eq 9363 ] || { echo 'a full first read: the last packet is not shown'; failed=1; }

# A reader that stops after the first line.
yes 53000700006046 | head -n 100000 | "$program" show 2>"$work/err" | head -n 1 >"$work/out"
status=${PIPESTATUS[2]}
if [ "$status" -ne 3 ] || ! printf '%s' "$write_failed" | cmp -s - "$work/err"; then
  echo "a reader that stops: status $status"
  failed=1
fi
printf '%s' "$poll" | cmp -s - "$work/out" || { echo 'a reader that stops: another first line'; failed=1; }

exit "$failed"
