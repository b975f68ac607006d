#!/usr/bin/env bash
# Refuses each request for memory of the calls that take any, in turn and by themselves: of a new reader, a new controller, a new bus and its devices, of
# a script that is read, and of schedules that are run over one reader and over two. It runs one test at a time, by the programs of the tests that `rt ci`
# leaves, with a library preloaded that refuses a request (`refuse.c`). A test that is told of out of memory passes with each request refused, and compares
# the account then with that of the steps before; one that needs the memory fails, but where a row says that it goes on without it. Needs a C compiler.
set -u
cd "$(dirname "$0")/.." || exit 1
. tests/passes.bash

"$CC" -O1 -shared -fPIC -o "$work/refuse.so" tests/refuse.c || exit 1

# The program of a crate's tests. Where none was left it is made.
tests_of() {
  local program=crates/$1/out/$1_tests
  [ -x "$program" ] || (cd "crates/$1" && rt test) >"$work/said" 2>&1 || tail -n 5 "$work/said"
  echo "$program"
}

# Runs the test $2 of the program $1 with request $3 refused; $work/mark is there where there was such a request.
refused() {
  rm -f "$work/mark"
  (
    LD_PRELOAD="$work/refuse.so" REFUSED_REQUEST=$3 REFUSED_MARK="$work/mark" "$1" "$2"
    exit $?
  ) >"$work/said" 2>&1
}

# $1: the crate; $2: the test that is told of out of memory; $3: how many requests it makes; $4: a test that makes requests, $5: which of those that the
# other makes it needs, as a pattern. The first may be the test's own.
refuse_each() {
  local program number
  program=$(tests_of "$1")
  refused "$program" "$2" 0 || fail "$2: it fails with ample memory"
  refused "$program" "$4" 0 || fail "$4: it fails with ample memory"
  for ((number = 1; number <= $3; number++)); do
    refused "$program" "$2" "$number" || fail "$2: request $number refused: $(tail -n 3 "$work/said")"
    [ -e "$work/mark" ] || fail "$2: there is no request $number"
    if refused "$program" "$4" "$number"; then
      [[ ! $number =~ ^($5)$ ]] || fail "$4: request $number is refused, and it passes"
    else
      [[ $number =~ ^($5)$ ]] || fail "$4: request $number is refused, and it fails"
    fi
  done
  refused "$program" "$2" "$number"
  [ ! -e "$work/mark" ] || fail "$2: there is a request $number"
}

# What waits in a reader or a controller are two requests: for the sizes, and for the bytes. What a reader answers to CAP is one before these.
machines=osdp_machine_tests
for test in an_event_is_told_until_the_next_number damage::no_changed_byte_stops_a_reader; do
  refuse_each $machines tests::reader::out_of_memory_is_told 3 "tests::reader::$test" '[1-3]'
done
for test in a_session numbers_take_turns another_address; do
  refuse_each $machines tests::controller::out_of_memory_is_told 2 "tests::controller::$test" '[12]'
done
# A bus asks twice as it is made, and four times for each device: for its commands, for the device itself, and for the event that it told last.
refuse_each osdp_port_tests bus::reservations::out_of_memory_is_told 10 bus::turns::runs_end '[1-6]'
for test in two_devices_take_turns a_pause_holds_the_line; do
  refuse_each osdp_port_tests bus::reservations::out_of_memory_is_told 10 bus::turns::$test '[1-9]|10'
done
# Twenty requests to set up: two for each list of messages, and settled commands are two such lists. Six by the steps. The reader answers nothing to CAP.
refuse_each osdp_sim_tests tests::refusals::out_of_memory_is_told 26 tests::refusals::memory_is_needed '.*'
refuse_each osdp_sim_tests tests::scripts::out_of_memory_is_told 26 tests::scripts::memory_is_needed '.*'
# The first request is the test's own, for the list of readers. Each of the two readers answers something to CAP.
refuse_each osdp_sim_tests tests::buses::refusals::out_of_memory_is_told 62 tests::buses::refusals::memory_is_needed '.*'
exit "$failed"
