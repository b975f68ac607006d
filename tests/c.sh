#!/usr/bin/env bash
# Builds the archive for C and for Rust, as `rt lib` does (`archive.py`), and looks at it from outside: the names in it against those of the header and of
# rust/, and their numbers against the definitions; the structs, each with the bytes around it; a whole session in C over malloc, with each block refused in
# turn, over the fixed pool, and with the address sanitizer and its leak detection; a monitor on the rows of `osdp monitor` (`c_monitor.py`); the examples in C, with all warnings as errors; and the example in Rust,
# with no crate from outside, also without the archive as far as nothing is linked. Where a compiler, cargo or another tool isn't there, it fails and names it.
set -u
cd "$(dirname "$0")/.." || exit 1
. tests/passes.bash

for tool in rt "$CC" nm objdump python3 cargo; do
  command -v "$tool" >/dev/null || fail "$tool is missing"
done
[ "$failed" -eq 0 ] || exit 1

# $1: what is built; the rest: what it is made of. It says what went wrong.
build() {
  local name=$1
  shift
  "$CC" -std=c11 -Wall -Wextra -Werror -pedantic -O2 -g -Iinclude -o "$work/$name" "$@" 2>"$work/said" && return
  cat "$work/said"
  fail "$name was not built"
  return 1
}

echo 'int main(void) { return 0; }' >"$work/empty.c"
build empty "$work/empty.c" -fsanitize=address,undefined || fail "the address sanitizer of $CC is missing"

if ! python3 tests/archive.py >"$work/lib" 2>&1; then
  tail -n 20 "$work/lib"
  fail "the archive was not built"
  exit 1
fi
archive=crates/osdp_c/out/libosdp_c.a
passes python3 tests/names.py "$archive"

session=(tests/c/session.c tests/c/line.c)
counted=(tests/c/counted.c -Wl,--wrap=malloc,--wrap=realloc,--wrap=free)
checked=(-fsanitize=address,undefined -fno-sanitize-recover=all)
export ASAN_OPTIONS=detect_leaks=1:allocator_may_return_null=1

for heap in malloc pool; do
  build "heap_$heap" tests/c/heap.c "c/heap_$heap.c" -DOSDP_POOL=131072 "${checked[@]}" && passes "$work/heap_$heap" "$heap"
done
# what stands beside the archive compiles without a word as C99, C11 and C++
for language in "-std=c99 -xc" "-std=c11 -xc" "-std=c++11 -xc++" "-std=c++17 -xc++"; do
  for file in heap_malloc heap_pool osdp_site osdp_texts; do
    "$CC" $language -Wall -Wextra -Wpedantic -Wshadow -Wcast-qual -Wconversion -Wsign-conversion -Werror -Iinclude -c -o "$work/beside.o" "c/$file.c" 2>"$work/said" ||
      { cat "$work/said"; fail "$file.c as $language says something"; }
  done
done
# a shared library that is made of the archive and a heap hands on none of the heap's names, which another library may have too
for heap in malloc pool; do
  passes "$CC" -shared -fPIC -Iinclude -o "$work/shared.so" "c/heap_$heap.c" -Wl,--whole-archive "$archive" -Wl,--no-whole-archive &&
    nm -D --defined-only "$work/shared.so" | grep rattle_ && fail "a shared library with heap_$heap.c hands on its heap"
done
# a status that isn't looked at is warned of where the program asks for that, and not else; also one of a call that the header itself has
cat >"$work/ignores.c" <<'CODE'
#include "osdp.h"
void forgets(osdp_panel *panel);
void forgets(osdp_panel *panel)
{
    CALL;
}
CODE
for language in "-std=c99 -xc" "-std=c11 -xc" "-std=c2x -xc" "-std=c++11 -xc++" "-std=c++17 -xc++"; do
  for call in "osdp_panel_free(panel)" "osdp_panel_bytes(panel, NULL, 0, 0)"; do
    ignores=("$CC" $language -Wall -Wextra -Werror "-DCALL=$call" -Iinclude -c -o "$work/beside.o" "$work/ignores.c")
    "${ignores[@]}" 2>"$work/said" || fail "a status that isn't looked at is warned of as $language: $call"
    "${ignores[@]}" -DOSDP_CHECK_RESULTS 2>"$work/said" && fail "a status that isn't looked at is not warned of as $language: $call"
    grep -q unused-result "$work/said" || fail "another warning as $language: $call"
  done
done
# parts of the examples, which need no archive: a port that hasn't a rate, bytes of long ago, and stores that are written where they would change
build ports tests/c/ports.c examples/c/{port,owner}.c -Iexamples/c "${checked[@]}" -Wl,--wrap=clock_gettime,--wrap=tcsetattr,--wrap=read,--wrap=write,--wrap=ppoll && passes "$work/ports"
mkdir "$work/stores" && build store tests/c/store.c examples/c/{store,kept,ledger}.c -Iexamples/c "${checked[@]}" -lsqlite3 && passes "$work/store" "$work/stores" &&
  build later tests/c/store.c examples/c/{store,kept,ledger}.c -Iexamples/c "-DSTORE_SQL=\"$PWD/tests/c/store_next.h\"" -DLATER "${checked[@]}" -lsqlite3 &&
  passes "$work/later" "$work/stores" upgraded && passes "$work/store" "$work/stores" upgraded
passes tools/store_sql # each copy of the schema is the same
build hands tests/c/hands.c "${checked[@]}" && passes "$work/hands"
build texts tests/c/texts.c c/osdp_texts.c && passes "$work/texts"
for name in fields structs; do
  build "$name" "tests/c/$name.c" c/heap_malloc.c "$archive" && passes "$work/$name"
  build "${name}_checked" "tests/c/$name.c" c/heap_malloc.c "$archive" "${checked[@]}" && passes "$work/${name}_checked"
done
for name in ages between limits messages moments nulls orders; do
  build "$name" "tests/c/$name.c" c/heap_malloc.c "$archive" "${checked[@]}" && passes "$work/$name"
done

build monitor tests/c/monitor.c c/heap_malloc.c "${counted[@]}" "$archive" && passes "$work/monitor"
build monitor_checked tests/c/monitor.c c/heap_malloc.c "${counted[@]}" "$archive" "${checked[@]}" && passes "$work/monitor_checked"

for name in site device_turns; do
  build "$name" "tests/c/$name.c" c/heap_malloc.c c/osdp_site.c "$archive" "${checked[@]}" && passes "$work/$name"
done

for heap in malloc pool; do
  build "session_$heap" "${session[@]}" "c/heap_$heap.c" "${counted[@]}" "$archive" && passes "$work/session_$heap"
  [ "$heap" = pool ] && wanted="0 blocks" || wanted="34 blocks"
  grep -q "^session: $wanted, each refused once$" "$work/said" || fail "session_$heap: not $wanted"
done
build session_checked "${session[@]}" c/heap_malloc.c "${counted[@]}" "$archive" "${checked[@]}" && passes "$work/session_checked"
# the session needs no more than 64 KiB of stack for the whole program
(ulimit -s 64 && passes "$work/session_malloc") || fail "the session needs more stack"

# what the calls take of the stack, by the sum of their deepest chain of functions (`bench/stack.py`): they keep to 4,096 bytes, but the one that
# makes a monitor to 5,500 (docs/SIZES.md)
passes python3 bench/stack.py &&
  { awk '
      BEGIN { most["osdp_monitor_new"] = 5500 }
      { calls += 1 }
      $2 > ($1 in most ? most[$1] : 4096) { print; more = 1 }
      END { exit more || calls < 80 }' "$work/said" || fail "a call takes more stack than it may"; }
# .. and as `bench/exchange` measures it, with what the heap takes: the one that makes a panel keeps to 7,500, the one that makes a monitor to 6,000, and what a
# monitor hears to 4,500
build exchange bench/exchange.c c/heap_malloc.c "$archive" && passes "$work/exchange" &&
  { sed 's/^stack of //; s/ bytes, wanted.*//' "$work/said" | awk '
      BEGIN {
        most["osdp_panel_new and add"] = 7500
        most["osdp_monitor_new"] = 6000; most["osdp_monitor_bytes"] = 4500
      }
      { taken = $NF; sub(/ +[0-9]+$/, ""); if (taken > ($0 in most ? most[$0] : 4096)) { print; more = 1 } }
      END { exit more }' || fail "a call takes more stack than was measured"; }

build leak tests/c/leak.c c/heap_malloc.c "$archive" "${checked[@]}" &&
  if "$work/leak" >"$work/said" 2>&1 || ! grep -q LeakSanitizer "$work/said"; then
    fail "a leak was not seen"
  fi

examples/c/build "$work" -Werror >"$work/said" 2>&1 || { cat "$work/said"; fail "an example in C was not built"; }
# .. and compile without a word where a pointer has 32 bits, and an `osdp_size` is no `size_t`
mkdir "$work/gnu" && : >"$work/gnu/stubs-32.h" # glibc's headers ask for it, and it isn't there for each target
for file in examples/c/*.c; do
  "$CC" -m32 -std=c11 -Wall -Wextra -Wconversion -Werror -pedantic -O2 -fsyntax-only -Iinclude -I"$work" -I"/usr/include/$("$CC" -print-multiarch)" "$file" 2>"$work/said" ||
    { cat "$work/said"; fail "$file for 32 bits says something"; }
done
passes python3 tests/c_monitor.py "$work/monitor_checked" "$work/listen"
for words in "listen" "listen /dev/null 9600 gap 30" "panel" "panel /dev/null 9600 5 gap" "panel /dev/null 9600 5 check none" "reader /dev/null 9600 cap 1:2" "reader /dev/null" \
  "door_panel /dev/null 9600 address 7" "door_device /dev/null 9600 address 7" "keypad_reader /dev/null 9600 5 gap 30" "stored_panel /dev/null /dev/null 9600 a b" "stored_panel --keep /dev/null /dev/null 9600" "three_doors /dev/null 9600 a b"; do
  "$work/"$words >"$work/said" 2>&1
  [ $? -eq 2 ] || fail "$words: the words are not refused"
done

export OSDP_C_LIB_DIR=$PWD/crates/osdp_c/out RUSTFLAGS="-D warnings"
in_rust() {
  passes cargo "$1" --quiet --offline --locked --manifest-path rust/Cargo.toml --target-dir "$work/target" "${@:2}"
}
in_rust build --no-default-features
in_rust clippy --all-targets -- -D warnings
in_rust build --examples # `test` builds the tests of those that have some, and not what they run
in_rust test
in_rust run --example session
# an example whose standard error nobody reads ends with its status, and not by a panic
passes python3 -c "
import os, subprocess, sys
read, write = os.pipe()
os.close(read)
for words, status in ((['x'], 2), (['/nowhere', '9600'], 1), (['/dev/null', 'fast'], 2)):
    ended = subprocess.run([sys.argv[1], *words], stderr=write, stdout=subprocess.DEVNULL).returncode
    if ended != status:
        sys.exit(f'{words}: status {ended}')
" "$work/target/debug/examples/door_panel"
# without the archive the crate is checked, and its pages and their code are made
export OSDP_C_LIB_DIR=$work/none
in_rust check --all-targets
in_rust doc
in_rust test --doc

exit "$failed"
