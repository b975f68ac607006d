#!/usr/bin/env bash
# Installs what the gate has proved into a temporary folder, and looks at what is there: the program, its pages, the library for C, with which a program
# is compiled by pkg-config and run, the examples, and the crate for Rust, whose example is run. Installs a second time, and into a folder where nothing
# may be written, and takes all away again (`placing.py`: all or nothing). From a tree in which nothing is proved nothing is put in place, nor where a crate isn't proved. Takes the path of the program; the archive
# is that which `c.sh` has built.
set -u
cd "$(dirname "$0")/.." || exit 1
. tests/passes.bash

there=$work/there
passes ./install --check
passes ./install --proved --prefix "$there"
passes ./install --proved --prefix "$there"
grep -qF "export PATH=$there/bin:" "$work/said" || fail 'it does not say that PATH lacks the folder'
grep -qF "export PKG_CONFIG_PATH=$there/lib/pkgconfig" "$work/said" || fail 'it does not say that pkg-config does not find the library'

passes python3 tests/placing.py
[ -e "$there/share/bash-completion/completions/osdp-report" ] || fail 'bash finds no completion for osdp-report'

[ "$("$there/bin/osdp" --version)" = 'osdp 0.1.0' ] || fail 'another version, or no program'
cmp -s "$there/bin/osdp" "$1" || fail 'another program than the one that is proved'
[ "$("$there/bin/osdp-port" --version)" = 'osdp-port 0.1.0' ] || fail 'osdp-port is another version, or no program'
"$there/bin/osdp-port" /nowhere/port 9600 show >"$work/said" 2>&1
{ [ $? -eq 3 ] && grep -qF "/nowhere/port isn't there" "$work/said"; } || { cat "$work/said"; fail 'osdp-port does not find the program or pyserial'; }
printf '53050700006041\n' | "$there/bin/osdp-report" >"$work/said" 2>&1
{ [ $? -eq 0 ] && grep -qF 'Nothing was judged' "$work/said"; } || { cat "$work/said"; fail 'osdp-report makes no page'; }
for page in osdp osdp-monitor osdp-panel osdp-plan osdp-port osdp-reader osdp-report; do
  MANPATH=$there/share/man man "$page" 2>/dev/null | grep -q SYNOPSIS || fail "man $page finds no page"
done
[ "$(find "$there" -name '*.new' -o -name '.osdp*' -o -name __pycache__ -o -name target -o -name out | wc -l)" -eq 0 ] || fail 'work of a build was put in place'

export PKG_CONFIG_PATH=$there/lib/pkgconfig
[ "$(pkg-config --modversion osdp)" = 0.1.0 ] || fail 'osdp.pc has another version'
if passes "$CC" -std=c11 -Wall -Wextra -Werror -o "$work/installed" tests/c/installed.c $(pkg-config --cflags --libs osdp); then
  # the packet is that of docs/GUIDE.md: an ID with number 0 to address 5, with a CRC
  [ "$("$work/installed")" = '0.1.0 53050900046100C125' ] || fail 'the program in C prints something else'
fi
passes "$there/share/osdp/examples/c/build" "$work" -Werror
for name in panel reader; do
  "$work/$name" --help >"$work/said" 2>&1 || fail "the installed example in C isn't built: $name"
done
# a copy of a small program in C, as c/README.md says, and of one in Rust, as rust/README.md says
mkdir "$work/mine" && cp "$there/share/osdp/examples/c/"*.[ch] "$work/mine/" && cp "$work/mine/door_panel.c" "$work/mine/my_panel.c"
(cd "$work/mine" && passes "$CC" -o my_panel my_panel.c {door,kept,owner,port,settings,store,trace,words}.c $(pkg-config --cflags --libs osdp) -lsqlite3) || fail 'a copy of a panel in C is not built'
(
  ln -s "$there/share/osdp" "$work/osdp" && cd "$work" && unset OSDP_C_LIB_DIR && export CARGO_NET_OFFLINE=true
  passes cargo new --quiet --vcs none my_door && cd my_door || exit 1
  cp ../osdp/rust/examples/door_device.rs src/main.rs && cp -r ../osdp/rust/examples/port src/
  echo 'osdp = { path = "../osdp/rust" }' >>Cargo.toml
  passes cargo build --quiet
) || fail 'a copy of a device in Rust is not built'
# a heap of the program's own takes the place of the one in the library
passes "$CC" -std=c11 -o "$work/pool" tests/c/installed.c "$there/share/osdp/c/heap_pool.c" $(pkg-config --cflags --libs osdp) && passes "$work/pool"

env -u OSDP_C_LIB_DIR cargo run --quiet --offline --locked --manifest-path "$there/share/osdp/rust/Cargo.toml" --target-dir "$work/target" --example session \
  >"$work/said" 2>&1 || { cat "$work/said"; fail 'the example in Rust has failed'; }

for file in panel.py reader.py lines.py door.hex; do
  cmp -s "examples/$file" "$there/share/osdp/examples/$file" || fail "share/osdp/examples has another $file"
done
# the pages that the helps and the manual pages name
helps=$(for command in show check make sim panel reader; do "$1" help "$command"; done; cat man/*.1 examples/panel.py)
for page in $(grep -o 'docs/[A-Z_]*\.md' <<<"$helps" | sort -u); do
  cmp -s "$page" "$there/share/osdp/$page" || fail "share/osdp has no $page, or another one"
done
[ -x "$there/share/osdp/examples/panel.py" ] || fail 'panel.py is no program'

touch "$work/file"
./install --proved --prefix "$work/file/below" >"$work/said" 2>&1
{ [ $? -eq 1 ] && [ "$(wc -l <"$work/said")" -eq 1 ]; } || { cat "$work/said"; fail 'a folder that cannot be made: not one line and status 1'; }

# what was put in place goes again, all of it
passes ./install --remove --prefix "$there"
[ "$(find "$there" -mindepth 1 | wc -l)" -eq 0 ] || { find "$there" | head; fail 'something is left after --remove'; }
./install --remove --prefix "$there" >"$work/said" 2>&1
{ [ $? -eq 1 ] && [ "$(wc -l <"$work/said")" -eq 1 ]; } || { cat "$work/said"; fail 'what was removed is removed again'; }

mkdir -p "$work/tree/include" "$work/tree/rust" "$work/tree/release" && cp release/placing.py "$work/tree/release/" && cp install crates.txt "$work/tree/" && cp include/osdp.h "$work/tree/include/"
cp rust/Cargo.toml "$work/tree/rust/"
"$work/tree/install" --proved --prefix "$work/nothing" >"$work/said" 2>&1
{ [ $? -eq 1 ] && [ ! -e "$work/nothing" ]; } || fail 'from a tree in which nothing is proved something was put in place'

# A crate that isn't proved: it is not counted as done, what is wrong with it is said, and nothing is put in place. `rt` is a stand-in here.
mkdir -p "$work/stand_in" && (cd "$work/tree" && mkdir -p $(sed -n 's|^\(osdp[a-z_]*\).*:.*|crates/\1|p' crates.txt))
cat >"$work/stand_in/rt" <<'END'
#!/bin/sh
[ "$*" = 'check --jobs 1' ] || exit 9
name=$(basename "$PWD")
case $name in
  osdp_words) printf './proofs/A.antt:8:13: error: open\ncrate osdp_words: modules loaded=1 checked=1\nlogic=not-proved\n'; exit 1 ;;
  osdp_check) sleep 1 ;;
esac
printf 'fn a: proved\ncrate %s: modules loaded=1 checked=1\nlogic=proved\n' "$name"
END
chmod +x "$work/stand_in/rt"
PATH=$work/stand_in:$PATH "$work/tree/install" --jobs 1 --prefix "$work/nothing" >"$work/said" 2>&1
[ $? -eq 1 ] || fail 'where a crate is not proved the status is not 1'
grep -q '^1 of [0-9]* osdp_' "$work/said" || fail 'a crate that is proved is not counted'
grep -q '^[0-9]* of [0-9]* osdp_words' "$work/said" && fail 'a crate that is not proved is counted'
grep -qF 'osdp_words: ./proofs/A.antt:8:13: error: open' "$work/said" || fail 'it does not say what is not proved'
[ ! -e "$work/nothing" ] || fail 'where a crate is not proved something was put in place'
# one that says that it isn't proved, and ends well all the same
sed -i 's/exit 1 ;;/exit 0 ;;/' "$work/stand_in/rt"
PATH=$work/stand_in:$PATH "$work/tree/install" --jobs 2 --prefix "$work/nothing" >"$work/said" 2>&1
{ [ $? -eq 1 ] && grep -qF 'osdp_words: logic=not-proved' "$work/said" && [ ! -e "$work/nothing" ]; } || fail 'a crate that is not proved, and ends well, is taken as proved'

# a folder that can't be written is told before anything is proved: `rt` would leave a mark. Root may write everywhere, so this runs as nobody.
mkdir "$work/owned" && printf '#!/bin/sh\ntouch %s/proving\n' "$work" >"$work/stand_in/rt"
chmod 755 "$work" "$work/tree" && (cd "$work" && PATH=$work/stand_in:$PATH setpriv --reuid=65534 --clear-groups "$work/tree/install" --prefix "$work/owned/below") >"$work/said" 2>&1
{ [ $? -eq 1 ] && [ "$(wc -l <"$work/said")" -eq 1 ] && grep -qF "$work/owned can't be written" "$work/said" && [ ! -e "$work/proving" ]; } ||
  { cat "$work/said"; fail 'a folder that cannot be written is not told before the proofs'; }

# a cargo that is too old for the crate for Rust
printf '#!/bin/sh\necho "cargo 1.85.0"\n' >"$work/stand_in/cargo" && chmod +x "$work/stand_in/cargo"
PATH=$work/stand_in:$PATH ./install --check >"$work/said" 2>&1
grep -q '^missing, and can be done without: cargo [0-9.]* or later: ' "$work/said" || fail '--check does not say that cargo is too old'

# without pyserial: it is told, and can be done without
python3 -c 'import runpy; it = runpy.run_path("install"); it["missing"].__globals__["SYSTEM_PYTHON"] = "/nowhere/python3"; print(it["missing"]())' >"$work/said"
grep -qF "('pyserial: osdp-port speaks to ports by it: Debian package python3-serial', False)" "$work/said" || fail '--check does not tell that pyserial is missing'

python=$(python3 -c 'import sys; print(sys.executable)')
PATH=$work "$python" ./install --check >"$work/said" 2>&1
[ $? -eq 1 ] || fail 'on a machine without tools --check ends well'
for package in gcc binutils man-db pkgconf rustup; do
  grep -q "Debian package $package\$" "$work/said" || fail "--check does not name the package $package"
done

exit "$failed"
