#!/usr/bin/env bash
# Makes the packages of a release, twice, and tries them: lintian finds no error; in an empty root of Debian's they take the place of the two packages of an earlier
# version, the program runs, programs in C are built by pkg-config and by CMake, one in Rust by the crate, the package for Python is used, each package needs
# those of its own version, and nothing is left once all is removed; and in an empty folder, where the archive of files alone builds programs in C and Rust. Then
# what `./install` says, DESTDIR, and the completions (`release.py`). Takes the path of the program; the archive is that which `c.sh` has built. Run as root, it
# fetches the root by mmdebstrap. It installs that, lintian and zsh where they aren't there.
set -u
cd "$(dirname "$0")/.." || exit 1
. tests/passes.bash
top=$PWD
root=$work/root
trap '[ -z "${fetching:-}" ] || wait "$fetching"; rm -rf --one-file-system "$work"' EXIT

for needed in lintian mmdebstrap zsh; do
  command -v "$needed" >/dev/null || { apt-get update -qq && apt-get install -qqy --no-install-recommends "$needed"; } >"$work/installed" 2>&1 || cat "$work/installed"
done

# ---- an empty root, fetched while the packages are made

fetch_root() {
  mmdebstrap --quiet --variant=minbase --include=gcc,libc6-dev,cmake,make,pkgconf,python3-minimal,python3-serial,python3-aiohttp,python3-paho-mqtt,adduser bookworm "$root"
}
fetch_root >"$work/fetched" 2>&1 &
fetching=$!

# ---- the packages: made twice, by other words and in another place, the same bytes

passes ./install --pack "$work/one" --trial
(cd / && umask 077 && TZ=Asia/Tokyo passes "$top/install" --pack "$work/two" --trial) || failed=1
diff -r "$work/one" "$work/two" || fail 'two runs give other bytes'
(cd "$work/one" && passes sha256sum --quiet -c SHA256SUMS) || failed=1
[ "$(ls "$work/one" | wc -l)" -eq 10 ] || fail "other packages: $(ls "$work/one")"
grep -qxF "commit: $(git rev-parse HEAD)" "$work/one/RELEASE" || fail 'RELEASE names another commit'
grep -q '^kit: rattle-kit-[^ ]* logic [0-9a-f]*$' "$work/one/RELEASE" || fail 'RELEASE names no kit'
grep -q '^gate: .' "$work/one/RELEASE" || fail 'RELEASE has no line of a gate'
grep -q '^scripts: a trial' "$work/one/RELEASE" || grep -qx 'scripts: passed' "$work/one/RELEASE" || fail 'RELEASE does not say what the scripts have come to'
for package in "$work"/one/*.deb; do
  passes dpkg-deb --info "$package"
  dpkg-deb --contents "$package" | awk '$2 != "root/root" { print "other owner: " $0; bad = 1 } END { exit bad }' || fail "$package has files of another owner"
done

lintian --allow-root --fail-on error "$work"/one/*.deb >"$work/said" 2>&1 || { cat "$work/said"; fail 'lintian finds an error'; }

# of a commit that a gate has passed there are packages; of one that has not, that is another or has changed since, there are none
clone=$work/clone
git clone -q . "$clone" && mkdir -p "$clone/out" "$clone/crates/osdp/out" "$clone/crates/osdp_c/out"
cp -r install release "$clone/" && cp "$1" "$clone/crates/osdp/out/osdp" && cp crates/osdp_c/out/libosdp_c.a "$clone/crates/osdp_c/out/"
git -C "$clone" -c user.name=tests -c user.email=tests@localhost commit -qam 'the tree as it stands' --allow-empty
commit=$(git -C "$clone" rev-parse HEAD)
packs() { (cd "$clone" && printf "commit: $1\nproofs: 2 passed, 0 failed\n$2" >out/gate && ./install --pack "$work/$3") >"$work/said" 2>&1; }
refuses() {
  packs "$1" "$2" refused
  { [ $? -eq 1 ] && [ ! -e "$work/refused" ] && grep -qF 'no gate has passed on this commit' "$work/said"; } || { cat "$work/said"; fail "packages are made $3"; }
}
packs "$commit" 'scripts: passed\n' passed || { cat "$work/said"; fail 'no packages are made of what has passed'; }
grep -qx 'gate: 2 passed, 0 failed' "$work/passed/RELEASE" && grep -qx 'scripts: passed' "$work/passed/RELEASE" || fail 'RELEASE of what has passed says something else'
refuses "$commit" '' 'where the scripts have failed'
refuses 0000 'scripts: passed\n' 'of another commit'
echo >>"$clone/README.md"
refuses "$commit" 'scripts: passed\n' 'where something has changed since'

# ---- the archive of files, alone: moved, and with no repository beside it

mkdir "$work/alone" && tar -xzf "$work/one/osdp-0.1.0-linux-x86_64.tar.gz" -C "$work/alone" && mv "$work/alone/osdp-0.1.0" "$work/alone/moved"
there=$work/alone/moved
[ "$(PATH=$there/bin:/usr/bin:/bin osdp --version)" = 'osdp 0.1.0' ] || fail 'the archive of files has no program'
if PKG_CONFIG_PATH=$there/lib/pkgconfig passes "$CC" -std=c11 -o "$work/installed" tests/c/installed.c $(PKG_CONFIG_PATH=$there/lib/pkgconfig pkg-config --cflags --libs osdp); then
  [ "$("$work/installed")" = '0.1.0 53050900046100C125' ] || fail 'the program in C of the archive of files prints something else'
fi
said=$(cd / && env -u OSDP_LIBRARY python3 "$there/share/osdp/python/examples/session.py")
[ "$(head -n 2 <<<"$said" | tail -n 1)" = 'done: OUT 0:5:30' ] || fail "the package for Python of the archive of files says: $said"
export CARGO_NET_OFFLINE=true CARGO_TARGET_DIR=$work/target
crate=$there/share/osdp/rust
(unset OSDP_C_LIB_DIR && cd "$crate" && passes cargo package --quiet --locked --allow-dirty && passes cargo build --quiet --locked --no-default-features) || fail 'the crate of the archive of files is not packed'
tar -tzf "$work/target/package/osdp-0.1.0.crate" | grep -qx 'osdp-0.1.0/lib/libosdp_c.a' || fail 'the packed crate has no archive of the machines'
mkdir "$work/crate" && tar -xzf "$work/target/package/osdp-0.1.0.crate" -C "$work/crate"
(unset OSDP_C_LIB_DIR && cd "$work/crate/osdp-0.1.0" && passes cargo run --quiet --locked --example session) || fail 'the packed crate does not build alone'
# without the archive in it the crate finds that of the system, by pkg-config
rm -r "$work/crate/osdp-0.1.0/lib"
(unset OSDP_C_LIB_DIR && cd "$work/crate/osdp-0.1.0" && export PKG_CONFIG_PATH=$there/lib/pkgconfig && passes cargo run --quiet --locked --example session) ||
  fail 'the crate does not find the library by pkg-config'

# the crate of the Debian package, where Cargo looks for those of a system
mkdir "$work/system" && for package in libosdp0 libosdp-dev librust-osdp-dev; do dpkg-deb --extract "$work/one/${package}"_*.deb "$work/system"; done
(
  unset OSDP_C_LIB_DIR && cd "$work" && passes cargo new --quiet --vcs none uses && cd uses && mkdir .cargo || exit 1
  printf '[source.crates-io]\nreplace-with = "system"\n[source.system]\ndirectory = "%s"\n' "$work/system/usr/share/cargo/registry" >.cargo/config.toml
  echo 'osdp = "0.1"' >>Cargo.toml && cp "$crate/examples/session.rs" src/main.rs
  PKG_CONFIG_PATH=$work/system/usr/lib/pkgconfig passes cargo run --quiet
) || fail 'a program in Rust does not find the crate of the Debian package'

# ---- DESTDIR, and what `./install` says

DESTDIR=$work/destination passes ./install --proved --prefix /usr
[ -x "$work/destination/usr/bin/osdp" ] || fail 'with DESTDIR the program is not below it'
grep -rlF "$work" "$work/destination" && fail 'a file that was put in place names the folder of the build'
passes python3 tests/release.py "$1"

# ---- the empty root

wait "$fetching" || { cat "$work/fetched"; fail 'no empty root'; exit "$failed"; }
fetching=
everything() { (cd "$root" && find . -xdev \( -path ./proc -o -path ./sys -o -path ./dev -o -path ./tmp -o -path ./run -o -path ./var/log -o -path ./var/lib/dpkg -o -path ./var/cache \) -prune -o -type d -printf '%p/\n' -o -printf '%p %m %s %l\n' | sort); }
inside() { passes chroot "$root" env -i PATH=/usr/sbin:/usr/bin:/sbin:/bin HOME=/tmp "$@"; }
inside ldconfig
inside python3 -c 'import ctypes, dataclasses, enum, pathlib, typing' # so that what Python compiles of its own is there before
everything >"$work/before"
mkdir "$root/tmp/made" && cp "$work"/one/*.deb tests/c/installed.c "$root/tmp/made/"
cat >"$root/tmp/made/CMakeLists.txt" <<'END'
cmake_minimum_required(VERSION 3.13)
project(installed C)
find_package(osdp 0.1 REQUIRED)
add_executable(installed installed.c)
target_link_libraries(installed osdp::osdp)
END
# an earlier version had two packages: one for the program, and one with all that makers' programs need
passes python3 tests/earlier_packages.py "$work/one" "$root/tmp/earlier"
inside sh -c 'dpkg -i /tmp/earlier/*.deb'
[ "$(chroot "$root" dpkg-query -W -f '${Version} ' osdp osdp-dev)" = '0.0.9 0.0.9 ' ] || fail 'the packages of an earlier version are not installed'
inside sh -c 'dpkg -i /tmp/made/*.deb'
[ "$(chroot "$root" dpkg-query -W -f '${db:Status-Abbrev}' osdp-dev)" != 'ii ' ] || fail 'the package that the new ones take over is still there'
inside sh -c '[ "$(osdp --version)" = "osdp 0.1.0" ] && [ "$(osdp-port --version)" = "osdp-port 0.1.0" ]'
inside sh -c 'cp /usr/share/osdp/service/line.toml /etc/osdp/north.toml && sed -i s,/dev/serial/by-id/usb-YOUR_ADAPTER,/dev/null, /etc/osdp/north.toml'
inside sh -c 'cd / && setpriv --reuid osdp --regid osdp --init-groups osdp-port --config /etc/osdp/north.toml serve --new && osdp-port --plain --config /etc/osdp/north.toml serve --check | grep -q "^ready: line north"'
inside sh -c 'rm -r /etc/osdp/north.toml /var/lib/osdp/north.store*'
inside sh -c 'cd /tmp/made && cc -o plain installed.c $(pkg-config --cflags --libs osdp) && [ "$(./plain)" = "0.1.0 53050900046100C125" ]'
inside sh -c 'cd /tmp/made && cmake -B build . && cmake --build build && [ "$(build/installed)" = "0.1.0 53050900046100C125" ]'
inside sh -c 'python3 /usr/share/osdp/python/examples/session.py | grep -qx "done: OUT 0:5:30"'
inside sh -c 'cd / && PYTHONPATH=/usr/share/osdp/port python3 -B -c "import osdp_port.page.start, osdp_port.page.server"'
inside sh -c 'cd / && python3 -c "import osdp; print(osdp.library_version())" | grep -qx 0.1.0'
inside sh -c 'sed -i "s/osdp 0.1 /osdp 0.2 /" /tmp/made/CMakeLists.txt && ! cmake -B /tmp/other /tmp/made'
cmp -s "$root/usr/share/doc/osdp/RELEASE" "$work/one/RELEASE" || fail 'the package has another RELEASE'
grep -q 'No licence has been chosen yet' "$root/usr/share/doc/osdp/copyright" || fail 'the package does not say what may be done with it'
packages="osdp osdp-page osdp-service libosdp0 libosdp-dev python3-osdp librust-osdp-dev"
inside dpkg --verify $packages
inside sh -c 'ldconfig -p | grep -q "libosdp.so.0 "'
# each goes with those of its own version: the library isn't removed from under the others, nor do they go with an earlier one
for alone in libosdp0 libosdp-dev; do
  chroot "$root" dpkg --remove "$alone" >"$work/said" 2>&1 && { cat "$work/said"; fail "$alone is removed from under what needs it"; }
done
inside dpkg --remove $packages
everything >"$work/removed"
# the services' user and folders stay until the package is purged; of a file of users an earlier form stays beside it
users() { grep -vE '^\./etc/(passwd|group|shadow|gshadow|subuid|subgid)'"$1"' ' "$2"; }
diff <(users '-?' "$work/before") <(users '-?' "$work/removed" | grep -vE '^\./(etc|var/lib)/osdp/$') || fail 'something is left once the packages are removed'
inside dpkg --purge osdp-dev $packages
everything >"$work/after"
diff <(users - "$work/before") <(users - "$work/after") || fail 'something is left once the packages are removed'

exit "$failed"
