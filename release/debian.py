"""Debian packages of what `./install` lays out: which file is in which of them and where, and what each says of itself. `dpkg-deb` makes them. The same
files give the same bytes: each has the moment of the commit, the owner root and a mode that goes by nobody's umask."""
import gzip
import hashlib
import os
import re
import subprocess
import tempfile
from email.utils import formatdate
from pathlib import Path
from typing import NamedTuple

MAINTAINER = "Vuthrelaw maintainers <maintainers@users.noreply.vuthrelaw.example>"
COPYRIGHT = """Copyright: the makers of Vuthrelaw.
No licence has been chosen yet: read it and try it, and ask its makers before you do anything else with it.
"""
# Python leaves compiled modules in the package's folder
PRERM = "#!/bin/sh\nset -e\nrm -rf /usr/lib/python3/dist-packages/osdp/__pycache__\n"
# The services have a user of their own, who may use ports and has the stores
SERVICE = {
    "postinst": """#!/bin/sh
set -e
if [ "$1" = configure ]; then
    getent passwd osdp >/dev/null || adduser --system --quiet --group --home /var/lib/osdp --no-create-home osdp
    adduser --quiet osdp dialout
    install -d -o osdp -g osdp -m 0750 /var/lib/osdp
    install -d -m 0755 /etc/osdp
    [ ! -d /run/systemd/system ] || systemctl daemon-reload
fi
""",
    "prerm": """#!/bin/sh
set -e
if [ "$1" = remove ] && [ -d /run/systemd/system ]; then
    systemctl stop 'osdp-line@*.service'
fi
""",
    # stores and configurations stay where there are any
    "postrm": """#!/bin/sh
set -e
if [ "$1" = purge ]; then
    for folder in /etc/osdp /var/lib/osdp; do
        [ ! -d "$folder" ] || rmdir --ignore-fail-on-non-empty "$folder"
    done
    if [ ! -d /var/lib/osdp ] && command -v deluser >/dev/null; then
        deluser --quiet --system osdp >/dev/null 2>&1 || true  # a process of its own may be left
    fi
fi
""",
}


class Package(NamedTuple):
    """A package: its name, its section, whether it is of one machine, what it needs, other fields of its control file, and what it says of itself."""

    name: str
    section: str
    is_of_machine: bool
    depends: str
    fields: str
    text: str


# In these `{version}` is that of all packages, and `{libc}` the one of the C library that the program or the library wants. The package `osdp-dev` of
# earlier versions had what the last four have.
TAKES_OVER = "Conflicts: osdp-dev (<< {version})\nReplaces: osdp-dev (<< {version})\n"
PACKAGES = (
    Package("osdp", "electronics", True, "libc6 (>= {libc}), python3, python3-serial", "Suggests: libosdp-dev, osdp-page\n",
            """tools for an OSDP line: access control readers and panels
 osdp shows, checks and makes packets of OSDP (Open Supervised Device Protocol),
 listens to a line, and is a panel or a reader; osdp-port runs it at a port.
 The machines are proved; docs/PROOFS.md below /usr/share/osdp says of what."""),
    Package("osdp-page", "electronics", False, "osdp (= {version}), python3-aiohttp", "",
            """page at an OSDP line: find, set up, try and watch devices in a browser
 osdp-port page prints an address of this computer. There a browser finds the
 devices of a line, sets them up, runs a panel, tests them, and keeps traces."""),
    Package("osdp-service", "electronics", False, "osdp (= {version}), python3-paho-mqtt, adduser", "Suggests: mosquitto\n",
            """OSDP lines as services: orders and events by a broker of MQTT
 osdp-port --config FILE serve is the panel of a line. Orders come from a broker
 of MQTT 5, each by a key and with a time, and outcomes and events go there.
 A unit for systemd runs it for each line. BROKER.md has the topics."""),
    Package("libosdp0", "libs", True, "libc6 (>= {libc})", "",
            """panel and reader of an OSDP line: shared library
 The machines of a panel, of a device and of a listener on a line of OSDP (Open
 Supervised Device Protocol), for programs that were linked with them."""),
    Package("libosdp-dev", "libdevel", True, "libosdp0 (= {version})", "Recommends: osdp (= {version})\n" + TAKES_OVER + "Provides: osdp-dev (= {version})\n",
            """panel and reader of an OSDP line: for programs in C
 The header, the archive, what pkg-config and CMake find it by, heaps to choose
 from, and the examples in C. An archive is linked where no other is asked for."""),
    Package("python3-osdp", "python", False, "python3, libosdp0 (= {version})", TAKES_OVER,
            """panel and reader of an OSDP line: for programs in Python
 The package osdp for Python 3 over the shared library, and its examples."""),
    Package("librust-osdp-dev", "rust", False, "libosdp-dev (= {version}), pkgconf", TAKES_OVER,
            """panel and reader of an OSDP line: for programs in Rust
 The source of the crate osdp, where Cargo finds the crates of this system. It
 links the archive of libosdp-dev."""),
)
# The beginning of a name as it is laid out, the package that has the file, and what stands below / in place of that beginning. The first that fits holds;
# no package has the files without one: the shared library and the archive have their places already.
PLACES = (
    ("bin/", "osdp", "usr/bin/"),
    ("share/man/", "osdp", "usr/share/man/"),
    ("share/bash-completion/", "osdp", "usr/share/bash-completion/"),
    ("share/zsh/site-functions/", "osdp", "usr/share/zsh/vendor-completions/"),
    ("include/", "libosdp-dev", "usr/include/"),
    ("lib/libosdp.so.0", "libosdp0", "usr/lib/libosdp.so.0"),
    ("lib/", "libosdp-dev", "usr/lib/"),
    ("share/osdp/c/", "libosdp-dev", "usr/share/osdp/c/"),
    ("share/osdp/examples/c/", "libosdp-dev", "usr/share/osdp/examples/c/"),
    ("share/osdp/python/osdp/libosdp.so.0", None, ""),
    ("share/osdp/python/osdp/", "python3-osdp", "usr/lib/python3/dist-packages/osdp/"),
    ("share/osdp/python/", "python3-osdp", "usr/share/osdp/python/"),
    ("share/osdp/rust/lib/", None, ""),
    ("share/osdp/rust/", "librust-osdp-dev", "usr/share/cargo/registry/osdp-{version}/"),
    ("share/osdp/port/osdp_port/page/", "osdp-page", "usr/share/osdp/port/osdp_port/page/"),
    ("share/osdp/port/osdp_port/serve/", "osdp-service", "usr/share/osdp/port/osdp_port/serve/"),
    ("share/osdp/service/osdp-line@.service", "osdp-service", "lib/systemd/system/osdp-line@.service"),
    ("share/osdp/service/", "osdp-service", "usr/share/osdp/service/"),
    ("share/osdp/", "osdp", "usr/share/osdp/"),
)


def place_of(name, version):
    """The package that has a file, and its name there."""
    for beginning, package, place in PLACES:
        if name.startswith(beginning):
            return package, place.format(version=version) + name[len(beginning):]
    raise ValueError(f"no package has {name}")


def stripped(data):
    """A program or a shared library without the names that only a debugger reads."""
    if not data.startswith(b"\x7fELF"):
        return data
    with tempfile.NamedTemporaryFile() as file:
        file.write(data)
        file.flush()
        subprocess.run(["strip", "--strip-unneeded", file.name], check=True)
        return Path(file.name).read_bytes()


def files_of(every, version, says, moment):
    """The files of each package, by its name: pairs of bytes and a mode. Each says of what it is made."""
    found = {package.name: {} for package in PACKAGES}
    for name, (data, mode) in every.items():
        package, place = place_of(name, version)
        if package and place.startswith("usr/share/man/"):
            place, data = f"{place}.gz", gzip.compress(data, 9, mtime=0)
        if package:
            found[package][place] = (stripped(data), mode)
    found["librust-osdp-dev"][f"usr/share/cargo/registry/osdp-{version}/.cargo-checksum.json"] = (b'{"files":{},"package":null}\n', 0o644)
    for name, files in found.items():
        changes = f"{name} ({version}) unstable; urgency=low\n\n  * What this version has is told by the pages of its commit.\n\n -- {MAINTAINER}  {formatdate(moment)}\n"
        for page, text in (("RELEASE", says), ("copyright", COPYRIGHT), ("changelog.gz", changes)):
            data = text.encode()
            files[f"usr/share/doc/{name}/{page}"] = (gzip.compress(data, 9, mtime=0) if page.endswith(".gz") else data, 0o644)
    return found


def libc_wanted(program):
    """The version of the C library that a program wants."""
    found = {tuple(map(int, each.split(b"."))) for each in re.findall(rb"GLIBC_(\d+\.\d+)", program)}
    return ".".join(map(str, max(found, default=(2, 1))))


def control_of(package, files, version):
    """The text of its control file."""
    machine = max((data for data, _ in files.values() if data.startswith(b"\x7fELF")), key=len, default=b"")
    known = {"version": version, "libc": libc_wanted(machine)}
    size = sum((len(data) + 1023) // 1024 for data, _ in files.values())
    return (f"Package: {package.name}\nVersion: {version}\nArchitecture: {'amd64' if package.is_of_machine else 'all'}\nMaintainer: {MAINTAINER}\n"
            f"Installed-Size: {size}\nDepends: {package.depends.format(**known)}\n{package.fields.format(**known)}"
            f"Section: {package.section}\nPriority: optional\nDescription: {package.text}\n")


def control_files(package, files, version):
    """The files of its folder DEBIAN: pairs of bytes and a mode."""
    sums = "".join(f"{hashlib.md5(data).hexdigest()}  {name}\n" for name, (data, _) in sorted(files.items()))
    found = {"control": (control_of(package, files, version).encode(), 0o644), "md5sums": (sums.encode(), 0o644)}
    if package.name == "libosdp0":
        found["shlibs"] = (f"libosdp 0 libosdp0 (>= {version})\n".encode(), 0o644)
        found["triggers"] = (b"activate-noawait ldconfig\n", 0o644)
    if package.name == "osdp-service":
        found |= {name: (text.encode(), 0o755) for name, text in SERVICE.items()}
    if package.name == "python3-osdp":
        found["prerm"] = (PRERM.encode(), 0o755)
    return found


def lay_out(root, files, moment):
    """Writes files below a folder, each with its mode, and all with one moment."""
    for name, (data, mode) in files.items():
        (root / name).parent.mkdir(parents=True, exist_ok=True)
        (root / name).write_bytes(data)
        (root / name).chmod(mode)
    for path in [root, *root.rglob("*")]:
        if path.is_dir():
            path.chmod(0o755)
        os.utime(path, (moment, moment))


def build(work, every, version, says, moment):
    """Makes the packages in a folder of work. The bytes of each, by its name."""
    made = {}
    for name, files in files_of(every, version, says, moment).items():
        package = next(one for one in PACKAGES if one.name == name)
        root, target = work / name, work / f"{name}_{version}_{'amd64' if package.is_of_machine else 'all'}.deb"
        root.mkdir()
        lay_out(root, files | {f"DEBIAN/{each}": what for each, what in control_files(package, files, version).items()}, moment)
        words = ["dpkg-deb", "--root-owner-group", "--uniform-compression", "-Zgzip", "-z9", "--build", root, target]
        subprocess.run(words, check=True, stdout=subprocess.DEVNULL, env=os.environ | {"SOURCE_DATE_EPOCH": str(moment)})
        made[target.name] = target.read_bytes()
    return made
