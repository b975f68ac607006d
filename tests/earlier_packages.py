#!/usr/bin/env python3
"""Makes the two packages that an earlier version had, as it had them: `earlier_packages.py PACKAGES FOLDER`. `osdp` has the program and its pages, and `osdp-dev`
all that programs of makers need, at the same places. Their version is 0.0.9, and each file has another text."""
import os
import subprocess
import sys
import tempfile
from pathlib import Path

MADE, FOLDER = Path(sys.argv[1]), Path(sys.argv[2])
OF = {"osdp": ("osdp",), "osdp-dev": ("libosdp0", "libosdp-dev", "python3-osdp")}
NEEDS = {"osdp": "libc6, python3, python3-serial", "osdp-dev": "libc6"}


def make(name, work):
    """A package with the files of these."""
    root = work / name
    for one in OF[name]:
        subprocess.run(["dpkg-deb", "--extract", next(MADE.glob(f"{one}_*.deb")), root], check=True)
    for file in [it for it in root.rglob("*") if it.is_file()]:
        file.write_text("of an earlier version\n") if "/doc/" not in str(file) else file.unlink()
    (root / "DEBIAN").mkdir()
    (root / "DEBIAN/control").write_text(f"Package: {name}\nVersion: 0.0.9\nArchitecture: amd64\nMaintainer: tests <tests@localhost>\nDepends: {NEEDS[name]}\n"
                                         "Section: electronics\nPriority: optional\nDescription: of an earlier version\n")
    subprocess.run(["dpkg-deb", "--root-owner-group", "--build", root, FOLDER / f"{name}_0.0.9_amd64.deb"], check=True, stdout=subprocess.DEVNULL)


if __name__ == "__main__":
    os.umask(0o022)
    FOLDER.mkdir(parents=True)
    with tempfile.TemporaryDirectory() as folder:
        for each in OF:
            make(each, Path(folder))
