"""The crates of this checkout, and the toolchain's own module of them."""
import functools
import importlib.machinery
import importlib.util
import os
import subprocess
import sys

TOP = os.path.dirname(os.path.dirname(os.path.dirname(os.path.abspath(__file__))))


@functools.cache
def kit():
    """The toolchain's own module of its crates. A crate's stamp is worked out once: else the files of those below are read once for each way down to them."""
    page = subprocess.run(["rt", "doc"], check=True, stdout=subprocess.PIPE, text=True).stdout
    loader = importlib.machinery.SourceFileLoader("rtlib", f"{os.path.dirname(page.strip())}/bin/rtlib.py")
    made = importlib.util.module_from_spec(importlib.util.spec_from_loader("rtlib", loader))
    sys.modules["rtlib"] = made
    loader.exec_module(made)
    stamps, works_out = {}, made.Crate.stamp

    def stamp(crate):
        if crate.folder not in stamps:
            stamps[crate.folder] = works_out(crate)
        return stamps[crate.folder]

    made.Crate.stamp = stamp
    return made


def uses():
    """The crates of the tree that each crate uses, by crates.txt."""
    rows = {}
    with open(f"{TOP}/crates.txt", encoding="utf-8") as file:
        for row in file:
            name, _, used = row.partition("#")[0].partition(":")
            if name.split():
                rows[name.split()[0]] = used.split()
    return {name: [it for it in used if it in rows] for name, used in rows.items()}
