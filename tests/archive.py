#!/usr/bin/env python3
"""Builds crates/osdp_c/out/libosdp_c.a, as `rt lib` does, over the libraries that `rt ci` has left in the out/ of the crates below, and leaves the module that is
compiled beside it, `module.bc`, for `tools/retarget`.

`rt ci` keeps of a library what the crates above it need, and `rt lib` would prove each of these libraries once more, which takes half an hour of a processor.
So this is the last of the commands that `rt lib` runs: it proves `osdp_c` and compiles it. Where a check or `rt lib` has left the libraries, or where one of them
isn't there, `rt lib` itself is run before: it is quick in the first case, and nothing else can be done in the second."""
import subprocess
import sys
import tempfile
from pathlib import Path

TOP = Path(__file__).resolve().parent.parent
NAME = "osdp_c"
FOLDER = TOP / "crates" / NAME
sys.path.insert(0, str(TOP / "tools/retargeting"))
import kept  # noqa: E402


def uses():
    """The libraries that each crate of crates.txt names."""
    lines = [line.split("#")[0].split(":") for line in (TOP / "crates.txt").read_text().splitlines()]
    return {line[0].split()[0]: line[1].split() for line in lines if len(line) == 2}


def below(crate, named):
    """The repository's crates below a crate."""
    return {found for one in named[crate] if one in named for found in [one, *below(one, named)]}


def library(crate):
    return TOP / f"crates/{crate}/out/rlib/{crate}.rlib"


def words(kit, named, toolchain):
    """What `rattle build` is told."""
    found = ["--crate-name", NAME, "src/lib.rt", "--crate-type", "staticlib", "--links", f"{NAME}="]
    for one in ["std", *named[NAME]]:
        found += ["--extern", f"{one}={library(one) if one in named else kit / 'rlibs' / f'{one}.rlib'}"]
    for folder in [kit / "rlibs", *(library(one).parent for one in sorted(below(NAME, named)))]:
        found += ["-L", f"dependency={folder}"]
    found += ["--antt-project", kit / "rattle/logic/antt-project.json", "--logic-built", kit / "logic_built"]
    return found + ["--incremental", "out/incremental", "--jobs", "2", "--toolchain", toolchain, "--backend", "llvm", "-o", "out/libosdp_c.a"]


def main():
    named = uses()
    libraries = [library(one) for one in below(NAME, named)]
    if any((one.parent / "stamp").exists() for one in libraries) or not all(one.exists() for one in libraries):
        status = subprocess.run(["rt", "lib"], cwd=FOLDER).returncode
        if status != 0:
            return status
    kit = kept.kit()
    (FOLDER / "out").mkdir(exist_ok=True)
    with tempfile.TemporaryDirectory(prefix="toolchain-") as folder:
        toolchain = kept.toolchain(kit, Path(folder))
        return subprocess.run([kit / "bin/rattle", "build", *words(kit, named, toolchain)], cwd=FOLDER).returncode


if __name__ == "__main__":
    sys.exit(main())
