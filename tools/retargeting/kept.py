"""The proved module: the text of LLVM that the toolchain hands to its clang when it builds crates/osdp_c.

The toolchain doesn't say where the module is. So it is given a folder as its own, in which `clang` keeps its input before it goes on as ever."""
import subprocess
import sys
from pathlib import Path

from targets import clang

TOP = Path(__file__).resolve().parent.parent.parent
OUT = TOP / "crates/osdp_c/out"
MODULE = OUT / "module.bc"
KEEPS = """#!/usr/bin/env bash
# keeps the module that is compiled, and compiles it
for word in "$@"; do
  case $word in *.bc) cp "$word" '{module}' ;; esac
done
exec -a clang '{clang}' "$@"
"""


def kit():
    """The toolchain's folder."""
    page = subprocess.run(["rt", "doc"], check=True, capture_output=True, text=True).stdout
    return Path(page.strip()).parent


def toolchain(kit_folder, made):
    """Makes an empty folder as the toolchain's, whose clang keeps the module. It has links, which the gate refuses in the tree, so it stands elsewhere."""
    theirs = kit_folder / "toolchain"
    (made / "bin").mkdir()
    for name, to in [("lib", theirs / "lib"), *((f"bin/{one.name}", one) for one in (theirs / "bin").iterdir() if one.name != "clang")]:
        (made / name).symlink_to(to)
    (made / "bin/clang").write_text(KEEPS.format(module=MODULE, clang=theirs / "bin/clang"))
    (made / "bin/clang").chmod(0o755)
    return made


def is_current():
    """Whether the module that was kept is no older than any source from which it is built."""
    sys.path.insert(0, str(TOP / "tests"))
    import archive

    named = archive.uses()
    folders = [TOP / "crates" / one for one in ["osdp_c", *archive.below("osdp_c", named)]]
    sources = [one for folder in folders for part in ("src", "specs", "proofs") for one in (folder / part).rglob("*") if one.is_file()]
    return MODULE.exists() and all(one.stat().st_mtime <= MODULE.stat().st_mtime for one in sources)


def module():
    """The bytes of the module, which is proved and built where it isn't there or isn't current."""
    if not is_current():
        MODULE.unlink(missing_ok=True)
        subprocess.run([sys.executable, TOP / "tests/archive.py"], check=True)
    return MODULE


def text(kit_folder, module_file):
    """The module as text, unchanged."""
    words = ["-S", "-emit-llvm", "-x", "ir", module_file, "-O0", "-Xclang", "-disable-llvm-passes", "--target=x86_64-unknown-linux-gnu", "-o", "-"]
    return subprocess.run([*clang(kit_folder), *words], check=True, capture_output=True, text=True).stdout
