#!/usr/bin/env python3
"""One seeded session (`tests/reach/session.c`) over the proved archive on 64-bit x86, and over the archives that `tools/retarget` lowers from it: for a Cortex-M4
and a Cortex-M0 in `qemu-system-arm`, for 32-bit RISC-V and 64-bit ARM in `qemu-user`, for 32-bit x86, and for WebAssembly in node. Each must print the same
counts and the same hash. Then one pair of the module is left as it was, and the session must not come out the same: so the lowering is needed, and seen.

Each place that was changed is tried by itself too (`tests/reach_places.py`). The archive for 64-bit x86 and its module are those that `c.sh` has built."""
import os
import shutil
import subprocess
import sys
import tempfile
import time
from concurrent.futures import ThreadPoolExecutor
from pathlib import Path

TOP = Path(__file__).resolve().parent.parent
sys.path.insert(0, str(TOP / "tools/retargeting"))
import kept  # noqa: E402
from targets import TARGETS, clang, compiles  # noqa: E402

REACH = TOP / "tests/reach"
POOL = "-DOSDP_POOL=262144"
C = ["-std=c11", "-Wall", "-Wextra", "-Werror", f"-I{TOP / 'include'}", f"-isystem{TOP / 'tools/retargeting/freestanding'}"]
# What each target's session is made of beside session.c, how it is linked, and what runs it
CORTEX = ["-T", str(REACH / "cortex.ld")]
EMULATED = ["qemu-system-arm", "-M", "mps2-an386", "-nographic", "-monitor", "none", "-serial", "null"]
EMULATED += ["-chardev", "stdio,id=said", "-semihosting-config", "enable=on,target=native,chardev=said", "-kernel"]
RUNS = {
    "i686": (["linux.c", "../../examples/firmware/memory.c"], "ld.lld", ["-m", "elf_i386"], ["qemu-i386"]),
    "wasm32": (["wasm.c", "../../examples/firmware/memory.c"], "wasm-ld", ["--no-entry", "-z", "stack-size=131072"], ["node", str(REACH / "wasm.js")]),
    "thumbv7em": (["cortex.c", "../../examples/firmware/memory.c"], "ld.lld", CORTEX, EMULATED),
    "thumbv6m": (["cortex.c", "../../examples/firmware/memory.c", "helpers.c"], "ld.lld", CORTEX, EMULATED),
    "riscv32": (["linux.c", "../../examples/firmware/memory.c"], "ld.lld", [], ["qemu-riscv32"]),
    "aarch64": (["linux.c", "../../examples/firmware/memory.c"], "ld.lld", [], ["qemu-aarch64"]),
}


def run(words, seconds=240):
    ran = subprocess.run([str(word) for word in words], capture_output=True, text=True, timeout=seconds)
    if ran.returncode != 0:
        sys.exit(f"reach: {' '.join(map(str, words[:6]))} ..: status {ran.returncode}: {ran.stderr.strip()[-2000:]}")
    return ran.stdout


def link(kit, name, over, work, session="session.c", heap=(TOP / "c/heap_pool.c",)):
    """The session of a target as a program, over an archive or objects."""
    files, linker, words, _ = RUNS[name]
    objects = []
    for source in [REACH / session, *(REACH / one for one in files), *heap]:
        objects.append(work / f"{name}.{source.stem}.o")
        run([*compiles(kit, TARGETS[name]), "-fno-builtin", *C, POOL, "-c", source, "-o", objects[-1]])
    program = work / name
    run([*clang(kit, linker), *words, "--gc-sections", "-o", program, *objects, *over])
    return program


def native(work):
    """The session over the proved archive, by the system's compiler."""
    program = work / "x86-64"
    sources = [REACH / "session.c", REACH / "host.c", TOP / "c/heap_pool.c"]
    run([os.environ.get("CC", "cc"), *C[:5], POOL, "-O2", "-o", program, *sources, kept.OUT / "libosdp_c.a"])
    return run([program])


def emulated(name, program):
    """What the session of a target prints."""
    return run([*RUNS[name][3], program])


def made(kit, name, work):
    """The session of a target, once its archive is lowered, and how long it took."""
    began = time.monotonic()
    run([TOP / "tools/retarget", "--module", kept.MODULE, "--to", work, name])
    said = emulated(name, link(kit, name, [work / f"libosdp_{name}.a"], work))
    return name, said, time.monotonic() - began


def is_seen(kit, wanted, work, one):
    """Whether a module with this pair left as it was comes out otherwise, on a target where a pair has another layout."""
    run([TOP / "tools/retarget", "--module", kept.MODULE, "--to", work, "--leave-one", one, "i686"])
    program = link(kit, "i686", [work / "libosdp_i686.a"], work)
    try:
        ran = subprocess.run([*RUNS["i686"][3], program], capture_output=True, text=True, timeout=120)
    except subprocess.TimeoutExpired:
        return True
    return ran.returncode != 0 or ran.stdout != wanted


# Pairs of a number and a pointer, of which a session goes through some: `retarget` counts the pairs from 0 on.
LEFT = range(12)


def main():
    missing = sorted({one[3][0] for one in RUNS.values() if shutil.which(one[3][0]) is None})
    if missing:
        sys.exit(f"reach: {', '.join(missing)} is missing")
    kit = kept.kit()
    kept.module()
    with tempfile.TemporaryDirectory() as folder:
        work = Path(folder)
        wanted = native(work)
        print(f"x86-64: {wanted}", end="")
        with ThreadPoolExecutor(2) as pool:
            found = list(pool.map(lambda name: made(kit, name, work), RUNS))
        for name, said, seconds in found:
            print(f"{name}: {said.strip()} ({seconds:.0f} s)")
        others = [name for name, said, _ in found if said != wanted]
        if others:
            sys.exit(f"reach: {', '.join(others)}: another session than on x86-64")
        if not any(is_seen(kit, wanted, work, one) for one in LEFT):
            sys.exit("reach: pairs were left as they were, one at a time, and nobody saw it")
    print(f"the same on {len(found) + 1} targets; one pair left as it was is seen")
    return 0


if __name__ == "__main__":
    sys.exit(main())
