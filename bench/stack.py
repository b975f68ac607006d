#!/usr/bin/env python3
"""How much stack the calls of the archive for C take at most: `bench/stack.py [CALL..]`, every call of the header if left out.

It reads what `objdump -dr` shows of the archive that `rt lib` leaves in crates/osdp_c. For each call it prints the sum along the
deepest chain of functions: what each takes, and 8 bytes for each call. A function that takes much of it takes it page by page, in a loop up to a mark.
The C library and the heap are left out."""
import functools
import os
import re
import subprocess
import sys

TOP = os.path.dirname(os.path.dirname(os.path.realpath(__file__)))
ARCHIVE = f"{TOP}/crates/osdp_c/out/libosdp_c.a"
HEAD = re.compile(r"^[0-9a-f]+ <(.+)>:$")
PUSHED = re.compile(r"\tpush ")
TAKEN = re.compile(r"\tsub\s+\$0x([0-9a-f]+),%(rsp|r11)")
CALLED = re.compile(r"R_X86_64_(?:PLT32|PC32)\s+(?:\.text\.)?(\S+?)(?:-0x4)?$")


def functions():
    """Returns what each function of the archive takes, and which it calls."""
    shown = subprocess.run(["objdump", "-dr", "--no-show-raw-insn", ARCHIVE], capture_output=True, text=True, check=True).stdout
    takes, calls, name, in_pages = {}, {}, None, False
    for line in shown.split("\n"):
        if head := HEAD.match(line):
            name = head[1]
            takes[name], calls[name] = 0, set()
        elif name is not None:
            taken = TAKEN.search(line)
            if taken and in_pages:
                taken, in_pages = None, False  # a page of what is counted already
            elif taken:
                in_pages = taken[2] == "r11"
            takes[name] += 8 * bool(PUSHED.search(line)) + (int(taken[1], 16) if taken else 0)
            if called := CALLED.search(line):
                calls[name].add(called[1])
    return takes, calls


def main():
    if not os.path.isfile(ARCHIVE):
        sys.exit(f"no archive at {ARCHIVE}: run `rt lib` in crates/osdp_c first")
    takes, calls = functions()

    @functools.cache
    def deepest(name):
        return takes[name] + 8 + max((deepest(it) for it in calls[name] if it in takes and it != name), default=0)

    for name in sorted(takes):
        call = name.removesuffix("_nonnull")
        if call.startswith("osdp_") and "::" not in call and (call in sys.argv[1:] or len(sys.argv) == 1):
            print(f"{call:32} {deepest(name):6} bytes")


main()
