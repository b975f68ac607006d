#!/usr/bin/env bash
# `show --raw` of 64 MiB, the longest input, needs no more than 8 MB of memory: packets, noise and refusals in turn. Takes the path of the
# program. What it prints goes nowhere, and its most memory is read from /proc once it has taken all of its input.
exec python3 - "$1" <<'CODE'
import subprocess
import sys

LIMIT = 64 * 2**20
MOST_KIB = 8 * 10**6 // 1024

poll = bytes.fromhex("53000700006046")
text = bytes.fromhex("53001400016B0001000101075300070000604623")
largest = bytes.fromhex("5300A00500") + bytes(1434) + b"\x08"
block = (poll + text + b"\xff" + largest) * 8 + poll[:-1] + b"\x47" + b"\x53\x00"
given = (block * (LIMIT // len(block) + 1))[:LIMIT]

program = subprocess.Popen([sys.argv[1], "show", "--raw"], stdin=subprocess.PIPE, stdout=subprocess.DEVNULL)
program.stdin.write(given)
program.stdin.flush()
with open(f"/proc/{program.pid}/status", encoding="ascii") as lines:
    most = next(int(line.split()[1]) for line in lines if line.startswith("VmHWM:"))
program.stdin.close()
status = program.wait()
print(f"64 MiB: {most} KiB at most, status {status}")
sys.exit(0 if most <= MOST_KIB and status == 1 else 1)
CODE
