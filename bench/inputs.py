#!/usr/bin/env python3
"""Makes the inputs of the bench in a folder: `inputs.py FOLDER MEGABYTES`. Each NAME.raw has its twin NAME.hex
(lines of digits, of about as many characters as the raw one has bytes)."""
import pathlib
import random
import sys

from packets import packet

folder = pathlib.Path(sys.argv[1])
size = int(sys.argv[2]) * 1000 * 1000

chance = random.Random(2026)
small = [packet(n % 126, n % 3 + 1 + kind, b"\x60") for n in range(64) for kind in (0, 4)]
small += [packet(128 + n % 126, n % 3 + 1 + kind, b"\x40") for n in range(64) for kind in (0, 4)]
large = [packet(n % 126, n % 3 + 1 + 4, b"\x01" + bytes(chance.randrange(256) for _ in range(1432))) for n in range(8)]
noise = [bytes(chance.randrange(256) for _ in range(997)) for _ in range(64)]
parts = {
    "small": small,
    "large": large,
    "noise": noise,
    # Long lines, since the last 1440 bytes of each cost the yardstick nothing.
    "worst-sum": [bytes.fromhex("5305") * 32760],
    "worst-crc": [bytes.fromhex("53535305050504") * 9360],
}
for name, pieces in parts.items():
    raw = bytearray()
    lines = bytearray()
    n = 0
    while len(raw) < size or len(lines) < size:
        piece = pieces[n % len(pieces)]
        if len(raw) < size:
            raw += piece
        if len(lines) < size:
            lines += piece.hex().upper().encode() + b"\n"
        n += 1
    (folder / (name + ".raw")).write_bytes(raw[:67108864])
    (folder / (name + ".hex")).write_bytes(lines[: lines.rfind(b"\n", 0, 67108864) + 1])
