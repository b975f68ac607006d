#!/usr/bin/env python3
"""How long `osdp monitor` takes beside `osdp check`, and with moments beside without:
`bench/listening.py [MEGABYTES [ROUNDS [PROGRAM]]]`, 24 and 8 if left out.

The capture is made here: 16 devices are asked in turn each 50 ms, and each answers its POLL by an ACK 10 to 40 ms later. Above each burst stands a comment with its
moment and its way. All packets have a CRC. `plain` is the same capture without these comments. The commands run in turn, and the least of all rounds counts:
processor time of the program and of the system for it. What is printed goes to /dev/null."""
import os
import subprocess
import sys
import tempfile
from pathlib import Path

from packets import packet

OSDP = Path(__file__).resolve().parent.parent / "crates/osdp/out/osdp"
ROUNDS = int(sys.argv[2]) if len(sys.argv) > 2 else 8
SIZE = (int(sys.argv[1]) if len(sys.argv) > 1 else 24) * 1_000_000
PROGRAM = Path(sys.argv[3]) if len(sys.argv) > 3 else OSDP


def capture():
    """Lines with moments, as many as have the size."""
    made, size, turn = [], 0, 0
    packets = {(address, number, code): packet(address, number + 4, bytes([code])).hex().upper() for device in range(16) for number in range(4)
               for address, code in ((device, 0x60), (device + 128, 0x40))}
    while size < SIZE:
        device, number, moment = turn % 16, (turn // 16 - 1) % 3 + 1 if turn >= 16 else 0, 1000 + 50 * turn
        answered = moment + 10 + turn * 7 % 31
        for when, way, text in ((moment, "out", packets[device, number, 0x60]), (answered, "in", packets[device + 128, number, 0x40])):
            made.append(f"# {when // 1000}.{when % 1000:03} {way}\n{text}\n")
            size += len(made[-1])
        turn += 1
    return "".join(made), 2 * turn


def measured(source, words):
    with open(source, "rb") as taken:
        child = subprocess.Popen([PROGRAM, *words], stdin=taken, stdout=subprocess.DEVNULL, stderr=subprocess.DEVNULL)
        _, status, used = os.wait4(child.pid, 0)
    if os.waitstatus_to_exitcode(status) > 1:
        sys.exit(f"osdp {' '.join(words)} failed")
    return used.ru_utime + used.ru_stime


def main():
    if not os.access(PROGRAM, os.X_OK):
        sys.exit(f"no program at {PROGRAM}: run `rt run -- help` in crates/osdp first")
    text, packets = capture()
    with tempfile.TemporaryDirectory() as folder:
        timed, plain = Path(folder, "timed.hex"), Path(folder, "plain.hex")
        timed.write_text(text)
        plain.write_text("".join(line + "\n" for line in text.splitlines() if not line.startswith("#")))
        listen = ["monitor", "--hex"]
        rows = [("plain", plain, ["check"]), ("plain", plain, listen), ("timed", timed, listen), ("timed", timed, [*listen, "--times"])]
        best = [float("inf")] * len(rows)
        for _ in range(ROUNDS):
            best = [min(least, measured(source, words)) for least, (_, source, words) in zip(best, rows)]
        print(f"{packets} packets; with moments {len(text) / 1e6:.1f} MB")
        for (name, source, words), seconds in zip(rows, best):
            print(f"{name} {' '.join(words):24} {1000 * seconds:7.1f} ms {1e9 * seconds / packets:6.1f} ns a packet")
        print(f"monitor beside check {best[1] / best[0]:.2f}, with moments beside without {best[3] / best[2]:.2f}")


if __name__ == "__main__":
    main()
