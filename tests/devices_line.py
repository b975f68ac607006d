#!/usr/bin/env python3
"""`osdp-port .. test device 5` against `osdp-port .. reader 5` over two pseudo terminals: no rule is broken, what needs --may is left out, and the monitor
accuses it of nothing. It does accuse a wrong device, which is served by devices.py.
Takes the path of the program."""
import os
import pty
import re
import select
import subprocess
import sys
import threading
import time
import tty
from pathlib import Path

TOP = Path(__file__).resolve().parent.parent
PORT = ["/usr/bin/python3", str(TOP / "port/osdp-port")]
ENDS = [pty.openpty(), pty.openpty()]
LAST = re.compile(r"the monitor accuses the device \d+ times: .*a number out of turn was taken \(standard\) \d+.*")
RUNS = 4  # how often our own reader is tested while the machine lets it come late


def carry():
    """What comes at one end goes out at the other."""
    ways = {ENDS[0][0]: ENDS[1][0], ENDS[1][0]: ENDS[0][0]}
    while True:
        for end in select.select(list(ways), [], [])[0]:
            os.write(ways[end], os.read(end, 4096))


def tested(program, device, streams):
    """The lines of the report on a device at the reader's end, and what came of the test."""
    served = subprocess.Popen(device, stderr=subprocess.DEVNULL, **streams)
    try:
        time.sleep(1)
        done = subprocess.run([*PORT, os.ttyname(ENDS[0][1]), "9600", "test", "device", "5", "--osdp", program], capture_output=True, text=True, timeout=120)
    finally:
        served.kill()
        served.wait()
    return done.stdout.splitlines(), done


def was_late(lines):
    """Whether nothing is wrong but that an answer came after 200 ms, as where the machine gives the reader no turn."""
    broken = [line for line in lines if re.match(r"\d+ broken: ", line)]
    return len(broken) == 1 and broken[0].startswith("85 broken: each answer of the run begins within 200 ms")


def ours(program):
    """Whether our own reader breaks no rule, and the monitor accuses it of nothing."""
    reader = [*PORT, os.ttyname(ENDS[1][1]), "9600", "reader", "5", "cap", "1:1:0", "cap", "2:1:8", "cap", "10:160:5", "cap", "13:0:0", "--osdp", program]
    for _ in range(RUNS):
        lines, done = tested(program, reader, {"stdin": subprocess.PIPE, "stdout": subprocess.DEVNULL})
        if not was_late(lines):
            break
        print("devices_line: an answer of our own reader came late: the machine is too busy")
    counts = re.fullmatch(r"rules 107 ok (\d+) otherwise (\d+) broken 0 unclear (\d+) skipped \d+", lines[-1] if lines else "")
    if done.returncode != 0 or counts is None or int(counts[1]) < 50 or "40 ok: POLL is not refused" not in lines or "the monitor" in done.stdout:
        print(f"devices_line: status {done.returncode}", *lines, done.stderr, sep="\n")
        return False
    print(f"over pseudo terminals: {lines[-1]}")
    return True


def taken(program):
    """Whether the monitor accuses a device that takes any number, below the verdict on the rule."""
    device = [sys.executable, "-B", str(TOP / "tests/devices.py"), "--serve", "TakesAnyNumber"]
    lines, done = tested(program, device, {"stdin": ENDS[1][1], "stdout": ENDS[1][1]})
    wanted = "  the monitor accuses the device: a number out of turn was taken (standard)"
    broken = [place for place, line in enumerate(lines) if line.startswith("26 broken: ")]
    if done.returncode != 1 or not broken or wanted not in lines[broken[0] + 4:broken[0] + 6] or lines.count(wanted) < 5 or not LAST.fullmatch(lines[-1]):
        print(f"devices_line: status {done.returncode}", *lines, done.stderr, sep="\n")
        return False
    print(f"a device that takes any number: the monitor accuses it {lines.count(wanted)} times")
    return True


def main():
    program = str(Path(sys.argv[1]).resolve())
    for end in (end for pair in ENDS for end in pair):
        tty.setraw(end)
    threading.Thread(target=carry, daemon=True).start()
    return 0 if ours(program) & taken(program) else 1


if __name__ == "__main__":
    sys.exit(main())
