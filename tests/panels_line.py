#!/usr/bin/env python3
"""`osdp-port .. test panel 5` against `osdp-port .. panel 5` over two pseudo terminals: all rules are kept, and over a line that loses each tenth burst none is
broken. Takes the path of the program."""
import os
import pty
import random
import re
import select
import subprocess
import sys
import threading
import time
import tty
from pathlib import Path

TOP = Path(__file__).resolve().parent.parent
PORT = ["/usr/bin/python3", str(TOP / "port/osdp-port")]


def carry(ends, loses):
    """What comes at one end goes out at the other, but so many of a hundred bursts."""
    ways, dice = {ends[0][0]: ends[1][0], ends[1][0]: ends[0][0]}, random.Random(3)
    while True:
        for end in select.select(list(ways), [], [])[0]:
            came = os.read(end, 4096)
            if dice.randrange(100) >= loses:
                os.write(ways[end], came)


def tested(program, loses):
    """The status and the lines of a test of our panel, which is given orders meanwhile."""
    ends = [pty.openpty(), pty.openpty()]
    for end in (end for pair in ends for end in pair):
        tty.setraw(end)
    threading.Thread(target=carry, args=(ends, loses), daemon=True).start()
    device, line = (os.ttyname(pair[1]) for pair in ends)
    panel = subprocess.Popen([*PORT, line, "9600", "panel", "5", "--osdp", program], stdin=subprocess.PIPE, stdout=subprocess.DEVNULL, stderr=subprocess.DEVNULL)

    def orders():
        while panel.poll() is None:
            time.sleep(0.7)
            try:
                panel.stdin.write(b"5 led green\n")
                panel.stdin.flush()
            except OSError:
                return
    threading.Thread(target=orders, daemon=True).start()
    try:
        time.sleep(1)
        done = subprocess.run([*PORT, device, "9600", "test", "panel", "5", "--osdp", program], capture_output=True, text=True, timeout=150)
    finally:
        panel.kill()
    return done


def main():
    program, failed = str(Path(sys.argv[1]).resolve()), 0
    for loses, least in ((0, 33), (10, 20)):
        done = tested(program, loses)
        lines = done.stdout.splitlines()
        counts = re.fullmatch(r"rules 37 ok (\d+) otherwise (\d+) broken 0 unclear (\d+) skipped (\d+)", lines[-1] if lines else "")
        early = f"osdp-port: {lines[7]}" if len(lines) > 7 else ""  # the verdict on rule 8 was told as it fell
        is_told = loses or early in done.stderr.splitlines()
        if done.returncode != 0 or counts is None or int(counts[1]) + int(counts[2]) < least or not is_told:
            print(f"panels_line, {loses} losses of 100: status {done.returncode}", *lines, done.stderr, sep="\n")
            failed = 1
        else:
            print(f"over pseudo terminals, {loses} losses of 100: {lines[-1]}")
    return failed


if __name__ == "__main__":
    sys.exit(main())
