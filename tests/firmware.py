#!/usr/bin/env python3
"""Builds `examples/firmware/` over the archive that `tools/retarget` makes for a Cortex-M4, and runs it in `qemu-system-arm`: `firmware.py PROGRAM`, the path of
`osdp`. Its line is a port on the network, at which `osdp-port` is the panel; its keys and texts are another. A session opens; an order switches the relay for its
time; a key comes to the panel as an event; an order that may not be done is refused; a COMSET moves the device, which is found at its new address.

Flash, memory and the stack that was used may be no more than docs/SIZES.md says."""
import os
import re
import socket
import subprocess
import sys
import tempfile
import threading
import time
from pathlib import Path

TOP = Path(__file__).resolve().parent.parent
sys.path.insert(0, str(TOP / "tools/retargeting"))
import kept  # noqa: E402

MACHINE = ["qemu-system-arm", "-M", "mps2-an386", "-nographic", "-monitor", "none"]
LIMIT = 60.0


class Heard:
    """What comes out of a program or a port, read beside."""

    def __init__(self, reads):
        self.text = ""
        self.reads = reads
        threading.Thread(target=self.run, daemon=True).start()

    def run(self):
        try:
            for data in iter(self.reads, b""):
                self.text += data.decode(errors="replace")
        except OSError:
            pass  # the port has gone with its program

    def wants(self, words):
        """Waits until a text has come that wasn't there in what was wanted before, and takes all up to its end."""
        end = time.monotonic() + LIMIT
        while words not in self.text:
            if time.monotonic() > end:
                sys.exit(f"firmware: no {words!r} in {self.text!r}")
            time.sleep(0.02)
        self.text = self.text.split(words, 1)[1]


def free_port():
    with socket.socket() as one:
        one.bind(("127.0.0.1", 0))
        return one.getsockname()[1]


def joined(port):
    """A connection to a port of the emulator, once it listens."""
    end = time.monotonic() + LIMIT
    while True:
        try:
            return socket.create_connection(("127.0.0.1", port))
        except OSError:
            if time.monotonic() > end:
                raise
            time.sleep(0.05)


def told(page, name):
    """The bytes that a row of the table of docs/SIZES.md gives."""
    return int(re.search(rf"^\| {name} \| ([\d,]+) \|", page, re.M)[1].replace(",", ""))


def speaks(keys, shown, panel, heard):
    """The session, and how much of the stack it took."""

    def order(line):
        panel.stdin.write(f"{line}\n".encode())
        panel.stdin.flush()

    heard.wants("online 5 ")
    order("5 open 1s")
    shown.wants("relay on\n")
    heard.wants("settled 5 OUT 0:5:10 = ACK")
    shown.wants("relay off\n")
    keys.sendall(b"7")
    heard.wants("event 5 KEYPAD 0 37")
    order("5 OUT 0:2:0")
    heard.wants("settled 5 OUT 0:2:0 = NAK 9")
    order("5 COMSET 9 9600")
    heard.wants("moved 5 COMSET 9 9600 = COM 9 9600")
    heard.wants("online 9 ")
    keys.sendall(b"?")
    shown.wants("stack ")
    shown.wants("\n") if "\n" not in shown.text else None
    return int(shown.text[:5])


def emulated(program, osdp):
    """Runs the firmware with a panel, and gives the stack that it took."""
    line, other = free_port(), free_port()
    serials = [word for port in (line, other) for word in ("-serial", f"tcp:127.0.0.1:{port},server=on,wait=off")]
    machine = subprocess.Popen([*MACHINE, *serials, "-kernel", program])
    panel = None
    try:
        keys = joined(other)
        shown = Heard(lambda: keys.recv(4096))
        words = ["--plain", "--osdp", osdp, f"socket://127.0.0.1:{line}", "9600", "panel", "5", "reply-wait", "1000", "gap", "300"]
        panel = subprocess.Popen([TOP / "port/osdp-port", *words], stdin=subprocess.PIPE, stdout=subprocess.PIPE)
        return speaks(keys, shown, panel, Heard(lambda: os.read(panel.stdout.fileno(), 4096)))
    finally:
        for process in filter(None, (panel, machine)):
            process.kill()
            process.wait()


def main():
    page = (TOP / "docs/SIZES.md").read_text()
    with tempfile.TemporaryDirectory() as folder:
        subprocess.run([TOP / "tools/retarget", "--module", kept.module(), "--to", folder, "thumbv7em"], check=True, stdout=subprocess.DEVNULL)
        said = subprocess.run([TOP / "examples/firmware/build", folder], check=True, capture_output=True, text=True).stdout
        flash, memory, stack = (int(re.search(rf"{name} (\d+)", said)[1]) for name in ("flash", "memory", "stack"))
        used = emulated(Path(folder) / "firmware", sys.argv[1])
    print(f"{said.strip()}; stack used {used}")
    found = {"flash": flash, "memory, all": memory, "of which the stack has": stack, "stack used": used}
    more = [f"{name}: {here}, and docs/SIZES.md says {told(page, name)}" for name, here in found.items() if here > told(page, name)]
    if more or used >= stack:
        sys.exit(f"firmware: {'; '.join(more) or 'the stack is too small'}")
    return 0


if __name__ == "__main__":
    sys.exit(main())
