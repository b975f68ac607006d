"""The line of `osdp-port --demo page`: two readers of this repository at a pseudo terminal, in a process of their own (`demo_line`)."""
import json
import os
import sys
import threading
from pathlib import Path

from ..program import start


class Demo:
    """Starts the line. `path` is the port of the panel's end; `tells` gets what the readers do."""

    rate, addresses = 9600, [5, 6]

    def __init__(self, osdp):
        folder = str(Path(__file__).resolve().parent.parent.parent)
        self.process = start(sys.executable, ["-m", "osdp_port.page.demo_line", osdp], env={**os.environ, "PYTHONPATH": folder, "PYTHONDONTWRITEBYTECODE": "1"})
        self.path = self.process.stdout.readline().decode().strip()
        self.tells = lambda kind, **what: None
        threading.Thread(target=self.reads, daemon=True).start()

    def reads(self):
        for line in self.process.stdout:
            self.tells("demo", **json.loads(line))

    def takes(self, command):
        """Something that a person does at the line: a card, keys, power, losses."""
        try:
            self.process.stdin.write(json.dumps(command).encode() + b"\n")
            self.process.stdin.flush()
        except OSError:
            pass  # it has ended

    def ends(self):
        try:
            self.process.stdin.close()
        except OSError:
            pass
        self.process.terminate()
        try:
            self.process.wait(3)
        except Exception:  # noqa: BLE001  it ends in any case
            self.process.kill()
