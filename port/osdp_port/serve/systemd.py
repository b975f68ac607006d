"""What systemd is told: that the service is ready, and that its turns go on. By the protocol of sd_notify."""
import os
import socket
import time

EACH = 1.0  # so many seconds lie between two words to the watchdog


class Manager:
    """The service manager; nobody where the environment names none."""

    def __init__(self, environment=os.environ):
        path = environment.get("NOTIFY_SOCKET", "")
        self.address = f"\0{path[1:]}" if path.startswith("@") else path
        self.socket = socket.socket(socket.AF_UNIX, socket.SOCK_DGRAM) if path else None
        if self.socket:
            self.socket.setblocking(False)  # the line doesn't wait for a manager that doesn't listen
        self.told = -EACH

    def tells(self, text):
        if self.socket:
            try:
                self.socket.sendto(text.encode(), self.address)
            except OSError:
                pass  # whoever doesn't hear it ends the service

    def ready(self):
        self.tells("READY=1")

    def turned(self):
        """A turn of the panel was done, whole."""
        now = time.monotonic()
        if now >= self.told + EACH:
            self.told = now
            self.tells("WATCHDOG=1")
