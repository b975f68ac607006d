"""Panel, device and monitor of an OSDP line, over the machines that are proved in Rattle, for test benches.

What is proved is the shared library; this package is ordinary Python over it, by ctypes. Nothing here reads,
writes, sleeps or keeps a clock: the program reads its port, hands in the bytes and the moment, and writes the
bytes that it is given. Moments and times are whole milliseconds, of any clock that doesn't go backwards.
docs/GUIDE.md says what a panel and a device do, and what each report asks for.

A refused call raises OsdpError, and each docstring names the statuses that it may have. NO_MACHINE is a call
after `close`. A number that the library can't be handed, since it is negative or too great, raises
ValueError.

    panel = osdp.Panel()
    door = panel.add(5)
    panel.begin(door, clock())
    panel.submit(door, "OUT 0:5:30", until=clock() + 5000)
    while True:
        wait_for_bytes(port, panel.next_deadline())
        now = clock()
        panel.hear(port.read_all_that_is_there(), now)
        for report in panel.reports():
            print(report.kind.name, report.number, report.command, report.reply)
        if panel.tick(now):
            port.write(panel.write(clock()))
"""
from ._library import VERSION, OsdpError, Status, library_version
from .device import Answer, Device, Expired, Order, Said
from .message import Card, Message
from .monitor import Monitor, Prints
from .panel import Cause, Kind, Panel, Report

__all__ = [
    "Answer",
    "Card",
    "Cause",
    "Device",
    "Expired",
    "Kind",
    "Message",
    "Monitor",
    "Order",
    "OsdpError",
    "Panel",
    "Prints",
    "Report",
    "Said",
    "Status",
    "library_version",
]
__version__ = VERSION
