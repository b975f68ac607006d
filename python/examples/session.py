#!/usr/bin/env python3
"""A panel and a device in memory, in time that this program sets: a session opens, an order is done, and an
event is told."""
import sys
from pathlib import Path

sys.path.insert(0, str(Path(__file__).resolve().parent.parent))

try:
    import osdp  # noqa: E402
except ImportError as error:
    sys.exit(str(error))


def panel_turn(panel, heard, now):
    """The panel hears what has come, and tells its reports. What it has to say."""
    panel.hear(heard, now)
    for report in panel.reports():
        print(f"{report.kind.name}: {report.command} {report.reply}")
    return panel.write(now) if panel.tick(now) else b""


def device_turn(device, heard, now):
    """The device hears what has come, and does what is ordered. What it has to say."""
    said = b""
    for answer in device.hear(heard, now):
        if answer.order is osdp.Order.ONCE:
            print("done:", answer.command)
        said += answer.data
    return said


def main():
    with osdp.Panel() as panel, osdp.Device(5, vendor=b"SIM", serial=1) as device:
        device.set_outputs(bytes(2))
        door, heard = panel.add(5), b""
        panel.begin(door, 0)
        panel.submit(door, "OUT 0:5:30", until=5000)
        device.event("KEYPAD 0 31")
        for now in range(0, 1000, 50):
            heard = device_turn(device, panel_turn(panel, heard, now), now)


if __name__ == "__main__":
    main()
