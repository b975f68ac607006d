"""What fails at random in the building of `broker.py`: its programs are killed and stopped, its devices lose power, terminals are taken away, and the disks of the stores fail."""
import os
import signal
from pathlib import Path

from broker_programs import DEVICES, moment


class Disk:
    """The disk of a service's store, which fails by `tests/kills.c`: no write succeeds while it is full, nor while it is read-only, and no sync ends while it is stopped."""

    def __init__(self, folder):
        self.folder, self.until = folder, {}

    def file(self, kind):
        """The file that says that the disk fails so."""
        return Path(f"{self.folder}.{kind}")

    def environment(self):
        """By these words `tests/kills.c` finds that out."""
        return {"STORE_FOLDER": str(self.folder), **{f"STORE_{kind.upper()}": str(self.file(kind)) for kind in ("full", "read_only", "stopped")}}

    def fails(self, kind, pause):
        """It fails so for a number of milliseconds."""
        self.file(kind).touch()
        self.until[kind] = moment() + pause

    def looks(self):
        """It is whole again where its time is over."""
        for kind in [kind for kind, until in self.until.items() if moment() >= until]:
            self.file(kind).unlink()
            del self.until[kind]

    def heals(self):
        """It is whole at the next look."""
        self.until = dict.fromkeys(self.until, 0)


def kills_panel(service):
    """Kills the `osdp panel` beside a service."""
    try:
        for tasks in Path(f"/proc/{service.pid}/task").glob("*/children"):
            for number in tasks.read_text().split():
                os.kill(int(number), signal.SIGKILL)
    except (AttributeError, OSError):
        pass  # it isn't there


def kills_line(process, link, pause):
    link.unlink(missing_ok=True)  # else another program may get a terminal of that name
    process.kills(pause)


def faults_of(building, name, pause, stop):
    """What may fail on a line of a building, by its name: what does it. It is so for `pause` milliseconds, or for `stop`, which are more."""
    broker, line, service, disk = building.broker, building.line[name], building.service[name], building.disk[name]
    return {
        "kills broker": lambda: broker.kills(pause),
        "stops broker": lambda: broker.stops(stop),
        "kills service": lambda: service.kills(pause),
        "ends service": service.ends,
        "stops service": lambda: service.stops(stop),
        "kills panel": lambda: kills_panel(service.process),
        "kills line": lambda: kills_line(line, building.work / f"{name}.port", pause),
        "stops line": lambda: line.stops(stop),
        "restarts": lambda: building.says(name, "restart", building.random.randrange(DEVICES)),
        "pulls": lambda: building.says(name, "pull"),
        "fills disk": lambda: disk.fails("full", pause),
        "locks disk": lambda: disk.fails("read_only", stop),
        "stops disk": lambda: disk.fails("stopped", stop),
    }
