"""The figures of a capture as lines, for a program to read: an object of JSON a line."""
import json
import re

from .figures import rank
from .pace import in_use


def whole(time):
    """Seconds as whole milliseconds."""
    return round(time * 1000)


def told(figures):
    for each in figures.told:
        at = figures.places.get((each.run, each.place))
        lines = dict(line.split(None, 1) for line in each.lines)
        yield {
            "kind": "told",
            "run": each.run,
            "place": each.place,
            "party": each.party,
            "address": each.address,
            "text": each.text,
            "stamp": None if at is None else figures.packets[at].stamp,
            "expected": lines.get("expected"),
            "seen": lines.get("seen"),
        }


def late(figures):
    for address, times in figures.late():
        for took, waited in times:
            yield {"kind": "late", "address": address, "took": whole(took), "waited": whole(waited)}


def times_of(device):
    times = sorted(device.times)
    if not times:
        return None
    return {
        "count": len(times),
        "least": whole(times[0]),
        "median": whole(rank(times, 50)),
        "of_95": whole(rank(times, 95)),
        "greatest": whole(times[-1]),
    }


def devices(figures):
    for device in figures.rows():
        heard = device.heard
        yield {
            "kind": "device",
            "address": device.address,
            "asked": device.asked,
            "answered": device.answered,
            "repeats": device.repeats,
            "damaged": device.damaged,
            "events": device.events,
            "orders": device.orders,
            "online": device.is_online(),
            "heard": None if heard is None else heard.stamp,
            "times": times_of(device),
        }


def paces(figures):
    """What came in the whole capture, and in its busiest minute; nothing where nothing can be said of a
    second."""
    line = figures.line
    if line.why_not() is not None:
        return
    for of, found in (("capture", line.whole()), ("minute", line.busiest())):
        if found is not None:
            run, came = found
            yield {
                "kind": "pace",
                "of": of,
                "stamp": run.stamp,
                "time": whole(came.seconds),
                "bytes": came.bytes,
                "packets": came.packets,
                "refused": came.damaged,
                "turns": came.turns,
                "use": None if line.rate is None else round(in_use(came, line.rate), 1),
            }


def line(figures):
    counts = re.findall(
        r"(\w+) (\d+)", next((each for each in figures.table if each.startswith("runs ")), "")
    )
    return {"kind": "line", **{name: int(count) for name, count in counts}, "echoes": figures.echoes}


def lines(figures):
    """All lines: what is told, in its order, late answers, the diagnoses, each device, what came of the whole
    line in a time, and its counts."""
    said = [
        *told(figures),
        *late(figures),
        *({"kind": "diagnosis", "text": each} for each in figures.diagnoses),
        *devices(figures),
        *paces(figures),
        line(figures),
    ]
    return "".join(json.dumps(each) + "\n" for each in said)
