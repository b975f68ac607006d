"""Stores, as tests write and read them: a line for each device, as `5 at 7 9600 or 5 9600 is 53494D 1 12`, by the ranks of its places."""
import importlib.util
import sqlite3
from pathlib import Path

TOP = Path(__file__).resolve().parent.parent
found = importlib.util.spec_from_file_location("examples_store", TOP / "examples/store.py")  # beside this file there is a store.py, too
store = importlib.util.module_from_spec(found)
found.loader.exec_module(store)


def rows(path, statement):
    """What a statement finds in a store, also while its program runs."""
    base = sqlite3.connect(f"file:{path}?mode=ro", uri=True, timeout=5)
    try:
        return base.execute(statement).fetchall()
    finally:
        base.close()


def text(path):
    """The lines of a store; none where there is none."""
    if not Path(path).exists():
        return ""
    lines = {}
    for name, vendor, model, serial, address, rate in rows(
            path, "SELECT name, vendor, model, serial, address, rate FROM devices JOIN places ON device = name ORDER BY name, rank"):
        places, _ = lines.setdefault(name, ([], "" if vendor is None else f" is {vendor} {model} {serial}"))
        places.append(f"{address} {rate}")
    return "".join(f"{name} at {' or '.join(places)}{identity}\n" for name, (places, identity) in lines.items())


def write(path, *lines, role="panel"):
    """Makes a store with these lines."""
    made, devices = store.Store(path, role, is_new=True), {}
    for line in lines:
        name, _, rest = line.partition(" at ")
        places, _, identity = rest.partition(" is ")
        vendor, model, serial = identity.split() or (None, 0, 0)
        devices[int(name)] = ([tuple(map(int, place.split())) for place in places.split(" or ")], None if vendor is None else (vendor, int(model), int(serial)))
    made.keep(devices)
    made.commit()
    made.close()


def options(path):
    """The words that name a store, and make it where it isn't there."""
    return ["--keep", path, *(() if Path(path).exists() else ["--new"])]
