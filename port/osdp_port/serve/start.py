"""`osdp-port --config FILE serve`: reads the configuration, opens what it names, and runs the service."""
import os

from ..devices import first_rate, new_devices
from ..faults import BAD_WORDS, FAILED, NO_PROGRAM, Stop
from ..panel import SETTINGS
from ..program import Lines
from ..serial_port import Port, has_rate
from ..store import StoreError
from . import settings as configuration
from .ledger import Ledger
from .line import LinePlaces
from .loop import Loop
from .systemd import Manager


def needs_paho():
    try:
        import paho.mqtt.properties  # noqa: F401
    except ImportError:
        raise Stop("python3-paho-mqtt isn't there: call  sudo apt-get install python3-paho-mqtt", NO_PROGRAM) from None


def read_settings(path, console):
    """The configuration. The program ends where something is wrong with it, and each of that is told."""
    settings, faults = configuration.read(path)
    if faults:
        for fault in faults[:-1]:
            console.note(fault)
        raise Stop(faults[-1], BAD_WORDS)
    return settings


def surroundings(settings):
    """What is wrong with what the configuration names, before anything is opened."""
    if "://" not in settings.port and not os.path.exists(settings.port):
        yield f"port {settings.port} isn't there: ls -l /dev/serial/by-id tells which ports are"
    if not has_rate(settings.rate):
        yield f"rate {settings.rate}: no port has it"
    if not os.path.exists(settings.store):
        yield f"there is no store at {settings.store}: make it, once, by  osdp-port --config {settings.path} serve --new"
    for word in ("broker_password_file", "broker_ca", "broker_certificate", "broker_key", "events_card_key_file"):
        path = settings.values[word]
        if path and not os.access(path, os.R_OK):
            yield f"{word.partition('_')[2]} {path} can't be read by this user"


def check(settings, console):
    """Tells what keeps the service from its work. The status."""
    found = [each for each in surroundings(settings)]
    for each in found:
        console.note(f"{settings.path}: {each}")
    if not found:
        console.say(f"ready: line {settings.line} at {settings.port} {settings.rate}, devices {', '.join(settings.devices)}")
    return FAILED if found else 0


def makes_store(settings, console):
    kept = LinePlaces(settings.store, settings.port, True)
    kept.read()
    kept.begins()
    kept.close()
    console.say(f"made {settings.store}")
    return 0


def serve(words, console, osdp, moment):
    """Runs the service until it is to end. The status."""
    settings = read_settings(words.get("--config"), console)
    needs_paho()
    if words.get("--check"):
        return check(settings, console)
    if words.get("--new"):
        return makes_store(settings, console)
    try:
        return served(settings, console, osdp, moment, words.get("--metrics"))
    except StoreError as error:
        raise Stop(str(error), FAILED) from None


def served(settings, console, osdp, moment, metrics):
    from .service import Service

    kept = LinePlaces(settings.store, settings.port)
    devices = new_devices(list(settings.devices.values()), settings.rate, kept)
    ledger = Ledger(kept.store, settings.orders_keys)
    port = Port(settings.port, first_rate(devices, settings.rate), console.say)
    why = kept.begins()
    if why:
        raise StoreError(why)
    program = Lines(osdp, ["panel", *SETTINGS, *settings.panel])
    service = Service(settings, port, program, devices, kept, ledger, moment, console.say, metrics)
    service.line.late = settings.late
    console.say(f"line {settings.line} at {port.path} {port.rate}: devices {', '.join(settings.devices)}")
    manager = Manager()
    service.begins()
    manager.ready()
    Loop(service, port, console, moment, settings.late, manager).goes_on()
    return 0
