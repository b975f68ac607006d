"""The commands that a page may give, and what each has. Anything else is refused before it comes near the line."""
from ..serial_port import RATES
from ..testing import ALLOWS
from .desk import Bad, text_of, whole

CHECKS = ("crc", "sum")
WAITS = (200, 400, 800)  # milliseconds that a panel waits for an answer
MOST = 16  # devices of a line


def one_of(command, name, could):
    if isinstance(command.get(name), bool) or command.get(name) not in could:
        raise Bad(f"{name} is one of {', '.join(map(str, could))}")
    return command[name]


def truth(command, name):
    if not isinstance(command.get(name), bool):
        raise Bad(f"{name} is true or false")
    return command[name]


def found(command):
    return {"rate": one_of(command, "rate", RATES)}


def set_up(command):
    return {"device": whole(command, "device", 0, 126), "address": whole(command, "address", 0, 126), "rate": one_of(command, "rate", RATES)}


def panel(command):
    addresses = command.get("addresses")
    if not isinstance(addresses, list) or not 1 <= len(addresses) <= MOST or len(set(map(str, addresses))) < len(addresses):
        raise Bad(f"a panel has 1 to {MOST} devices")
    each = [whole({"address": address}, "address", 0, 126) for address in addresses]
    return {"addresses": each, "rate": one_of(command, "rate", RATES), "check": one_of(command, "check", CHECKS), "wait": one_of(command, "wait", WAITS)}


def trial(command):
    may = command.get("may")
    if not isinstance(may, list) or not all(isinstance(each, str) for each in may):
        raise Bad("may is a list")
    for each in may:
        name, _, number = each.partition(":")
        if name not in ALLOWS or (name in ("out", "relay")) != bool(number) or (number and not (number.isascii() and number.isdecimal() and len(number) < 4 and int(number) < 256)):
            raise Bad(f"may has {', '.join(ALLOWS)}")
    return {"of": one_of(command, "of", ("device", "panel")), "address": whole(command, "address", 0, 126), "rate": one_of(command, "rate", RATES), "check": one_of(command, "check", CHECKS), "may": may}


def order(command):
    words = command.get("order")
    if not isinstance(words, dict):
        raise Bad("no order")
    text_of(words)
    return {"address": whole(command, "address", 0, 126), "order": words}


def demo(command):
    what = one_of(command, "what", ("loss", "power", "card", "keys", "input", "tamper"))
    if what == "loss":
        return {"what": what, "percent": whole(command, "percent", 0, 50)}
    device = {"what": what, "device": whole(command, "device", 0, 1)}
    if what == "card":
        return {**device, "facility": whole(command, "facility", 0, 255), "number": whole(command, "number", 0, 65535)}
    if what == "keys":
        keys = command.get("keys")
        if not isinstance(keys, str) or not 1 <= len(keys) <= 16 or not all(each in "0123456789*#" for each in keys):
            raise Bad("keys are 0 to 9, * and #")
        return {**device, "keys": keys}
    return {**device, "on": truth(command, "on")}


KINDS = {"watch": lambda _: {}, "find": found, "set": set_up, "panel": panel, "test": trial, "order": order, "take back": lambda command: {"number": whole(command, "number", 1, 10 ** 9)},
         "trace": lambda command: {"on": truth(command, "on")}, "demo": demo}


def checked(command):
    """A command with what it may have, and nothing else."""
    if not isinstance(command, dict) or command.get("do") not in KINDS:
        raise Bad("no such command")
    return {"do": command["do"], **KINDS[command["do"]](command)}
