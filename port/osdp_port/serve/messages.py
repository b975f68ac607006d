"""The payloads that come from the broker and go there: objects of JSON, as docs/broker.schema.json has them."""
import hashlib
import hmac
import json
import re
from dataclasses import dataclass

from .. import doors
from ..faults import Refused

VERSION = 1
MOST = 4096  # bytes that a payload has at most
KEY = re.compile(r"[A-Za-z0-9._:-]{1,64}")
COMMAND = re.compile(r"[ -~]{1,256}")
SET_UP = ("move", "rate", "comset", "accept")  # words of orders that are given at the line alone
STEADY = ("led", "on", "off", "text")  # words of states that hold until the next one
PULSE = re.compile(r"[0-9a-f-]{1,36}:[0-9]{1,15}")
MOST_STATES, MOST_ASKED, MOST_SECONDS = 32, 1000, 86400


class Rejected(Exception):
    """A message that isn't taken: why, and its key, where it has one."""

    def __init__(self, why, key=None):
        super().__init__(why)
        self.why, self.key = why, key


@dataclass(frozen=True)
class Asked:
    """What is asked for again: the outcome of a key, or the events of a span."""

    key: str | None
    first: int = 0
    last: int = 0


def written(**fields):
    """A payload."""
    return json.dumps({"version": VERSION, **fields}, ensure_ascii=True, separators=(",", ":")).encode()


def read(payload):
    """The object that a payload is."""
    if len(payload) > MOST:
        raise Rejected(f"it has more than {MOST} bytes")
    try:
        found = json.loads(payload)
    except (ValueError, RecursionError):
        raise Rejected("it is no JSON") from None
    if not isinstance(found, dict):
        raise Rejected("it is no object")
    key = found.get("key")
    key = key if isinstance(key, str) and KEY.fullmatch(key) else None
    if type(found.get("version")) is not int or found["version"] != VERSION:
        raise Rejected(f"version: {VERSION}", key)
    return found, key


def text_of(command, place, key, steady=False):
    """The text of the command that an order in words is, as `osdp` reads it."""
    if not isinstance(command, str) or not COMMAND.fullmatch(command) or not command.split():
        raise Rejected("command: words of an order, as open 3s", key)
    words = command.split()
    if words[0].lower() in SET_UP:
        raise Rejected(f"command {words[0]}: a line is set up at the line", key)
    if steady and (words[0] not in STEADY or words[0] == "led" and len(words) != 2):
        raise Rejected(f"state {words[0]}: one of led COLOUR, on, off, text", key)
    try:
        return doors.command(words, place)
    except Refused as refused:
        raise Rejected(f"command: {refused}", key) from None


def order_of(payload, place):
    """The key of an order, the text of its command, and what it says of its time: none, or a pulse and seconds."""
    found, key = read(payload)
    if key is None:
        raise Rejected("key: 1 to 64 letters, digits, ., _, : and -")
    pulse, within = found.get("pulse"), found.get("within")
    if (pulse is None) != (within is None) or pulse is not None and not (
        isinstance(pulse, str) and PULSE.fullmatch(pulse) and type(within) is int and 0 <= within <= MOST_SECONDS
    ):
        raise Rejected("pulse and within go together: the last pulse, and seconds from there", key)
    return key, text_of(found.get("command"), place, key), (pulse, within) if pulse else None


def wanted_of(payload, place):
    """The texts of the states that a device is to have."""
    states = read(payload)[0].get("states") if payload else []  # an empty one takes a retained one away
    if not isinstance(states, list) or len(states) > MOST_STATES:
        raise Rejected(f"states: a list of at most {MOST_STATES}")
    return [text_of(state, place, None, steady=True) for state in states]


def asked_of(payload):
    found, key = read(payload)
    if key is not None:
        return Asked(key)
    span = found.get("events")
    ends = [span.get(name) for name in ("from", "to")] if isinstance(span, dict) else []
    if len(ends) != 2 or not all(type(end) is int and 1 <= end < 1 << 53 for end in ends) or ends[0] > ends[1]:
        raise Rejected("key, or events: from and to, two numbers")
    if ends[1] - ends[0] >= MOST_ASKED:
        raise Rejected(f"events: at most {MOST_ASKED} at once")
    return Asked(None, *ends)


def event_fields(text, secret):
    """What an event of the line says: what kind it is, and its fields. With a secret a card is its hash, and
    keys are counted."""
    words = text.split()
    if words[0] in ("RAW", "FMT"):
        return {"kind": "card", **card_fields(words, secret)}
    if words[0] == "KEYPAD" and len(words) == 3:
        count = 0 if words[2] == "none" else len(words[2]) // 2
        return {"kind": "keys", "reader": int(words[1]), **({"count": count} if secret else {"keys": words[2]})}
    return {"kind": "state", "text": text}


def card_fields(words, secret):
    names = ("reader", "format", "bits") if words[0] == "RAW" else ("reader", "direction")
    fields, digits = dict(zip(names, map(int, words[1:-1]))), words[-1]
    if secret:
        said = f"{fields.get('bits', '')}:{digits}".encode()
        return {**fields, "hash": hmac.new(secret, said, hashlib.sha256).hexdigest()}
    return {**fields, "card": digits}
