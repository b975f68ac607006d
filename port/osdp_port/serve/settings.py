"""The configuration of a line's service: what it says, and what is wrong with it, by line and word."""
import re
import tomllib
from dataclasses import dataclass, field

from ..faults import BAD_WORDS, Stop, shown
from ..words import MOST_RATE

NAME = re.compile(r"[A-Za-z0-9_-]{1,32}")  # of a line or a device: a level of a topic
PREFIX = re.compile(r"[A-Za-z0-9_/-]{1,64}")
LOOPBACK = ("localhost", "127.0.0.1", "::1")
MOST_DEVICES = 16
NEW = 1  # the version of this form


@dataclass(frozen=True)
class Form:
    """What a word of the configuration may be: text or a whole number of a span, and what it is if it isn't
    said; it has to be said where that is none."""

    otherwise: object
    what: str
    span: tuple[int, int] | None = None
    pattern: re.Pattern | None = None
    words: tuple[str, ...] = ()

    def is_kept_by(self, value):
        if self.span:
            return type(value) is int and self.span[0] <= value <= self.span[1]
        if not isinstance(value, str) or not value or not value.isprintable():
            return False
        return (not self.words or value in self.words) and (
            self.pattern is None or self.pattern.fullmatch(value) is not None
        )


FORMS = {
    "": {
        "version": Form(None, "1", span=(NEW, NEW)),
        "line": Form(None, "1 to 32 letters, digits, _ and -", pattern=NAME),
        "port": Form(None, "a port, as /dev/serial/by-id/.."),
        "rate": Form(9600, "a number as 9600", span=(1, MOST_RATE)),
        "store": Form(None, "a file, as /var/lib/osdp/north.store"),
        "late": Form(5000, "milliseconds, 100 to 60000", span=(100, 60000)),
    },
    "broker": {
        "host": Form("localhost", "a computer's name or address"),
        "port": Form(1883, "a number from 1 to 65535", span=(1, 65535)),
        "prefix": Form("osdp", "letters, digits, _, - and /", pattern=PREFIX),
        "user": Form("", "a name"),
        "password_file": Form("", "a file whose first line is the password"),
        "ca": Form("", "a file with the certificates that are trusted"),
        "certificate": Form("", "a file with the certificate of this service"),
        "key": Form("", "a file with the key of that certificate"),
    },
    "orders": {
        "longest": Form(300, "seconds, 2 to 86400", span=(2, 86400)),
        "keys": Form(3600, "seconds, 60 to 604800", span=(60, 604800)),
    },
    "events": {
        "oldest": Form(10, "seconds, 1 to 3600", span=(1, 3600)),
        "cards": Form("whole", "whole or hashed", words=("whole", "hashed")),
        "card_key_file": Form("", "a file whose first line is the key of the hash"),
    },
}
FREE = ("devices", "settings")  # tables whose words are the user's


@dataclass
class Settings:
    """What the configuration says. A table has its name before the word: `broker_host`."""

    path: str
    values: dict = field(default_factory=dict)
    devices: dict = field(default_factory=dict)
    panel: list = field(default_factory=list)

    def __getattr__(self, name):
        try:
            return self.__dict__["values"][name]
        except KeyError:
            raise AttributeError(name) from None


class Fault(Exception):
    """What is wrong with the configuration: the table, the word, and the sentence."""

    def __init__(self, table, word, why):
        super().__init__(why)
        self.table, self.word, self.why = table, word, why


def line_of(text, table, word):
    """The number of the line where a word of a table stands; 1 where it isn't there."""
    at_table = ""
    for number, line in enumerate(text.splitlines(), 1):
        found = re.match(r"\s*\[\s*([A-Za-z0-9_-]+)\s*\]", line)
        at_table = found[1] if found else at_table
        if found and at_table == table and word is None:
            return number
        if word is not None and at_table == table and re.match(rf"\s*[\"']?{re.escape(word)}[\"']?\s*=", line):
            return number
    return 1


def table_faults(table, given, values):
    """What is wrong with the words of a table; those that are right come to `values`."""
    for word in given:
        if word not in FORMS[table] and not (table == "" and word in (*FORMS, *FREE)):
            yield Fault(table, word, f"no such word; here stand {', '.join(FORMS[table])}")
    for word, form in FORMS[table].items():
        name = f"{table}_{word}" if table else word
        values[name] = given.get(word, form.otherwise)
        if word not in given and form.otherwise is None:
            yield Fault(table, None, f"{word} is missing: {form.what}")
        elif word in given and not form.is_kept_by(given[word]):
            yield Fault(table, word, f"{shown(str(given[word]))} isn't {form.what}")


def device_faults(devices):
    """What is wrong with the names and addresses of the devices."""
    taken = {}
    if not devices:
        yield Fault("devices", None, "no device: [devices] has a line for each, as door-1 = 5")
    for at, (name, address) in enumerate(devices.items()):
        if not NAME.fullmatch(name):
            yield Fault("devices", name, "a name has 1 to 32 letters, digits, _ and -")
        if type(address) is not int or not 0 <= address <= 126:
            yield Fault("devices", name, f"{shown(str(address))} is no address: 0 to 126")
        elif address in taken:
            yield Fault("devices", name, f"{taken[address]} is at {address} already")
        else:
            taken[address] = name
        if at == MOST_DEVICES:
            yield Fault("devices", name, f"a line has at most {MOST_DEVICES} devices")


def joint_faults(values):
    """What is wrong with words that go together."""
    if values["broker_host"] not in LOOPBACK and not values["broker_ca"]:
        yield Fault("broker", "host", "a broker on another computer needs TLS: say ca")
    if bool(values["broker_certificate"]) != bool(values["broker_key"]):
        word = "certificate" if values["broker_certificate"] else "key"
        yield Fault("broker", word, "certificate and key go together")
    if values["broker_ca"] and not (values["broker_certificate"] or values["broker_password_file"]):
        yield Fault("broker", "ca", "say a certificate and key, or user and password_file")
    if values["broker_password_file"] and not values["broker_user"]:
        yield Fault("broker", "password_file", "it goes with user")
    if values["orders_keys"] <= values["orders_longest"]:
        yield Fault("orders", "keys", "keys are to stay for longer than the longest order")
    if values["events_cards"] == "hashed" and not values["events_card_key_file"]:
        yield Fault("events", "cards", "hashed needs card_key_file")


def given_faults(given, settings):
    """What is wrong with a configuration that is TOML."""
    for table in FORMS:
        of_table = given.get(table, {}) if table else given
        if not isinstance(of_table, dict):
            yield Fault("", table, f"it is a table: [{table}]")
            of_table = {}
        yield from table_faults(table, of_table, settings.values)
    for table in FREE:
        if not isinstance(given.get(table, {}), dict):
            yield Fault("", table, f"it is a table: [{table}]")
            given[table] = {}
    settings.devices = given.get("devices", {})
    yield from device_faults(settings.devices)
    for word, value in given.get("settings", {}).items():
        settings.panel += [word, str(value)]
        if not re.fullmatch(r"[A-Za-z0-9-]+", f"{word}{value}"):
            yield Fault("settings", word, f"{shown(str(value))} is no word of osdp panel")


def read(path):
    """The configuration, and what is wrong with it: lines that begin with the file's."""
    try:
        with open(path, encoding="utf-8") as file:
            text = file.read()
        given = tomllib.loads(text)
    except OSError as error:
        raise Stop(f"{path}: {error.strerror}", BAD_WORDS) from None
    except (tomllib.TOMLDecodeError, UnicodeDecodeError) as error:
        return None, [f"{path}: {shown(str(error))}"]
    settings = Settings(path)
    faults = list(given_faults(given, settings))
    if not faults:
        faults = list(joint_faults(settings.values))
    return settings, [
        f"{path} line {line_of(text, each.table, each.word)}, {each.word or each.table or 'file'}: {each.why}"
        for each in faults
    ]


def first_line(path):
    """The first line of a file that has a password or a key."""
    try:
        with open(path, encoding="utf-8") as file:
            return file.readline().rstrip("\r\n")
    except (OSError, UnicodeDecodeError) as error:
        raise Stop(f"{path}: {getattr(error, 'strerror', None) or 'it is no text'}", BAD_WORDS) from None
