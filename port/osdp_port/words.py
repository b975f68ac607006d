"""The words that the program is called by, read by `argparse`. Helps and completion are made of the same
parsers."""
import argparse
import glob
import re
import textwrap
from dataclasses import dataclass

from .faults import BAD_WORDS, Stop, is_number, number

HEAD = """osdp-port: one command at the port of an OSDP line

usage: osdp-port [OPTION].. PORT RATE COMMAND
       osdp-port page             where one adapter is plugged in; its page does the rest
       osdp-port --config FILE serve   a line as a service, by a broker of MQTT

  monitor                what happens on the line, and which end breaks the rules
  show                   each packet, without POLL and ACK
  panel ADDRESSES        a panel of these devices, as 5,6 or 0-5; orders are typed
  reader ADDRESS         a reader at this address; cards and keys are typed
  find                   which devices are there, at which rate and check
  test device ADDRESS    which rules the device at this address keeps
  test panel ADDRESS     which rules the panel keeps that asks this address
  test script FILE       a script of one's own, with what it expects
  trace FILE             writes down all that goes over the line
  page                   all of this in a browser: find, set up, try and watch devices
  serve                  a panel as a service: orders and events by a broker of MQTT

PORT is a name such as /dev/ttyUSB0, or rfc2217://HOST:PORT or socket://HOST:PORT.
RATE is in bits for a second; 9600 is where most devices begin.
After ADDRESSES or ADDRESS settings of osdp may stand: panel 5 check sum reply-wait 400.
"""
TAIL = """
Orders of a panel: 5 open 3s, 5 led green, 5 beep, 5 move 7; help prints all.
Ctrl-C ends: the last table and the ends of orders come out first.
Status: 0 well, 1 something was met (an accusation, a refusal, a lost session,
no device), 2 bad words, 3 the port fails, 4 no memory, 127 a program is missing.
osdp-port help COMMAND has the options of one command, and man osdp-port more.
"""
MOST_RATE = 4000000
TIMES = ("reply-wait", "poll-interval", "busy-wait", "quiet-wait", "gap", "expire")  # settings of a time
COMMANDS = {
    "monitor": "what happens on the line, and which end breaks the rules",
    "show": "each packet, without POLL and ACK",
    "panel": "a panel of these devices; orders are typed",
    "reader": "a reader at this address; cards and keys are typed",
    "find": "which devices are there, at which rate and check",
    "test": "rules that a device or a panel keeps, or a script",
    "trace": "writes down all that goes over the line",
    "page": "all of this in a browser: find, set up, try and watch devices",
    "serve": "a panel as a service: orders and events by a broker of MQTT",
}
TESTS = {
    "device": "which rules the device at this address keeps",
    "panel": "which rules the panel keeps that asks this address",
    "script": "a script of one's own, with what it expects",
}


@dataclass(frozen=True)
class Option:
    """An option: what follows it, none where nothing does; of which commands it is; the span of its number;
    whether a file follows it; and whether `never` may follow in the place of a number."""

    name: str
    value: str | None
    commands: tuple[str, ...]
    text: str
    span: tuple[int, int] | None = None
    is_file: bool = False
    is_never: bool = False

    def reads(self, word):
        if self.is_never and word == "never":
            return None
        return number(word, self.name, *self.span) if self.span else word

    def row(self, indent=25):
        """How a help tells it."""
        head = f"  {self.name} {self.value or ''}".ljust(indent)
        return textwrap.fill(
            self.text,
            88,
            initial_indent=head,
            subsequent_indent=" " * indent,
            break_long_words=False,
            break_on_hyphens=False,
        )


RUNS, JUDGED = ("panel", "reader"), ("test device", "test panel")
ALL = ("monitor", "show", *RUNS, "find", *JUDGED, "test script", "trace", "page", "serve")
OPTIONS = (
    Option("--all", None, ("monitor", "show", *RUNS), "POLL and ACK too; with panel and reader each packet"),
    Option("--address", "N", ("monitor", "show"), "of monitor and show: this device alone", (0, 126)),
    Option("--every", "N", ("monitor",), "of monitor: the table each N seconds", (1, 3600000)),
    Option("--live", None, ("monitor",), "of monitor: the table in place, on a terminal"),
    Option("--json", None, ("monitor",), "of monitor: an object of JSON a line"),
    Option(
        "--keep", "FILE", RUNS, "of panel and reader: the store, which has where devices are", is_file=True
    ),
    Option(
        "--new",
        None,
        (*RUNS, "serve"),
        "with --keep: makes that store, where there is none; of serve: the same, and ends",
    ),
    Option("--config", "FILE", ("serve",), "of serve: the configuration, in TOML", is_file=True),
    Option(
        "--metrics",
        "FILE",
        ("serve",),
        "of serve: what the line is like, for Prometheus, each 15 s",
        is_file=True,
    ),
    Option("--check", None, ("serve",), "of serve: says what is wrong with the configuration, and ends"),
    Option(
        "--until",
        "MS",
        ("panel",),
        "of panel: how long an order may go out after it was typed, or never too late: 5000",
        (100, 3600000),
        is_never=True,
    ),
    Option(
        "--late",
        "MS",
        ("reader",),
        (
            "of reader: an answer later than this isn't written, and what came while it stood still so long"
            " is dropped: 5000"
        ),
        (100, 60000),
    ),
    Option(
        "--trace",
        "FILE",
        (*RUNS, *JUDGED, "test script", "page"),
        (
            "of panel, reader and page: all that goes over the line is added to this file; of test: its own "
            "lines, in a file begun anew"
        ),
        is_file=True,
    ),
    Option("--size", "MB", (*RUNS, "trace"), "a trace that is so large is put aside: 10", (1, 100000)),
    Option("--osdpcap", None, (*RUNS, "trace"), "a trace has a JSON object a line, as other tools read it"),
    Option(
        "--may", "WORDS", JUDGED, "of test: what it may do: silence,out:N,led,buz,text,comset,beyond,relay:N"
    ),
    Option(
        "--go-on", None, ("test device",), "of test device: goes on where the device falls silent and is back"
    ),
    Option(
        "--sum", None, ("test device",), "of test device: packets end with a checksum, and not with a CRC"
    ),
    Option("--tap", None, JUDGED, "of test: verdicts by the Test Anything Protocol"),
    Option("--set-address", "N", ("find",), "of find: the device gets this address", (0, 126)),
    Option("--set-rate", "R", ("find",), "of find: the device gets this rate", (1, MOST_RATE)),
    Option("--demo", None, ("page",), "of page: two readers of ours, without a port: --demo page"),
    Option("--listen", "HOST:PORT", ("page",), "of page: where browsers find it: 127.0.0.1 and a free port"),
    Option("--alone", "WHAT", ("page",), "of page, where no browser is there for 10 s: goes-on or ends"),
    Option("--plain", None, ALL, "no moments before the lines"),
    Option("--osdp", "PATH", ALL, "the program osdp, where it isn't found", is_file=True),
)
BY_NAME = {option.name: option for option in OPTIONS}
IN_SCRIPTS = ("--may", "--sum")  # options that a script has as lines of its own
HELP = HEAD + "\n" + "\n".join([*(option.row() for option in OPTIONS), "  --help, --version"]) + "\n" + TAIL


def bad(why):
    raise Stop(f"{why}; try: osdp-port --help", BAD_WORDS)


class Parser(argparse.ArgumentParser):
    """A parser that tells what is wrong by one sentence, and takes each word as it is."""

    def __init__(self, **given):
        super().__init__(**{"add_help": False, "allow_abbrev": False, **given})

    def error(self, message):
        bad(message)

    def takes(self, command):
        """Adds the options of a command."""
        for option in OPTIONS:
            if command in option.commands:
                kind = (
                    {"metavar": option.value, "type": option.reads}
                    if option.value
                    else {"action": "store_true"}
                )
                self.add_argument(option.name, default=argparse.SUPPRESS, help=option.text, **kind)
        return self


def rate_of(word):
    if not is_number(word, 1, MOST_RATE):
        bad(f"word 2, {word}: RATE, a number as 9600")
    return int(word)


def addresses(word, place=4):
    """The addresses of a list such as 5,6 or 0-5."""
    found = []
    for part in word.split(","):
        first, dash, last = part.partition("-")
        ends = [first, last] if dash else [first, first]
        if not all(is_number(end, 0, 126) for end in ends) or int(ends[0]) > int(ends[1]):
            bad(f"word {place}, {part or 'nothing'}: addresses are numbers from 0 to 126, as 5,6 or 0-5")
        found += range(int(ends[0]), int(ends[1]) + 1)
    return found


def one_address(word):
    """The word after `device` or `panel` of a test."""
    if len(addresses(word, 5)) != 1:
        bad(f"word 5, {word}: one address, as 5")
    return word


def add_test(parser):
    """Adds what can be tested."""
    tests = parser.add_subparsers(dest="test", metavar="TEST", required=True, help=", ".join(TESTS))
    for name, text in TESTS.items():
        test = tests.add_parser(name, description=text).takes(f"test {name}")
        if name == "script":
            test.add_argument("target", metavar="FILE")
        else:
            test.add_argument("target", metavar="ADDRESS", type=one_address)


def add_words(parser, command):
    """Adds the words that stand after a command."""
    if command in RUNS:
        parser.add_argument(
            "devices",
            metavar="ADDRESSES" if command == "panel" else "ADDRESS",
            help="as 5,6 or 0-5" if command == "panel" else "as 5",
        )
        parser.add_argument(
            "settings",
            metavar="SETTING VALUE",
            nargs="*",
            help=f"settings of osdp {command}, as osdp help {command} has them",
        )
    elif command == "trace":
        parser.add_argument("file", metavar="FILE")
    elif command == "test":
        add_test(parser)


def parsers():
    """The parser of all words, and that of each command."""
    every = Parser(prog="osdp-port")
    every.add_argument("port", metavar="PORT", help="as /dev/ttyUSB0")
    every.add_argument("rate", metavar="RATE", type=rate_of, help="as 9600")
    commands, found = every.add_subparsers(dest="command", metavar="COMMAND", required=True), {}
    for command, text in COMMANDS.items():
        found[command] = commands.add_parser(command, help=text, description=text).takes(command)
        add_words(found[command], command)
    return every, found


def in_order(arguments):
    """The words with the options after the others, each with its value: options stand anywhere among the
    words."""
    words, options, left = [], [], list(arguments)
    while left:
        word = left.pop(0)
        option = BY_NAME.get(word.partition("=")[0])
        if option is None:
            words.append(word)
        elif option.value and word == option.name and left:
            options.append(f"{word}={left.pop(0)}")
        else:
            options.append(word)
    if words == ["page"] and "--demo" in options:
        words = ["demo", "9600", "page"]
    return words + options


def only_port():
    """The port of the one adapter that is plugged in: whoever opens a page need not know its name."""
    ports = sorted(glob.glob("/dev/ttyUSB*") + glob.glob("/dev/ttyACM*"))
    if not ports:
        raise Stop(
            "no adapter is plugged in here: plug it in, and try again; osdp-port --demo page shows a line"
            " without one",
            BAD_WORDS,
        )
    if len(ports) > 1:
        raise Stop(
            f"{len(ports)} adapters are plugged in: say which one, as osdp-port {ports[0]} 9600 page; here"
            f" are {', '.join(ports)}",
            BAD_WORDS,
        )
    return ports[0]


def with_port(words):
    """The words; of a page that names no port, and of a service, with one before them."""
    if words[:1] == ["serve"]:
        return ["config", "9600", *words]
    if words[:1] != ["page"]:
        return words
    return ["demo" if "--demo" in words else only_port(), "9600", *words]


def help_of(arguments):
    """The help of the command that these words name; of the whole program where they name none."""
    named = next((word for word in arguments if word in COMMANDS), None)
    if named is None:
        return HELP
    parser = parsers()[1][named]
    tests = (
        [
            f"\n{named} {name} {'FILE' if name == 'script' else 'ADDRESS'}: {text}\n"
            + "".join(f"{option.row()}\n" for option in OPTIONS if f"test {name}" in option.commands)
            for name, text in TESTS.items()
        ]
        if named == "test"
        else []
    )
    return parser.format_help() + "".join(tests)


class Words:
    """The words: options by their names, and port, rate, command and what stands after it."""

    def __init__(self, arguments):
        self.given, extra = parsers()[0].parse_known_args(with_port(in_order(arguments)))
        self.port, self.rate, self.command = self.given.port, self.given.rate, self.given.command
        of_test = f"test {self.given.test}" if self.command == "test" else self.command
        if extra:
            self.refuses(extra[0], of_test)
        if self.command == "serve" and not self.get("--config"):
            bad("serve: say its configuration by --config FILE")
        if self.get("--new") and not self.get("--keep") and self.command != "serve":
            bad("--new makes a store: give --keep FILE too")
        for option in ("--size", "--osdpcap"):
            if self.command != "trace" and self.get(option) and not self.get("--trace"):
                bad(f"{option} is of a trace: give --trace FILE too")
        self.rest = self.own_words()

    @staticmethod
    def refuses(word, command):
        """Why a word that no parser has taken is wrong."""
        name = word.partition("=")[0]
        if name in BY_NAME:
            says = ": a line of the script says it" if command == "test script" and name in IN_SCRIPTS else ""
            bad(f"{name} is no option of {command}{says}")
        bad(f"no option: {word}" if word.startswith("-") else f"{word}: nothing more stands there")

    def own_words(self):
        """The words after the command."""
        given = self.given
        if self.command == "test":
            return [given.test, given.target]
        if self.command == "trace":
            return [given.file]
        if self.command not in RUNS:
            return []
        if self.command == "panel" and given.settings and is_number(given.settings[0], 0, 126):
            bad(
                f"word 5, {given.settings[0]}: a setting's name; several addresses are one word, as"
                f" {given.devices.strip(',')},{given.settings[0]}"
            )
        return [given.devices, *in_milliseconds(given.settings)]

    def get(self, option, otherwise=None):
        return vars(self.given).get(option.strip("-").replace("-", "_"), otherwise)


def in_milliseconds(settings):
    """Settings as `osdp` reads them: a time in milliseconds, also where it was given with its unit, as 400ms
    or 2s."""
    settings = list(settings)
    for at, (name, value) in enumerate(zip(settings, settings[1:])):
        found = (
            re.fullmatch(r"([0-9]{1,7}(?:\.[0-9]{1,3})?)(ms|s)", value)
            if at % 2 == 0 and name in TIMES
            else None
        )
        if found:
            settings[at + 1] = f"{float(found[1]) * {'ms': 1, 's': 1000}[found[2]]:.0f}"
    return settings
