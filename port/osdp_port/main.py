"""The program: its words, its port, and what it does there."""
import time

from . import VERSION, find, listen, panel_testing, scripts, testing
from .advice import Advice
from .console import Console, wait_for
from .faults import BAD_WORDS, FAILED, NO_PROGRAM, Stop
from .keep import PanelPlaces, ReaderPlace
from .devices import at_one_rate, first_rate, new_devices
from .panel import LASTS, SETTINGS, Panel
from .program import Lines, find_program
from .reader import ABSENT, Reader
from .serial_port import Port, needs_pyserial, sets_rate
from .shown import Shown
from .trace import Bursts, Trace, digits, osdpcap
from .turns import LATE, LONGEST, Turns, moment
from .words import Words, addresses, bad, help_of

TESTS = {"device": testing.test, "panel": panel_testing.test_panel, "script": scripts.run}
END = 5.0  # how many seconds after Ctrl-C answers to orders are waited for
QUITS = ("quit", "exit", "q")  # the lines that end a panel or a reader as Ctrl-C does


def taps(words, port, console, osdp):
    """What else gets the bursts: a trace, and each packet as `osdp show` prints it. Their ends, which are
    called when the program ends, and may give a status."""
    def trace_ends():
        console.note(file.ended())
        return FAILED if file.file is None else 0

    ends = []
    if words.get("--trace"):
        file = Trace(
            words.get("--trace"),
            words.get("--size", 10) * 1000000,
            console.note,
            osdpcap if words.get("--osdpcap") else digits,
            lambda: port.rate,
        )
        port.taps.append(Bursts(file.takes))
        ends += [port.taps[-1].flush, trace_ends]
    if words.get("--all"):
        shown = Shown(osdp, console, is_all=True)
        port.taps.append(Bursts(shown.takes))
        ends += [port.taps[-1].flush, shown.ends]
    return ends


def until_quit(lines, console):
    """The lines before the first one that ends the program. It ends as by Ctrl-C, and no line after that is
    taken."""
    at = next((at for at, line in enumerate(lines) if line.text in QUITS), None)
    if at is None:
        return lines
    console.quits()
    for line in lines[at + 1:]:
        console.say(f"not taken {line.text or 'a line'}: the program ends")
    return lines[:at]


def goes_on(machine, port, console):
    """Runs a panel or a reader until Ctrl-C, and then until its orders have their ends."""
    ended_at, turns = None, Turns(moment, machine.late)
    while True:
        if console.stops:
            ended_at = ended_at or time.monotonic()
            if machine.ends() or not port.is_there or time.monotonic() > ended_at + END:
                machine.nothing_comes()
                return
        moment_due = machine.next_moment()
        wait = LONGEST if moment_due is None else min(LONGEST, max(0, moment_due - moment()) / 1000)
        if not port.is_there or ended_at or port.taps:
            wait = min(0.05, wait)
        began = moment()
        wait_for(port, console, wait)
        port.comes_back()
        turns.begins(began, wait)
        read = port.read_all()
        turns.has_read()
        lines = until_quit(console.all_lines() if turns.stood_still else console.lines(), console)
        machine.turn(read, lines, turns.now, turns.stood_still)


def says_for_panel(port, console):
    """Prints what is told, and what to do about it."""
    advice = Advice(console.say, port)
    port.taps.append(advice)

    def say(line):
        console.say(line)
        advice.heard(line)
    return say


def panel(words, port, console, osdp, kept, devices):
    why = kept.begins() if kept else None
    if why:
        console.note(f"not kept: {why}")
    ends = taps(words, port, console, osdp)
    settings = [*SETTINGS, *words.rest[1:]]
    program = Lines(osdp, ["panel", *settings])
    console.say(
        f"panel at {port.path} {port.rate}: devices {','.join(str(device.address) for device in devices)};"
        f" settings {' '.join(settings)}"
    )
    console.say("help prints the orders; quit or Ctrl-C ends the panel")
    machine = Panel(port, program, devices, moment, says_for_panel(port, console), kept)
    machine.lasts = words.get("--until", LASTS)
    return runs(machine, port, console, ends)


def reader(words, port, console, osdp, kept, place):
    why = kept.begins(*place) if kept else None
    if why:
        console.note(f"not kept: {why}")
    ends = taps(words, port, console, osdp)
    settings = [*ABSENT, *words.rest[1:]]
    console.say(f"reader at {port.path} {port.rate}: address {place[0]}; settings {' '.join(settings)}")
    console.say("help prints what can be typed; quit or Ctrl-C ends the reader")
    machine = Reader(
        port,
        lambda address: Lines(osdp, ["reader", *settings, "address", str(address)]),
        place[0],
        moment,
        console.say,
        kept,
    )
    machine.late = words.get("--late", LATE)
    return runs(machine, port, console, ends)


def runs(machine, port, console, ends):
    """Runs it, and ends all that stands beside it. The status: 1 where something was met, 3 where the trace
    has failed, or the places aren't kept."""
    try:
        goes_on(machine, port, console)
    finally:
        statuses = [each() for each in ends]
    return FAILED if machine.unkept or FAILED in statuses else 1 if machine.met else 0


def opened(words, rate, console, kept=None):
    """The port, opened. Other programs that have it open already are told. Where the rate is that of a file,
    what is wrong with it names the file."""
    try:
        port = Port(words.port, rate, console.say)
    except Stop as stop:
        raise (
            Stop(f"{stop.why} (the rate is that of {kept.path})") if kept and rate != words.rate else stop
        ) from None
    port.is_awaited = words.command not in ("find", "test")
    others = port.others()
    if others:
        console.note(
            f"{words.port} is open in {' and '.join(others)} too, which may take bytes from it: end it"
        )
    return port


def starts_panel(words, console, osdp):
    is_new = words.get("--new", False)
    kept = PanelPlaces(words.get("--keep"), words.port, is_new) if words.get("--keep") else None
    devices = new_devices(addresses(words.rest[0]), words.rate, kept)
    if not sets_rate(words.port):
        at_one_rate(devices, words.rate)
    return panel(
        words, opened(words, first_rate(devices, words.rate), console, kept), console, osdp, kept, devices
    )


def starts_reader(words, console, osdp):
    named = addresses(words.rest[0])
    if len(named) != 1:
        bad(f"word 4, {words.rest[0]}: a reader has one address")
    if "address" in words.rest[1::2]:
        bad(f"word {words.rest.index('address', 1) + 4}, address: word 4 says it, and no setting")
    kept = ReaderPlace(words.get("--keep"), words.get("--new", False)) if words.get("--keep") else None
    place = kept.read() if kept else None
    rate = place.rate if place and sets_rate(words.port) else words.rate
    address = place.address if place else named[0]
    return reader(words, opened(words, rate, console, kept), console, osdp, kept, (address, rate))


def on_port(does, is_told):
    """A command that needs nothing but the port, and whether its start is told."""
    def starts(words, console, osdp):
        port = opened(words, words.rate, console)
        if is_told and not words.get("--json"):
            console.say(f"{words.command} at {port.path} {port.rate}: Ctrl-C ends it")
        return does(words, port, console, osdp)
    return starts


def page(words, console, osdp):
    """Shows the line as a page of a browser. The status."""
    try:
        from .page.start import page as shows
    except ModuleNotFoundError:
        why = "the page isn't there: call  sudo apt install ./osdp-page_*.deb  where the packages are"
        raise Stop(why, NO_PROGRAM) from None
    return shows(words, console, osdp, moment, goes_on)


def serve(words, console, osdp):
    """Runs a line as a service. The status."""
    try:
        from .serve.start import serve as serves
    except ModuleNotFoundError:
        raise Stop(
            "the service isn't there: call  sudo apt install ./osdp-service_*.deb  where the packages are",
            NO_PROGRAM,
        ) from None
    return serves(words, console, osdp, moment)


def tests(words, port, console, osdp):
    return TESTS[words.rest[0]](words, port, console, osdp)


STARTS = {
    "panel": starts_panel,
    "reader": starts_reader,
    "monitor": on_port(listen.monitor, True),
    "show": on_port(listen.show, True),
    "trace": on_port(listen.trace, True),
    "find": on_port(find.find, False),
    "test": on_port(tests, False),
    "page": page,
    "serve": serve,
}


def text_alone(arguments):
    """The text that is all that these words ask for; none where they ask for more."""
    if arguments[:1] and arguments[0] in ("--version", "-V"):
        return f"osdp-port {VERSION}"
    is_asked = not arguments or arguments[0] == "help" or {"--help", "-h"} & set(arguments)
    return help_of(arguments).rstrip("\n") if is_asked else None


def main(arguments):
    """The status of the program."""
    console = Console()
    try:
        try:
            return commanded(arguments, console)
        finally:
            console.ends()
    except Stop as stop:  # a second Ctrl-C, while the end was told
        return stop.status


def commanded(arguments, console):
    """Does what the words ask, and tells what ends it. The status."""
    try:
        text = text_alone(arguments)
        if text:
            console.raw(text)
            return 0 if arguments else BAD_WORDS
        words = Words(arguments)
        console.has_times = not words.get("--plain", False)
        needs_pyserial()
        return STARTS[words.command](words, console, find_program(words.get("--osdp")))
    except Stop as stop:
        if stop.why:
            console.note(stop.why)
        return stop.status
    except OSError as error:
        console.note(f"{error.filename or 'the system'}: {error.strerror or error}")
        return FAILED
