"""What the pieces of `osdp-port` do that hold a file, a port or the program: by stand-ins, and without a line.

Which files of places are read, and in which order they are written to the disk; how large a trace becomes, and when a burst of it is over; how a port is opened, set
and tried again; which lines of the program are printed; what the last seconds of a line come to; and which words go together. Prints each fault. The status is 1 where
there is one."""
import errno
import os
import subprocess
import sys
import tempfile
from pathlib import Path
from types import SimpleNamespace

sys.dont_write_bytecode = True
sys.path.insert(0, str(Path(__file__).resolve().parent.parent / "port"))
import stores  # noqa: E402
from osdp_port import devices, keep, listen, live, main, owner, program, serial_port, shown, trace, words  # noqa: E402
from osdp_port.faults import Stop  # noqa: E402

faults = []


def asks(said, wanted, what):
    if said != wanted:
        faults.append(f"{what}: {said!r}, and not {wanted!r}")


def stop_of(does):
    """The status with which a call ends the program, and the sentence; what it gives where it doesn't."""
    try:
        return does()
    except Stop as stop:
        return stop.status, stop.why


STANDS = (  # lines of a panel's store, and what is read of each device
    (("5 at 7 9600",), {5: ([(7, 9600)], None)}), ((), {}),
    (("5 at 7 9600 or 5 9600 is 53494D 1 12", "0 at 126 1"), {5: ([(7, 9600), (5, 9600)], ("53494D", "1", "12")), 0: ([(126, 1)], None)}),
    (("5 at 7 9600 or 5 9600 or 5 19200",), {5: ([(7, 9600), (5, 9600), (5, 19200)], None)}),
)
REFUSED = ("5 at 7 9600 or 5 9600 or 5 19200 or 6 9600", "5 at 127 9600", "5 at 7 0", "5 at -1 9600", "127 at 7 9600", "5 at 7 4294967296")  # no store takes these


def looks_at_places(folder):
    for at, (lines, wanted) in enumerate(STANDS):
        path = folder / f"places{at}"
        stores.write(path, *lines)
        kept = keep.PanelPlaces(str(path))
        asks({name: ([(each.address, each.rate) for each in known.places], known.identity) for name, known in kept.read().items()}, wanted, f"a panel's store {lines}")
        kept.close()
        asks(stores.text(path), "".join(f"{line}\n" for line in sorted(lines)), f"a panel's store {lines} as it is written")
    for at, line in enumerate(REFUSED):
        try:
            stores.write(folder / f"refused{at}", line)
            asks(line, "nothing", "what a store takes")
        except stores.store.StoreError as error:
            asks("can't be written" in str(error), True, f"a store that gets {line!r}: {error}")
    path = folder / "place"
    stores.write(path, role="device")
    asks(keep.ReaderPlace(str(path)).begins.__self__.read(), None, "a reader's store without a place")
    two = folder / "two"
    stores.write(two, "5 at 5 9600", "6 at 6 9600", role="device")
    asks(stop_of(lambda: keep.ReaderPlace(str(two)).read()), (3, f"{two} keeps 2 devices, and a reader is one: name another file"), "a reader's store with two devices")


def looks_at_sizes(folder):
    """A trace of 10 megabytes, where no size is given, is put aside, and one of so many megabytes."""
    for given, size in (((), 10000000), (("--size", "3"), 3000000)):
        port = SimpleNamespace(taps=[], rate=9600)
        told = words.Words([*given, "--trace", str(folder / "sized"), "PORT", "9600", "panel", "5"])
        main.taps(told, port, SimpleNamespace(note=lambda line: None), "osdp")
        asks(port.taps[0].takes.__self__.size, size, f"the size of a trace {given}")
        made, kept, listen.until_stopped = [], listen.Trace, lambda *_: None
        listen.Trace = lambda *given: made.append(given) or SimpleNamespace(takes=None, file=None, ended=lambda: "")
        try:
            listen.trace(words.Words([*given, "PORT", "9600", "trace", "FILE"]), SimpleNamespace(rate=9600), SimpleNamespace(say=lambda line: None, note=None), None)
        finally:
            listen.Trace = kept
        asks(made[0][1], size, f"the size of a file {given}")


def looks_at_bursts():
    """Bytes with less than 20 ms between them are a burst, which has the moment of its first bytes. What is sent ends the burst before it."""
    now, taken = [100.0], []
    kept, trace.time = trace.time, SimpleNamespace(time=lambda: now[0] + 1000, monotonic=lambda: now[0])
    try:
        bursts = trace.Bursts(lambda *burst: taken.append(burst))
        for moment, does in ((0, "A"), (19, "B"), (38, "C"), (58.5, ""), (70, "D"), (71, "send"), (72, "E"), (93, "")):
            now[0] = 100 + moment / 1000
            bursts.sent(b"S") if does == "send" else bursts.came(does.encode())
    finally:
        trace.time = kept
    asks([(round(since - 1100, 4), way, burst) for since, way, burst in taken], [(0.0, "in", b"ABC"), (0.07, "in", b"D"), (0.071, "out", b"S"), (0.072, "in", b"E")], "the bursts of a line")


class Made:
    """What pyserial makes for a port: it writes down what is done to it."""

    def __init__(self, did, terminal):
        self.__dict__.update(did=did, terminal=terminal, is_open=False)

    def __setattr__(self, name, value):
        self.did.append(f"{name} {value}")

    def open(self):
        self.did.append("open")

    def fileno(self):
        return self.terminal

    def set_low_latency_mode(self, value):
        self.did.append(f"low latency {value}")

    def flush(self):
        self.did.append("flush")

    def close(self):
        self.did.append("close")


def looks_at_the_port():
    """A local port is locked, refuses others, hands its bytes on at once, and gets another rate once all is written. One of a server isn't locked."""
    did, asked = [], []
    end, terminal = os.openpty()
    kept = serial_port.serial.serial_for_url, serial_port.fcntl.ioctl, serial_port.has_taken
    serial_port.serial.serial_for_url = lambda path, rate, **rest: did.append(f"{path} {rate}") or Made(did, terminal)
    serial_port.fcntl.ioctl = lambda file, what: asked.append(what)
    serial_port.has_taken = lambda made, rate: rate != 57600
    try:
        port = serial_port.Port("/dev/line", 9600)
        asks((did, asked), (["/dev/line 9600", "exclusive True", "write_timeout 2", "open", "low latency True"], [serial_port.termios.TIOCEXCL]), "how a port is opened")
        did.clear()
        asks((port.set_rate(19200), port.rate, did), (True, 19200, ["flush", "baudrate 19200"]), "how a port gets another rate")
        did.clear()
        asks((port.set_rate(57600), port.rate, did), (False, 19200, ["flush", "baudrate 57600", "baudrate 19200"]), "how a port that hasn't a rate keeps its own")
        asks((port.can_have(9600), port.can_have(57600), port.can_have(38400), port.rate), (True, False, True, 19200), "which rates a port can have")
        asks(stop_of(lambda: serial_port.Port("/dev/line", 57600))[0], 3, "a port whose first rate isn't taken")
        did.clear(), asked.clear()
        serial_port.Port("socket://localhost:1", 9600)
        asks((did, asked), (["socket://localhost:1 9600", "write_timeout 2", "open"], []), "how a port of a server is opened")
    finally:
        serial_port.serial.serial_for_url, serial_port.fcntl.ioctl, serial_port.has_taken = kept
        os.close(end), os.close(terminal)


def looks_at_pulled_ports():
    """A port that was pulled is tried each half second. One that is back and gone again within ten seconds waits twice as long each time, thirty seconds at most. A cause
    is told at the second try, once; that bytes were taken each ten seconds at most."""
    now, told, fails = [0.0], [], [None]
    port = serial_port.Port.__new__(serial_port.Port)
    kept = serial_port.time
    serial_port.time = SimpleNamespace(monotonic=lambda: now[0])
    stand_in = SimpleNamespace(close=lambda: None)
    port.__dict__.update(path="/dev/line", rate=9600, tell=told.append, serial=stand_in, tries_at=0.0, told_stolen=-serial_port.STOLEN_AGAIN, is_awaited=True, causes={}, again=serial_port.AGAIN,
                         back_at=-serial_port.STAYS, taps=[], is_hung_up=lambda: False, others=lambda: ["another (process 1)"])

    def opens():
        if fails[0]:
            raise OSError(fails[0], "")
        port.serial = stand_in

    port.open = opens
    try:
        waits = []
        for _ in range(9):  # each time it is gone as soon as it is back
            port.pulled()
            waits.append(round(port.tries_at - now[0], 3))
            now[0] = port.tries_at - 0.01
            asks(port.comes_back(), False, "a port that isn't tried yet is back")
            now[0] = port.tries_at
            asks(port.comes_back(), True, "a port that is there isn't back")
        asks(waits, [0.5, 1.0, 2.0, 4.0, 8.0, 16.0, 30.0, 30.0, 30.0], "how long a port that comes and goes is left")
        now[0] += 10
        port.pulled()
        asks(port.tries_at - now[0], 0.5, "how long a port that had stayed is left")
        told.clear()
        counts = []
        for cause in (errno.ENOENT, errno.EACCES, errno.EACCES, errno.EACCES, errno.ENOENT, errno.EBUSY, errno.EBUSY):
            fails[0], now[0] = cause, port.tries_at
            port.comes_back()
            counts.append(len(told))
        asks([each.partition(": ")[0] + (" no permission" if "no permission" in each else " in use" if "in use" in each else "") for each in told], ["not back no permission", "not back in use"], f"what is told of a port that isn't back, {told}")
        asks(counts, [0, 0, 1, 1, 1, 1, 2], "when it is told that a port isn't back")
        told.clear()
        for moment in (0, 1, 9.9, 10, 15):
            now[0] = 1000 + moment
            port.failed()
        asks(told, ["bytes taken from /dev/line by another (process 1): end it"] * 2, "what is told of bytes that were taken")
    finally:
        serial_port.time = kept


ENDS = "import os, sys; made = os.openpty(); print(os.ttyname(made[1]), flush=True); sys.stdin.read()"


def looks_at_owners():
    """A program that has a port open is named, but for the one at the other end of a pseudo terminal, which takes no bytes; that one is named where it holds the port."""
    with subprocess.Popen([sys.executable, "-c", ENDS], stdin=subprocess.PIPE, stdout=subprocess.PIPE, text=True) as joined:
        path = joined.stdout.readline().strip()
        with open(path) as file, subprocess.Popen(["sleep", "60"], stdin=file) as other:
            names = [f"(process {each.pid})" for each in (joined, other)]
            asks([[name for name in names if any(name in text for text in found(path))] for found in (owner.holders, owner.others)], [names, names[1:]], "who has a pseudo terminal open")
            other.kill()
        joined.stdin.close()


def printed(kind, lines, **held):
    """What a stream of the program prints of these lines, without its process."""
    said = []
    stream = kind.__new__(kind)
    stream.console = SimpleNamespace(raw=said.append, say=said.append, note=lambda line: said.append(f"note: {line.partition(':')[0]}"), has_times=False)
    stream.__dict__.update(held)
    for line in lines:
        stream.prints(line)
    return said


def looks_at_lines():
    lines = ["1:1 cmd 5 seq 1 crc POLL", "1:9 reply 5 seq 1 crc ACK", "2:1 cmd 6 seq 1 crc OUT 0:5:30", "2:9 refused F3", "3:1 skip FF"]
    held = {"runs": shown.deque(), "first": 1, "packets": 0, "is_hopeless": False, "lock": shown.threading.Lock()}
    asks(printed(shown.Shown, lines, **held, address=None, is_all=False, bytes=60), [line[4:] for line in lines[2:]], "what `show` prints")
    asks(printed(shown.Shown, lines, **held, address=None, is_all=True, bytes=60), [line[4:] for line in lines], "what `show --all` prints")
    asks(printed(shown.Shown, lines, **held, address=6, is_all=True, bytes=60), ["cmd 6 seq 1 crc OUT 0:5:30"], "what `show --address` prints")
    for count, wanted in ((999, []), (1000, ["note: 1000 bytes and no packet"])):
        asks([each for each in printed(shown.Shown, ["1:1 skip FF", "1:9 refused F3"], **held, address=None, is_all=False, bytes=count) if each.startswith("note")], wanted, f"what is told of {count} bytes without a packet")
    objects = ['{"kind": "told", "address": 5, "text": "device 5 opened", "stamp": null}', '{"kind": "table", "address": 6}', '{"kind": "diagnosis", "text": "6 never answered"}', '{"kind": "counts"}']
    asks([each.partition('"kind": "')[2].partition('"')[0] for each in printed(listen.Objects, objects, address=6)], ["table", "diagnosis", "counts"], "which objects are of one device")
    asks(len(printed(listen.Objects, objects, address=None)), 4, "how many objects are of all devices")


def looks_at_options():
    """The words with which the program stands beside: a table each so many seconds, and each packet."""
    for kind, first in ((listen.Monitor, ["monitor", "--raw"]), (listen.Objects, ["monitor", "--raw", "--json"])):
        for given, rest in ((), ()), (("--every", "7"), ["--every", "7"]), (("--all",), ["--packets"]), (("--all", "--every", "7"), ["--every", "7", "--packets"]):
            made, kept = [], program.Stream.__init__
            program.Stream.__init__ = lambda self, path, told, beside: made.append(told)
            try:
                kind(words.Words([*given, "PORT", "9600", "monitor"]), None, "osdp")
            finally:
                program.Stream.__init__ = kept
            asks(made, [[*first, *rest]], f"the words of {kind.__name__} for {given}")
    asks(program.PROGRAM_FAULTS, (2, 3, 4), "the statuses with which the program has told its fault")


def looks_at_live():
    """Of 12 packets two are repeats, and one has no reply, where a BUSY and a NAK are replies. The tables go ten seconds back."""
    old = live.Table(100.0, 0, [], ["5   0"])
    new = live.Table(110.0, 0, ["+5  12 0 2  9 1 1  0 0 0  0 0  0"], ["5   0"])
    asks(live.since([old, new], 9600)[2].split(), ["5", "12", "16.7%", "8.3%", "online"], "what --live says of a device")
    for moments, left in (((0, 5, 10, 15), [5, 15]), ((0, 9, 10), [0, 10]), ((0, 30), [0, 30]), ((0, 9.5, 19.4, 19.6), [9.5, 19.6])):
        kept = live.Live.__new__(live.Live)
        kept.tables = live.deque()
        for moment in moments:
            kept.keep(live.Table(moment, 0, [], []))
        asks([kept.tables[0].moment, kept.tables[-1].moment], left, f"from when to when the last seconds of {moments} go")


def refused(*given):
    """Whether these words are refused."""
    return isinstance(stop_of(lambda: words.Words(given)), tuple)


def looks_at_words():
    """Each option goes with the commands that the manual names, and with no other."""
    of = {"monitor": (), "show": (), "find": (), "panel": ("5",), "reader": ("5",), "test": ("device", "5"), "trace": ("FILE",)}
    fits = {("--all",): "monitor show panel reader", ("--address", "5"): "monitor show", ("--every", "5"): "monitor", ("--live",): "monitor", ("--json",): "monitor", ("--keep", "FILE"): "panel reader", ("--new", "--keep", "FILE"): "panel reader",
            ("--trace", "FILE"): "panel reader test", ("--size", "5", "--trace", "FILE"): "panel reader", ("--size", "5"): "trace", ("--osdpcap",): "trace", ("--osdpcap", "--trace", "FILE"): "panel reader",
            ("--may", "silence"): "test", ("--sum",): "test", ("--go-on",): "test", ("--tap",): "test", ("--set-address", "5"): "find", ("--set-rate", "9600"): "find", ("--plain",): " ".join(of)}
    for option, commands in fits.items():
        asks(" ".join(command for command, rest in of.items() if not refused(*option, "PORT", "9600", command, *rest)), " ".join(each for each in of if each in commands.split()), f"what {option} goes with")
    for option, most in (("--address", 126), ("--set-address", 126), ("--every", 3600000), ("--size", 100000), ("--set-rate", 4000000)):
        command = {"--address": ("show",), "--every": ("monitor",), "--size": ("trace", "FILE")}.get(option, ("find",))
        asks((refused(option, str(most), "PORT", "9600", *command), refused(option, str(most + 1), "PORT", "9600", *command)), (False, True), f"the greatest {option}")
    asks((refused("PORT", "4000000", "show"), refused("PORT", "4000001", "show"), refused("PORT", "0", "show")), (False, True, True), "the greatest rate")
    for word, wanted in (("5", [5]), ("0-2,126", [0, 1, 2, 126]), ("6,5", [6, 5]), ("5-5", [5]), ("127", None), ("2-1", None), ("5,", None), ("", None), ("1-", None), ("5-127", None)):
        asks(stop_of(lambda: words.addresses(word)) if wanted else isinstance(stop_of(lambda: words.addresses(word)), tuple), wanted or True, f"the addresses {word}")
    for names, wanted in ((range(16), 16), (range(17), "device 16 is the 17th of the list: a line has at most 16"), ([5, 5], "device 5 stands twice in the list: each has an address of its own"), ([127], "address 127: an address is a number from 0 to 126")):
        made = stop_of(lambda: devices.new_devices(list(names), 9600, None))
        asks(made[1] if isinstance(made, tuple) else len(made), wanted, f"a panel of {list(names)}")


def run():
    with tempfile.TemporaryDirectory() as name:
        for looks in (looks_at_places, looks_at_sizes):
            looks(Path(name))
    for looks in (looks_at_bursts, looks_at_the_port, looks_at_pulled_ports, looks_at_owners, looks_at_lines, looks_at_options, looks_at_live, looks_at_words):
        looks()
    for fault in faults:
        print(f"port_pieces: {fault}")
    print(f"port_pieces: {len(STANDS) + len(REFUSED)} stores, {len(faults)} faults")
    return 1 if faults else 0


if __name__ == "__main__":
    sys.exit(run())
