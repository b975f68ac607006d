#!/usr/bin/env python3
"""Tests the package for Python, over the library that OSDP_LIBRARY names.

- Its structs, functions and numbers are those of include/osdp.h. It takes no library of another version, nor one whose structs have other sizes.
- Each public name has a docstring, and each public call types.
- A session between both ends: an order is done once, an event is told once, where answers are lost too; a device keeps what it is told, and lets old events go.
- Orders have numbers, which go on, and a last moment: none goes out after it. An event tells since when it is there.
- Each kind of report, each answer that a program sets, and the defaults of a device are those that the docstrings say; a closed machine gives its memory back.
- Calls do their work when they are called, with no generator to be drained; bytes may be a bytearray or a memoryview; a message that is none is refused where it is made.
- Each refusal comes as an OsdpError with its status, also to another process, and changes nothing; what ctypes would cut is no number for it.
- A machine can't be copied, and threads that call one machine at the same time each get what they would get alone.
- A monitor tells what the rows of `osdp monitor` have.
- A door of the examples keeps the rate that its port has.
- The example prints what docs/GUIDE.md promises of such a session."""
import copy
import ctypes
import inspect
import os
import pickle
import re
import select
import shutil
import subprocess
import sys
import tempfile
import termios
from pathlib import Path

TOP = Path(__file__).resolve().parent.parent
sys.path.insert(0, str(TOP / "python"))
sys.dont_write_bytecode = True

import osdp  # noqa: E402
from osdp import _library as library  # noqa: E402
from osdp import message as messages  # noqa: E402
from rows import rows_of  # noqa: E402

faults = []
PLAIN = {"uint8_t": "c_uint8", "uint16_t": "c_uint16", "uint32_t": "c_uint32", "uint64_t": "c_uint64", "size_t": "c_size_t", "osdp_size": "c_size_t", "char": "c_char", "void": "c_void_p"}
SAME = {"c_ubyte": "c_uint8", "c_ushort": "c_uint16", "c_uint": "c_uint32", "c_ulong": "c_uint64", "c_size_t": "c_uint64"}


def tell(what, wanted, got):
    if wanted != got:
        faults.append(f"{what}: {got!r}, and not {wanted!r}")


def header():
    """The header without comments."""
    return re.sub(r"/\*.*?\*/", "", (TOP / "include/osdp.h").read_text(), flags=re.S).replace("OSDP_CHECKED ", "").replace("OSDP_ALIGNED", "")


def same(name):
    return SAME.get(name, name)


def field_of_c(text):
    """A field's name and its kind, as ctypes names it."""
    kind, name, count = re.fullmatch(r"(?:struct )?(\w+) +\*? *(\w+)(?:\[(\d+)\])?", text.strip()).groups()
    kind = "c_void_p" if "*" in text else PLAIN.get(kind) or library.STRUCTS[kind].__name__
    return name, f"{same(kind)}_Array_{count}" if count else same(kind)


def field_of_python(name, kind):
    array = re.fullmatch(r"(\w+?)_Array_(\d+)", kind.__name__)
    return name, f"{same(array[1])}_Array_{array[2]}" if array else same(kind.__name__)


def judge_structs(text):
    for name, struct in library.STRUCTS.items():
        body = re.search(rf"^(?:typedef )?struct {name} \{{(.*?)^\}}", text, re.M | re.S)[1]
        wanted = [field_of_c(each) for each in body.split(";") if each.strip()]
        tell(f"struct {name}", wanted, [field_of_python(*each) for each in struct._fields_])
    for name, size in re.findall(r"(\d[\d,]*) bytes\. \*/\n(?:typedef )?struct (\w+)", (TOP / "include/osdp.h").read_text()):
        if size in library.STRUCTS:
            tell(f"sizeof {size}", int(name.replace(",", "")), ctypes.sizeof(library.STRUCTS[size]))


def parameter(text):
    """The kind of a parameter of C, as ctypes has it here: bytes and texts are char pointers."""
    kind = re.sub(r"\bconst |\bstruct ", "", text).strip().rsplit(" ", 1)[0]
    if "*" not in text:
        return same(PLAIN[kind])
    return "c_char_p" if kind in ("uint8_t", "char") else f"LP_{same(library.STRUCTS[kind].__name__ if kind in library.STRUCTS else PLAIN[kind])}"


def judge_functions(text):
    declared = dict(re.findall(r"^(?:osdp_status|void) (osdp_\w+)\(([^;{]*)\);", text, re.M | re.S))
    for name, takes in library.TAKES.items():
        wanted = [parameter(" ".join(each.split())) for each in declared[name].split(",")]
        got = [re.sub(r"^LP_(\w+)$", lambda it: f"LP_{same(it[1])}", each.__name__) for each in takes]
        tell(name, wanted, [each if each.startswith("LP_") else same(each) for each in got])
    gives_none = set(re.findall(r"^void (osdp_\w+)\(", text, re.M)) & library.TAKES.keys()
    tell("functions without a status", gives_none, library.NO_STATUS)


def judge_numbers(text):
    numbers = {name: int(value, 0) for name, value in re.findall(r"\bOSDP_(\w+) = (\w+)", text)}
    plain = re.search(r"typedef enum osdp_status \{(.*?)\}", text, re.S)[1]
    tell("statuses", {name: numbers[name] for name in re.findall(r"OSDP_(\w+) =", plain)}, {each.name: each.value for each in osdp.Status})
    for kind, front, without in ((osdp.Kind, "REPORT_", "NONE"), (osdp.Cause, "LOST_", ""), (osdp.Said, "SAID_", ""), (osdp.Order, "ORDER_", ""), (osdp.Expired, "EXPIRED_", "NONE"), (osdp.Prints, "PRINTS_", "")):
        wanted = {name[len(front):]: value for name, value in numbers.items() if name.startswith(front) and name != front + without}
        tell(front, wanted, {each.name: each.value for each in kind})
    tell("the longest text", numbers["MOST_TEXT"], messages.MOST_TEXT)
    tell("RAW", numbers["RAW"], messages.RAW)


def judge_docs():
    for name in osdp.__all__:
        thing = getattr(osdp, name)
        calls = [(name, thing)] if inspect.isfunction(thing) else [(f"{name}.{each}", it) for each, it in vars(thing).items() if inspect.isfunction(it) and it.__module__.startswith("osdp")]
        for each, it in [(name, thing), *calls]:
            if not each.split(".")[-1].startswith("_") and not inspect.getdoc(it):
                faults.append(f"{each} has no docstring")
        for each, it in calls:
            if "return" not in it.__annotations__ or len(it.__annotations__) <= len([one for one in inspect.signature(it).parameters if one not in ("self", "_")]):
                if not each.endswith(("__repr__", "__eq__", "__hash__", "__replace__", "__setattr__", "__delattr__", "__init__")):
                    faults.append(f"{each} has no types")
    tell("version", library.library_version(), osdp.__version__)
    tell("version of the header", re.search(r'OSDP_VERSION "(.*)"', (TOP / "include/osdp.h").read_text())[1], osdp.__version__)
    tell("version of the package", re.search(r'^version = "(.*)"', (TOP / "python/pyproject.toml").read_text(), re.M)[1], osdp.__version__)


def refused(what, status, call, *words):
    """The call is refused with this status."""
    try:
        call(*words)
    except osdp.OsdpError as error:
        tell(what, status, error.status)
    else:
        faults.append(f"{what} isn't refused")


def sent(panel, now):
    """What a panel has to say at a moment."""
    return panel.write(now) if panel.tick(now) else b""


def told_of(panel, data, now):
    """The reports of a turn in which these bytes come. Where they have brought one, the turn sends nothing."""
    panel.hear(data, now)
    told = panel.reports()
    tell("a packet in the turn that has brought a report", b"", sent(panel, now) if told else b"")
    return told


def judge_session(loses):
    """A panel and a device, between which the answers at these turns are lost: the order is done once, and the card told once."""
    done, told = [], []
    with osdp.Panel(check=0) as panel, osdp.Device(5, capacity=2) as device:
        device.set_outputs(bytes(1))
        door = panel.add(5)
        panel.submit(door, "OUT 0:5:30")
        panel.begin(door, 0)
        device.event("RAW 0 1 26 12345640")
        for turn, now in enumerate(range(0, 6000, 10)):
            for answer in device.hear(sent(panel, now), now):
                done += [str(answer.command)] if answer.order is osdp.Order.ONCE else []
                lost = answer.data and loses and loses[0] <= turn
                if lost:
                    loses.pop(0)
                panel.hear(b"" if lost else answer.data, now)
            told += list(panel.reports())
        tell("waiting", (0, 0), (panel.waiting(door), device.waiting()))
        tell("closed", (False, False), (panel.is_closed(door), device.is_closed()))
    tell("done", ["OUT 0:5:30"], done)
    tell("told", ["OPENED", "SETTLED", "EVENT"], [each.kind.name for each in told])
    tell("settled", ("OUT 0:5:30", "ACK"), (str(told[1].command), str(told[1].reply)))
    tell("the card", osdp.Card(0, 1, 26, bytes.fromhex("12345640")), told[2].reply.card())
    tell("a card of an ACK", None, told[1].reply.card())


def judge_again():
    """The panel has a card whose answer the device takes for lost, since nothing comes any more: in the next session the card may have been told before."""
    told = []
    with osdp.Panel() as panel, osdp.Device(5) as device:
        door = panel.add(5)
        device.event("RAW 0 0 26 12345640")
        device.event("KEYPAD 0 31")
        panel.begin(door, 0)
        for now in range(0, 4000, 10):
            burst = sent(panel, now)
            is_cut = told and told[-1][0] == "EVENT" and len(told) == 2
            for answer in device.hear(b"" if is_cut else burst, now):
                panel.hear(answer.data, now)
            for report in panel.reports():
                told.append((report.kind.name, report.maybe_again, report.cause))
                if report.kind is osdp.Kind.LOST:
                    panel.begin(door, now)
    lost = ("LOST", False, osdp.Cause.NO_REPLY)
    tell("told again", [("OPENED", False, None), ("EVENT", False, None), lost, ("OPENED", False, None), ("EVENT", True, None), ("EVENT", False, None)], told)


def judge_pieces():
    """Two packets at once are answered twice, and so is one after more noise than a device has room for."""
    identify = bytes.fromhex("530508000061003F")  # an ID with number 0 to address 5
    with osdp.Device(5) as device:
        tell("two packets", 2, len(list(device.hear(identify * 2, 0))))
        tell("after noise", 1, len(list(device.hear(bytes(9000) + identify, 1))))
        tell("half a packet", 0, len(list(device.hear(identify[:4], 2))))
        tell("its other half", 1, len(list(device.hear(identify[4:], 3))))
        cut = bytes.fromhex("5305280000")  # the beginning of a packet of 40 bytes
        for now, ends in ((1000, lambda: device.tick(1020)), (2000, lambda: device.silence(2001))):
            tell("two packets within a run", 0, len(list(device.hear(cut + identify * 2, now))))
            tell("two packets of a run that is over", 2, len(list(ends())))


def judge_refusals():
    panel, device = osdp.Panel(capacity=1), osdp.Device(7, capacity=1)
    entry = panel.add(7)
    refused("an address twice", osdp.Status.ADDRESS_TAKEN, panel.add, 7)
    refused("address 127", osdp.Status.PANEL_OUT_OF_RANGE, panel.add, 127)
    refused("no entry", osdp.Status.NO_ENTRY, panel.begin, 1, 0)
    refused("a POLL", osdp.Status.POLL_SUBMITTED, panel.submit, entry, "POLL")
    refused("no command", osdp.Status.BAD_TEXT, panel.submit, entry, "OPEN")
    refused("no code", osdp.Status.UNKNOWN_CODE, panel.submit_message, entry, 0x00)
    refused("code 255", osdp.Status.UNKNOWN_CODE, panel.submit_message, entry, 0xFF)
    panel.submit_message(entry, 0x68, bytes.fromhex("00051E00"))
    refused("one command too many", osdp.Status.COMMANDS_FULL, panel.submit, entry, "ID 0")
    tell("withdrawn", "OUT 0:5:30", str(panel.withdraw(entry)))
    tell("nothing to withdraw", None, panel.withdraw(entry))
    panel.retarget(entry, 8)
    tell("address", (8, 7), (panel.address(entry), device.address()))
    tell("no deadline", None, panel.next_deadline())
    panel.begin(entry, 100)
    tell("deadline", 500, panel.next_deadline())
    refused("too far", osdp.Status.MOMENT_TOO_FAR, panel.tick, 10**12)
    panel.set_moment(10**12)
    refused("no event", osdp.Status.NO_EVENT, device.event_message, 0x40, b"")
    device.event("KEYPAD 0 31")
    refused("one event too many", osdp.Status.EVENTS_FULL, device.event, "KEYPAD 0 32")
    refused("not asked", osdp.Status.NOT_ASKED, device.answer_done)
    list(device.hear(b"", 1))
    tell("offline", True, device.is_offline(1))
    tell("not too old", [], list(device.expire_events(2, 5)))
    device.close(), device.close(), panel.close()
    refused("a closed device", osdp.Status.NO_MACHINE, device.waiting)
    refused("a closed panel", osdp.Status.NO_MACHINE, panel.tick, 0)
    for what, call in (("a code of 256", lambda: osdp.Panel().submit_message(0, 256)), ("a moment below 0", lambda: osdp.Panel().tick(-1)),
                       ("an address of 2**32", lambda: osdp.Device(2**32)), ("a vendor of two bytes", lambda: osdp.Device(5, vendor=b"SI")),
                       ("an entry below 0", lambda: osdp.Panel().begin(-1, 0)), ("an entry of 2**64", lambda: osdp.Panel().waiting(2**64)),
                       ("a tamper of 256", lambda: osdp.Device(5).set_local(256, 0)), ("a busy of 2**32", lambda: osdp.Device(5).set_busy(2**32)),
                       ("a maker of two bytes", lambda: osdp.Device(5).answer_maker(b"SI", b"")), ("firmware of two numbers", lambda: osdp.Device(5, firmware=(1, 2))),
                       ("an address of 2**32 of a panel", lambda: osdp.Panel().add(2**32)), ("a command of code 300", lambda: osdp.Message(300, b"", False)),
                       ("a code below 0", lambda: osdp.Message(-1, b"", True)), ("a reply that is too long", lambda: osdp.Message(0x53, bytes(1433), True)),
                       ("a command that is too long", lambda: osdp.Panel().submit_message(0, 0x80, bytes(1433))), ("an event that is too long", lambda: osdp.Device(5).event_message(0x53, bytes(1433)))):
        try:
            call()
            faults.append(f"{what} is taken")
        except ValueError:
            pass
    judge_messages()
    try:
        osdp.Panel(reply_waits=200)
        faults.append("a setting that there isn't is taken")
    except TypeError as error:
        tell("a setting that there isn't", "a panel has no setting reply_waits", str(error))
    error = osdp.OsdpError(osdp.Status.NO_ENTRY)
    copied = pickle.loads(pickle.dumps(error))
    tell("a refusal in another process", (osdp.OsdpError, error.status, str(error)), (type(copied), copied.status, str(copied)))


def judge_messages():
    """A message of the longest data is made, of whatever has bytes; of a bytearray it has a copy. What has no bytes is refused: `bytes(5)` would be five zeros."""
    tell("the longest message", 1432, len(osdp.Message(0x80, bytes(1432), False).data))
    data = bytearray(b"\0\5\x1e\0")
    message = osdp.Message(0x68, data, False)
    data[0] = 9
    tell("a message of a bytearray", ("OUT 0:5:30", bytes, True), (str(message), type(message.data), message == osdp.Message(0x68, memoryview(b"\0\5\x1e\0"), False)))
    identify = bytes.fromhex("530508000061003F")
    for kind in (bytes, bytearray, memoryview):
        with osdp.Panel(check=0) as panel, osdp.Device(5, vendor=kind(b"SIM"), capabilities=kind(b"\2\1\4")) as device, osdp.Monitor() as monitor:
            entry, told = panel.add(5), []
            panel.submit_message(entry, 0x68, kind(b"\0\2\0\0")), panel.begin(entry, 0)
            device.set_inputs(kind(b"\1")), device.set_outputs(kind(b"\0")), device.set_readers(kind(b"\0")), device.event_message(0x53, kind(b"\0\1\x31"))
            for now in range(0, 2000, 10):
                for answer in device.hear(kind(sent(panel, now)), now):
                    panel.hear(kind(answer.data), now)
                told += [str(report.reply) for report in panel.reports()]
            monitor.hear(kind(identify))
            tell(f"bytes as {kind.__name__}", ["PDID 53494D 0 0 0 0 0 0", "ACK", "KEYPAD 0 31"], told)
    for what in (5, "53", None, [0x53]):
        for call in (lambda: osdp.Message(0x80, what, False), lambda: osdp.Panel().hear(what, 0), lambda: osdp.Device(5).hear(what, 0), lambda: osdp.Monitor().hear(what),
                     lambda: osdp.Device(5).set_inputs(what), lambda: osdp.Panel().submit_message(0, 0x68, what)):
            try:
                call()
                faults.append(f"{what!r} is taken for bytes")
            except TypeError as error:
                tell("of what has no bytes", f"bytes, a bytearray or a memoryview, and not {type(what).__name__}", str(error))


def judge_calls():
    """A call does its work when it is called, whether or not what it gives is looked at: a run is over by a bare `tick`, bytes are heard by a bare `hear`, and an event
    goes by a bare `expire_events`."""
    identify, cut = bytes.fromhex("530508000061003F"), bytes.fromhex("5305280000")
    for does in (lambda device: device.tick(1020), lambda device: device.silence(1001)):
        with osdp.Device(5) as device:
            device.hear(cut, 1000)
            does(device)
            tell("a run that a bare call has ended", 1, len(device.hear(identify, 1030)))
    with osdp.Device(5) as device:
        device.hear(identify, 0)
        tell("a session that a bare call has begun", False, device.is_closed())
        device.event("KEYPAD 0 31")
        device.expire_events(10000, 1)
        tell("an event that a bare call has let go", 0, device.waiting())
    with osdp.Panel(check=0, quiet_wait=10) as panel, osdp.Device(5) as device:
        panel.begin(panel.add(5), 0)
        panel.hear(device.hear(sent(panel, 10), 20)[0].data, 20)
        panel.reports()
        tell("a report that a bare call has taken", [], panel.reports())


def judge_copies():
    """A machine can't be copied, nor handed to another process: two handles of one would be."""
    for machine in (osdp.Panel(), osdp.Device(5), osdp.Monitor()):
        for copies in (copy.copy, copy.deepcopy, pickle.dumps):
            try:
                copies(machine)
                faults.append(f"{copies} of {machine} is taken")
            except TypeError as error:
                tell("of a copy", f"a {type(machine).__name__} is one machine: it can't be copied, and no other process can have it", str(error))
        machine.close()


THREADS = """
import sys, threading
sys.path.insert(0, {path!r})
import osdp
sys.setswitchinterval(1e-6)
panel, faults = osdp.Panel(capacity=1024), []
doors = [panel.add(address) for address in range(4)]
def gives(door, text):
    for _ in range(400):
        for _ in range(8):
            panel.submit(door, text)
        if panel.waiting(door) != 8:
            faults.append(f"{{panel.waiting(door)}} wait at {{door}}, and not 8")
        told = [str(panel.withdraw(door)) for _ in range(9)]
        if told != [text] * 8 + ["None"]:
            faults.append(f"of {{door}} come back {{told}}")
threads = [threading.Thread(target=gives, args=(door, f"OUT {{door}}:5:30")) for door in doors]
[each.start() for each in threads]
[each.join() for each in threads]
print(len(faults), *faults[:3], sep="\\n")
"""


def judge_threads():
    """In a process of its own, since two calls at once on one machine may end it."""
    done = subprocess.run([sys.executable, "-B", "-c", THREADS.format(path=str(TOP / "python"))], capture_output=True, text=True, timeout=120)
    tell("four threads with one panel", (0, "0\n", ""), (done.returncode, done.stdout, done.stderr[-300:]))


def judge_rooms():
    """Of five bytes one OUT waits; of four an event of three, and no other."""
    with osdp.Panel(room=5) as panel, osdp.Device(5, room=4) as device:
        entry = panel.add(5)
        panel.submit(entry, "OUT 0:5:30")
        refused("a command without room", osdp.Status.COMMANDS_FULL, panel.submit, entry, "LSTAT")
        device.event("LSTATR 0 1")
        refused("an event without room", osdp.Status.EVENTS_FULL, device.event, "LSTATR 0 1")
    refused("no room for commands", osdp.Status.PANEL_OUT_OF_RANGE, lambda: osdp.Panel(room=0))
    refused("no room for events", osdp.Status.DEVICE_OUT_OF_RANGE, lambda: osdp.Device(5, room=0))


def judge_between():
    """Commands that come as fast as they go: a card is told after two of them at the most. What waits is counted and withdrawn."""
    settled, cards = 0, 0
    with osdp.Panel(capacity=4) as panel, osdp.Device(5) as device:
        door = panel.add(5)
        panel.begin(door, 0)
        device.event("KEYPAD 0 31")
        for now in range(0, 4000):
            while panel.waiting(door) < 4:
                panel.submit(door, "LSTAT")
            for answer in device.hear(sent(panel, now), now):
                panel.hear(answer.data, now)
            for report in panel.reports():
                settled += report.kind is osdp.Kind.SETTLED
                cards += report.kind is osdp.Kind.EVENT
                if report.kind is osdp.Kind.EVENT:
                    tell("commands before the card", True, settled <= 2)
    tell("cards, and commands with a POLL 50 ms after each", (1, True), (cards, 50 < settled <= 80))
    with osdp.Panel() as panel:
        door, texts = panel.add(5), ["LSTAT", "ISTAT", "OSTAT"]
        for text in texts:
            panel.submit(door, text)
        tell("waiting", 3, panel.waiting(door))
        tell("withdrawn in order", texts, [str(panel.withdraw(door)) for _ in texts])


def judge_device():
    """What a device is told, and what its program says to a command."""
    def answers(command):
        if str(command).startswith("MFG"):
            device.answer_maker(b"SIM", b"\2")
        if str(command).startswith("BUZ"):
            device.answer_refused(3)

    with osdp.Panel() as panel, osdp.Device(5, vendor=b"SIM", model=1, version=2, serial=3, firmware=(4, 5, 6), capabilities=bytes([2, 1, 4]), on_command=answers) as device:
        device.set_inputs(b"\1\0"), device.set_outputs(b"\0\1"), device.set_readers(b"\0"), device.set_local(True, False)
        entry, replies = panel.add(5), []
        for text in ("ID 0", "CAP 0", "LSTAT", "ISTAT", "OSTAT", "RSTAT", "OUT 2:5:1", "MFG 53494D 01", "BUZ 0 2 1 1 1"):
            panel.submit(entry, text)
        panel.begin(entry, 0)
        for now in range(0, 4000, 50):
            for answer in device.hear(sent(panel, now), now):
                panel.hear(answer.data, now)
            replies += [str(each.reply) for each in panel.reports() if each.kind is osdp.Kind.SETTLED]
        device.event("KEYPAD 0 31"), device.event("KEYPAD 0 30")
        tell("lapsed", [], list(device.expire_events(5000, 1)))
        expired = [(how, str(event), event.is_reply) for how, event in device.expire_events(14000, 1)]
        tell("withdrawn", [(osdp.Expired.WITHDRAWN, "KEYPAD 0 31", True), (osdp.Expired.WITHDRAWN, "KEYPAD 0 30", True)], expired)
        device.event("KEYPAD 0 32")
        tell("never offered", (None, "KEYPAD 0 32", None), (device.lapse_event(), str(device.withdraw_event()), device.withdraw_event()))
        device.event("KEYPAD 0 33")
        tell("the answer that is lost", ["KEYPAD"], [{0x53: "KEYPAD"}.get(answer.data[5]) for answer in device.hear(sent(panel, 14000), 14000)])
        tell("offered", (None, "KEYPAD 0 33", None), (device.withdraw_event(), str(device.lapse_event()), device.lapse_event()))
    tell("replies", ["PDID 53494D 1 2 3 4 5 6", "PDCAP 2:1:4", "LSTATR 1 0", "ISTATR 0100", "OSTATR 0001", "RSTATR 00", "NAK 9", "MFGREP 53494D 02", "NAK 3"], replies)


def checked(packet):
    """The packet with its sum: all its bytes together are a multiple of 256."""
    return packet + bytes([-sum(packet) & 255])


def judge_reports():
    """What a panel is told by `silence` and `set_moment`, and what a report says of an answer that isn't the expected one."""
    busy, pdid = checked(bytes.fromhex("538507000079")), checked(bytes.fromhex("538513000045") + bytes(range(12)))
    raw_of_none, nak_3 = checked(bytes.fromhex("53850800015000")), checked(bytes.fromhex("53850800024103"))
    with osdp.Panel(check=0, quiet_wait=410, reply_wait=230, poll_interval=90, busy_wait=170, busy_limit=0, gap=30) as panel:
        door = panel.add(5)
        panel.submit_message(door, 0x80, bytes(range(3, 12)))
        tell("the data of a command", bytes(range(3, 12)), panel.withdraw(door).data)
        panel.begin(door, 0)
        sent(panel, 410)
        panel.hear(b"\x53", 500)
        tell("a run is over", 530, panel.next_deadline())
        panel.silence(501)
        tell("an answer is waited for", 640, panel.next_deadline())
        tell("too busy", [(osdp.Kind.LOST, osdp.Cause.TOO_BUSY, None)], [(each.kind, each.cause, each.code) for each in told_of(panel, busy, 510)])
        panel.begin(door, 600)
        sent(panel, 1010)
        tell("opened", [osdp.Kind.OPENED], [each.kind for each in told_of(panel, pdid, 1020)])
        sent(panel, 1110)
        tell("unread", [(osdp.Kind.UNREAD, None, None, 0x50)], [(each.kind, each.command, each.cause, each.code) for each in told_of(panel, raw_of_none, 1120)])
        sent(panel, 1210)
        tell("answered", [(osdp.Kind.ANSWERED, "NAK 3", None)], [(each.kind, str(each.reply), each.code) for each in told_of(panel, nak_3, 1220)])
        late = 3 * 86_400_000
        refused("after a sleep", osdp.Status.MOMENT_TOO_FAR, panel.tick, late)
        refused("a packet after a sleep", osdp.Status.MOMENT_TOO_FAR, panel.write, late)
        panel.set_moment(late)
        tell("a POLL after a sleep", 7, len(sent(panel, late)))


def runs(panel, device, until, start=0, hears=lambda now: True):
    """Both ends run up to a moment. What went out, with its moment and code, and what is told. `hears` tells whether the device hears at a moment."""
    bursts, told, heard = [], [], b""
    for now in range(start, until):
        panel.hear(heard, now)
        told += panel.reports()
        burst, heard = sent(panel, now), b""
        bursts += [(now, burst[5])] if burst else []
        for answer in device.hear(burst, now) if hears(now) else ():
            heard += answer.data
    return bursts, told


def judge_orders():
    """Numbers that go on and are used up, last moments, what is withheld, and since when an event is there."""
    with osdp.Panel() as panel, osdp.Device(5) as device:
        door = panel.add(5, 7)
        panel.begin(door, 0)
        tell("numbers", (7, 8), (panel.submit(door, "LSTAT"), panel.submit_message(door, 0x65, until=10000)))
        refused("a POLL has no number", osdp.Status.POLL_SUBMITTED, panel.submit, door, "POLL")
        device.event("KEYPAD 0 31")
        bursts, told = runs(panel, device, 800)
        polled = next(now for now, code in bursts if code == 0x60)
        tell("told by numbers", [("OPENED", None, None), ("SETTLED", 7, None), ("EVENT", None, polled), ("SETTLED", 8, None)], [(each.kind.name, each.number, each.since) for each in told])
        tell("the next one", 9, panel.next_number(door))
        refused("the next one of no entry", osdp.Status.NO_ENTRY, panel.next_number, 1)
        number, now = panel.submit_message(door, 0x64, until=799), panel.next_deadline()
        bursts, told = runs(panel, device, 1000, 800)
        tell("expired", [(osdp.Kind.EXPIRED, number, "LSTAT", None, False)], [(each.kind, each.number, str(each.command), each.reply, each.too_late) for each in told])
        tell("an order that is late is told at once", (True, []), (now <= 800, [code for _, code in bursts if code == 0x64]))
        panel.submit(door, "LSTAT", until=1000)
        tell("an order at its last moment", 0x64, sent(panel, 1000)[5])
    with osdp.Panel() as panel, osdp.Device(5) as device:
        door = panel.add(5, 2**64 - 2)
        tell("the last number", 2**64 - 2, panel.submit(door, "LSTAT"))
        refused("no number", osdp.Status.NUMBERS_USED_UP, panel.submit, door, "LSTAT")
        panel.withdraw(door)
    for late, length in ((0, 8), (1, 0)):
        with osdp.Panel() as panel, osdp.Device(5) as device:
            door = panel.add(5)
            panel.begin(door, 0)
            runs(panel, device, 600)
            tell("a tick without a packet", False, panel.tick(600))
            number = panel.submit(door, "LSTAT", until=700)
            tell("an order goes out", True, panel.tick(600))
            tell("what is written late", length, len(panel.write(700 + late)))
            tell("what was written is written once", b"", panel.write(700 + late))
            bursts, told = runs(panel, device, 3000, 701, hears=lambda now: False)
            tell("withheld", ([], [(osdp.Kind.LOST, number, True)]), ([code for _, code in bursts if code == 0x64], [(each.kind, each.number, each.too_late) for each in told]))


def judge_answers():
    """Each answer that a program sets, a COMSET, the defaults of a device, and its `silence` and `set_moment`."""
    asked = {"LSTAT": lambda: device.answer_local(False, True), "RSTAT": lambda: device.answer_list(b"\1\0\1"), "MFG 53494D 01": lambda: device.answer_done()}
    replies, moved = [], []
    with osdp.Panel(check=0) as panel, osdp.Device(5, on_command=lambda command: asked[str(command)]()) as device:
        door = panel.add(5)
        for text in (*asked, "COMSET 7 19200"):
            panel.submit(door, text)
        panel.begin(door, 0)
        for now in range(0, 4000, 10):
            for answer in device.hear(sent(panel, now), now):
                moved += [answer.moved] if answer.moved else []
                panel.hear(answer.data, now)
            replies += [str(each.reply) for each in panel.reports() if each.kind in (osdp.Kind.SETTLED, osdp.Kind.MOVED)]
        tell("answers that are set", ["LSTATR 0 1", "RSTATR 010001", "ACK", "COM 7 19200"], replies)
        tell("moved", [(7, 19200)], moved)
        for _ in range(64):
            device.event_message(0x53, bytes([0, 2, 0x31, 0x32]))
        refused("an event more than 64", osdp.Status.EVENTS_FULL, device.event, "KEYPAD 0 31")
        tell("the data of an event", "KEYPAD 0 3132", str(device.withdraw_event()))
    identify, cut = bytes.fromhex("530508000061003F"), bytes.fromhex("5305280000")
    for ends, now in ((lambda: device.tick(1019), 0), (lambda: device.tick(1020), 1), (lambda: device.silence(1001), 1)):
        with osdp.Device(5) as device:
            tell("a packet within a run", 0, len(list(device.hear(cut + identify, 1000))))
            tell("a packet of a run that is over, or isn't yet", now, len(list(ends())))
    with osdp.Device(5) as device:
        device.set_busy(True)
        busy = [each.said for each in device.hear(identify, 0)]
        device.set_busy(False)
        tell("a device that is busy for a while", ([osdp.Said.BUSY], [osdp.Said.ZERO]), (busy, [each.said for each in device.hear(identify, 1000)]))
        refused("a device after a sleep", osdp.Status.MOMENT_TOO_FAR, device.tick, 10**12)
        device.set_moment(10**12)
        tell("a packet after a sleep", 1, len(list(device.hear(identify, 10**12))))


def judge_memory():
    """Machines that are closed give their memory back: a thousand of each take no more than a few do."""
    def resident():
        return int(Path("/proc/self/statm").read_text().split()[1]) * os.sysconf("SC_PAGE_SIZE")

    def makes(count):
        for _ in range(count):
            with osdp.Panel() as panel, osdp.Device(5), osdp.Monitor() as monitor:
                panel.add(5)
                monitor.hear(bytes.fromhex("53050700006041"))

    makes(20)
    before = resident()
    makes(1000)
    tell("memory is given back", True, resident() - before < 2_000_000)


def judge_monitor():
    """What a monitor tells of the rows of `osdp monitor`, whose texts are worked by hand; a closed one hears nothing."""
    told = 0
    for row in rows_of(TOP / "tests/rows/monitor.txt"):
        for words in row.words:
            if words in (["monitor", "--hex"], ["monitor", "--hex", "--standard"], ["monitor", "--talk"]) and row.status < 2:
                with osdp.Monitor(osdp.Prints.TALK if "--talk" in words else osdp.Prints.FOUND, "--standard" in words) as monitor:
                    text = ""
                    for line in (each for each in row.input.decode().splitlines() if each and each[0] != "#"):
                        monitor.hear(bytes.fromhex(line))
                        monitor.silence()
                        text += monitor.text()
                    monitor.tell_table()
                    tell(f"{row.place}: the monitor", (row.output.decode(), bool(row.status), ""), (text + monitor.text(), monitor.is_wrong(), monitor.text()))
                    told += 1
    tell("rows of a monitor", True, told >= 25)
    long, short = osdp.Monitor(osdp.Prints.PACKETS), osdp.Monitor(osdp.Prints.PACKETS)
    text = ""
    for _ in range(300):
        for monitor in (long, short):
            monitor.hear(bytes.fromhex("53050700006041")), monitor.silence()
        text += short.text()
    tell("a text that is longer than a room", (True, True), (long.text() == text, len(text) > 4096))
    monitor = osdp.Monitor()
    monitor.close(), monitor.close()
    refused("a closed monitor", osdp.Status.NO_MACHINE, monitor.hear, b"")
    refused("a closed monitor's text", osdp.Status.NO_MACHINE, monitor.text)


def judge_example():
    done = subprocess.run([sys.executable, TOP / "python/examples/session.py"], capture_output=True, text=True)
    tell("the example", "OPENED: None PDID 53494D 0 0 1 0 0 0\ndone: OUT 0:5:30\nSETTLED: OUT 0:5:30 ACK\nEVENT: None KEYPAD 0 31\n", done.stdout + done.stderr)
    for name in ("door_panel", "door_device"):
        done = subprocess.run([sys.executable, "-B", TOP / f"python/examples/{name}.py", "port", "9600", "5"], capture_output=True, text=True)
        tell(f"{name} with a word too many", (2, "bad words: --help tells the right ones\n"), (done.returncode, done.stderr))


def judge_no_library():
    """Where the library isn't there, or is another one, a line says what to do."""
    for path, said in (("/nowhere/libosdp.so.0", "the library of osdp can't be opened"), ("libc.so.6", "the library of osdp is of another version than this package")):
        for name in ("session", "door_panel", "door_device", "stored_panel"):
            words = [sys.executable, "-B", TOP / f"python/examples/{name}.py", "--help"]
            done = subprocess.run(words, capture_output=True, text=True, env={**os.environ, "OSDP_LIBRARY": path})
            tell(f"{name} with {path}", (1, "", True, 1), (done.returncode, done.stdout, done.stderr.startswith(said), len(done.stderr.splitlines())))
    with tempfile.TemporaryDirectory() as folder:  # the library beside the package is taken, but where the variable names another one
        shutil.copytree(TOP / "python/osdp", f"{folder}/osdp", ignore=shutil.ignore_patterns("__pycache__"))
        (Path(folder) / "osdp/libosdp.so.0").symlink_to(os.environ["OSDP_LIBRARY"])
        for old, new, said in (('VERSION = "0.1.0"', 'VERSION = "0.2.0"', "the library of osdp has the version 0.1.0, and this package 0.2.0"),
                               ('("kind", c_uint32), ("detail", c_uint32), ("numbered", c_uint32)', '("kind", c_uint32), ("detail", c_uint64), ("numbered", c_uint32)',
                                "the library of osdp is of another version than this package: struct osdp_report has 2912 bytes there, and 2920 here")):
            text = Path(f"{folder}/osdp/_library.py").read_text()
            changed = re.sub(r"\s+".join(map(re.escape, old.split())), new, text)
            Path(f"{folder}/osdp/_library.py").write_text(changed)
            done = subprocess.run([sys.executable, "-B", "-c", "import osdp"], capture_output=True, text=True, env={**os.environ, "PYTHONPATH": folder})
            tell(f"a library that doesn't fit, {new}", (True, 1, f"ImportError: {said}"), (changed != text, done.returncode, done.stderr.splitlines()[-1]))
            Path(f"{folder}/osdp/_library.py").write_text(text)
        for named, wanted in (({}, osdp.__version__), ({"OSDP_LIBRARY": "/nowhere/libosdp.so.0"}, "")):
            rest = {name: value for name, value in os.environ.items() if name != "OSDP_LIBRARY"}
            done = subprocess.run([sys.executable, "-B", "-c", "import osdp; print(osdp.library_version())"], capture_output=True, text=True, env={**rest, "PYTHONPATH": folder, **named})
            tell(f"the library beside the package, {named}", wanted, done.stdout.strip())


def judge_door():
    """A door of the examples goes to a rate that its port takes, and keeps it. A COMSET to another one isn't answered, nor kept: an adapter may stay at its rate without
    a fault."""
    sys.path[:0] = [str(TOP / "python/examples")]
    import door_device
    from place import Kept
    from terminals import Terminal
    sets, stays = termios.tcsetattr, lambda end, when, found: sets(end, when, [*found[:4], termios.B9600, termios.B9600, found[6]])
    for sets_rate, place in ((sets, (7, (7, 19200), True)), (stays, (5, None, False))):
        with tempfile.TemporaryDirectory() as folder:
            terminal, termios.tcsetattr, store = Terminal(), sets_rate, {"--keep": f"{folder}/store", "--new": True}
            kept = Kept(store)
            door = door_device.Door(terminal.path, 9600, kept)
            door.take([osdp.Answer(osdp.Said.TAKEN, osdp.Order.NONE, None, b"COM", (7, 19200))])
            kept.store.close()
            found = (door.address, Kept({**store, "--new": False}).place, bool(select.select([terminal.end], [], [], 0.2)[0]))
            tell("a door's address, what it keeps, and whether it answers", place, found)
            tell("a door's device", 5, door.device.address())
            termios.tcsetattr = sets
            terminal.close()


if __name__ == "__main__":
    judge_structs(header()), judge_functions(header()), judge_numbers(header()), judge_docs()
    for lost in ([], [41], [46], [30, 61, 66]):
        judge_session(lost)
    judge_again(), judge_pieces(), judge_refusals(), judge_calls(), judge_copies(), judge_threads(), judge_rooms(), judge_between(), judge_device(), judge_reports(), judge_orders(), judge_answers(), judge_memory(), judge_monitor(), judge_door(), judge_example(), judge_no_library()
    print(f"python: {len(faults)} faults", *faults, sep="\n")
    sys.exit(1 if faults else 0)
