"""The walk of an installer with `osdp-port`, over pseudo terminals. Takes the path of `osdp`, and the parts to run; all of them at the same time without.

No reader, a wrong rate and address, an echo, two at one address, late answers, stolen bytes, a pulled adapter, a second panel, a COMSET whose answers
are lost, 30 seconds of noise, Ctrl-C in each command, a reader and a panel that are killed, a trace, and bad words and ports."""
import json
import os
import random
import select
import subprocess
import sys
import tempfile
import time
from concurrent.futures import ThreadPoolExecutor
from pathlib import Path

import port_line
import port_words
import stores
from port_line import ACK, COM, COMSET, ID, OUT, PANEL, PDID, POLL, PORT, IDENTITY, Device, Line, asks, faults, has, opened, taken, tells
from terminals import Terminal, packet

QUICK = "poll-interval 20 reply-wait 100 sends 2 quiet-wait 60 check sum".split()


def no_reader():
    """Nobody answers, or at another rate or address: what to do is said once, and Ctrl-C ends with status 1."""
    for what, at in (("no reader", None), ("a wrong rate", (5, 19200)), ("a wrong address", (6, 9600))):
        with Line() as line:
            if at:
                line.reader(0, at[0], rate=at[1])
            panel = line.panel("5", *QUICK)
            asks(line.run(tells(panel, "advice: device 5 doesn't answer: its power")), f"{what}: no advice: {panel.lines}")
            line.rests(2.5)
            asks(sum("advice" in each for each in panel.lines) == 1, f"{what}: the advice comes again")
            asks(line.stops(panel) == 1, f"{what}: another status at Ctrl-C")


def echo():
    """An adapter that hands back what is sent does no harm, and is told."""
    with Line() as line:
        reader, panel = line.reader(0, 5), line.panel("5")
        line.loses = lambda way, burst: way == "out" and os.write(line.panel_end.end, burst) < 0
        asks(line.run(opened(panel, 5)), "echo: the session doesn't open")
        panel.say("5 on")
        asks(line.run(has(panel, "settled 5 OUT 0:2:0 = ACK")), "echo: no order is done")
        asks(line.run(tells(panel, "the adapter hands back what is sent")), f"echo: it isn't told: {panel.lines}")
        asks(taken(reader) == ["taken OUT 0:2:0"], f"echo: {taken(reader)}")


def two_at_one_address():
    """Two devices at one address damage each other's answers: it is told that bytes come, and what that may be."""
    with Line() as line:
        panel = line.panel("5", *QUICK)
        device = Device(line.panel_end)
        write = device.write
        device.write = lambda whole: write(bytes(byte & other for byte, other in zip(whole, whole[3:] + b"\x53\x85\x07")))
        asks(device.until([panel], tells(panel, "two devices at one address")), f"two: {panel.lines}")
        asks(line.stops(panel) == 1, "two: another status")


def late_answers():
    """A device that answers later than its panel waits: half of all packets are repeats, and a longer wait is advised."""
    with Line() as line:
        line.delay = 0.15
        line.reader(0, 5)
        panel = line.panel("5", "poll-interval", "20", "reply-wait", "100", "sends", "5", "quiet-wait", "60", "check", "sum")
        asks(line.run(tells(panel, "advice: device 5 answers late: half of all packets are repeated; try reply-wait 400")), f"late: {panel.lines[-5:]}")


def stolen_bytes():
    """A second program takes what comes: the panel goes on, tells what is lost, and takes orders again when the other one has ended."""
    with Line() as line:
        line.reader(0, 5)
        panel = line.panel("5", *PANEL, stderr=subprocess.PIPE)
        asks(line.run(opened(panel, 5)), "stolen: the session doesn't open")
        thief = subprocess.Popen(["timeout", "3", "cat"], stdin=line.panel_end.other, stdout=subprocess.DEVNULL)
        line.run(lambda: thief.poll() is not None)
        line.rests(1)
        asks(line.run(lambda: sum(each.startswith("online") for each in panel.lines) == 1 + sum(each.startswith("lost") for each in panel.lines)), "stolen: no session")
        panel.say("5 on")
        asks(line.run(has(panel, "settled 5 OUT 0:2:0 = ACK")), f"stolen: no order is done: {panel.lines[-4:]}")


class Adapter:
    """A port by a name that stays, as an adapter has one, which can be pulled and put back."""

    def __init__(self, line, folder):
        self.line, self.name = line, Path(folder) / "ttyUSB0"
        self.name.symlink_to(line.panel_end.path)
        line.panel_end.path = str(self.name)

    def pull(self):
        end = self.line.panel_end
        self.name.unlink()
        os.close(end.end)
        os.close(end.other)
        end.end = None

    def put_back(self):
        made = Terminal()
        self.name.symlink_to(made.path)
        end = self.line.panel_end
        end.end, end.other, end.held, end.rate = made.end, made.other, b"", None


def pulled_adapter():
    """An adapter that is pulled: the orders get their ends, and when it is back the session opens again by itself."""
    with tempfile.TemporaryDirectory() as folder, Line() as line:
        adapter = Adapter(line, folder)
        reader, panel = line.reader(0, 5), line.panel("5", *PANEL)
        asks(line.run(opened(panel, 5)), "pulled: the session doesn't open")
        line.loses = lambda way, burst: burst[5] == OUT
        panel.say("5 OUT 0:2:1\n5 OUT 0:2:2")
        line.run(lambda: any(burst[5] == OUT for _, burst in line.bursts))
        adapter.pull()
        told = ["lost 5 no-reply OUT 0:2:1", "withdrawn 5 OUT 0:2:2"]
        asks(line.run(has(panel, *told)), f"pulled: the orders have no end: {panel.lines[-5:]}")
        asks(line.run(tells(panel, f"pulled {adapter.name}")), "pulled: it isn't told")
        panel.say("5 on")
        asks(line.run(tells(panel, "not taken 5 on: the port isn't there")), f"pulled: an order is answered {panel.lines[-1]}")
        line.rests(1)
        line.loses = lambda way, burst: False
        adapter.put_back()
        asks(line.run(lambda: tells(panel, f"back {adapter.name}")() and opened(panel, 5, 2)()), f"pulled: it doesn't come back: {panel.lines[-4:]}")
        panel.say("5 OUT 0:2:3")
        asks(line.run(has(panel, "settled 5 OUT 0:2:3 = ACK")), "pulled: no order is done")
        asks(taken(reader) == ["taken OUT 0:2:3"], f"pulled: the reader has taken {taken(reader)}")


def second_panel():
    """A second program is refused, and says whose port it is."""
    with Line() as line:
        line.reader(0, 5)
        panel = line.panel("5")
        asks(line.run(opened(panel, 5)), "second: the session doesn't open")
        for words in (["panel", "6"], ["reader", "6"], ["show"], ["monitor"], ["find"], ["trace", "/tmp/none"]):
            second = subprocess.run([PORT, "--osdp", port_line.osdp, line.panel_end.path, "9600", *words], capture_output=True, text=True, timeout=60, stdin=subprocess.DEVNULL)
            asks(second.returncode == 3 and f"{line.panel_end.path} is in use by" in second.stderr and f"process {panel.process.pid}" in second.stderr,
                 f"second: {words}: {second}")
        asks(not any(each.startswith("lost") for each in panel.lines), "second: the first one was disturbed")


def new_rate():
    """A COMSET of the rate whose answers are all lost: two devices are found again, at the new rate."""
    with Line(readers=2) as line:
        readers = [line.reader(0, 5), line.reader(1, 6)]
        panel = line.panel("5,6", *PANEL)
        asks(line.run(lambda: opened(panel, 5)() and opened(panel, 6)()), "rate: the sessions don't open")
        line.loses = lambda way, burst: burst[5] == COM
        panel.say("5 rate 19200")
        asks(line.run(tells(panel, "no-reply COMSET", 2)), f"rate: the COMSETs aren't told lost: {panel.lines[-5:]}")
        line.loses = lambda way, burst: False
        asks(line.run(lambda: opened(panel, 5, 2)() and opened(panel, 6, 2)(), 20), f"rate: not found again: {panel.lines[-8:]}")
        for address, reader in zip((5, 6), readers):
            panel.say(f"{address} on")
            asks(line.run(has(reader, "taken OUT 0:2:0")), f"rate: {address} takes no order")


def noise():
    """30 seconds of noise between and over packets, a third of them so much that no session lasts: no order is done twice, each has one end, and all goes on after it."""
    with Line() as line:
        chance = random.Random(7)
        reader, panel = line.reader(0, 5), line.panel("5", *QUICK)
        asks(line.run(opened(panel, 5)), "noise: the session doesn't open")
        ends, number, due = time.monotonic() + 30, 0, time.monotonic()
        while time.monotonic() < ends:
            line.rests(0.03)
            often = 0.6 if (ends - time.monotonic()) % 3 < 1 else 0.03
            for end in (line.panel_end, line.reader_ends[0]):
                if chance.random() < often:
                    os.write(end.end, bytes(chance.choice((0x53, 0x85, 0x05, 0xFF, chance.randrange(256))) for _ in range(chance.randrange(1, 12))))
            if time.monotonic() >= due:
                number, due = number + 1, due + 0.1
                panel.say(f"5 OUT 0:2:{number}")
        line.rests(1)
        panel.say("5 OUT 1:2:0")
        line.run(lambda: has(panel, "settled 5 OUT 1:2:0 = ACK")() or panel.say("5 OUT 1:2:0") or line.rests(1))
        done = [each for each in taken(reader) if "OUT 0:2:" in each]
        asks(len(done) == len(set(done)), "noise: an order was taken twice")
        for order in [each.split(" ", 2)[2] for each in panel.lines if each.startswith("waits")]:
            ended = [each for each in panel.lines if each.split(" = ")[0].endswith(f" {order}") and each.startswith(("settled", "lost", "withdrawn", "unread", "not taken"))]
            asks(len(ended) == 1 or order == "OUT 1:2:0", f"noise: {order} has {len(ended)} ends: {ended}")
        ends = {word: sum(each.startswith(word) and " OUT " in each for each in panel.lines) for word in ("settled", "lost", "withdrawn")}
        asks(ends["settled"] > 10 and ends["lost"] + ends["withdrawn"] > 0, f"noise: too little or too much of it: {ends}")
        asks(panel.process.poll() is None and reader.process.poll() is None, "noise: a program has ended")


def ctrl_c():
    """Ctrl-C in each command: the table of the monitor comes out, the ends of orders are told, and nothing else is said."""
    with Line() as line:
        reader, panel = line.reader(0, 5), line.panel("5")
        asks(line.run(opened(panel, 5)), "Ctrl-C: the session doesn't open")
        line.loses = lambda way, burst: burst[5] == OUT
        panel.say("5 OUT 0:2:1\n5 OUT 0:2:2")
        line.run(lambda: any(burst[5] == OUT for _, burst in line.bursts))
        asks(line.stops(panel) == 1, "Ctrl-C: a panel whose session was lost has another status")
        asks(has(panel, "lost 5 no-reply OUT 0:2:1", "withdrawn 5 OUT 0:2:2")(), f"Ctrl-C: orders have no end: {panel.lines[-3:]}")
        asks(line.stops(reader) == 0, "Ctrl-C: a reader has another status")
    with Line() as line:  # an answer is waited for longer than the panel takes to end
        reader = line.reader(0, 5)
        line.run(lambda: line.reader_ends[0].rate is not None and reader.lines)  # so that the first ID is heard
        panel = line.panel("5", *PANEL, "reply-wait", "600000")
        asks(line.run(opened(panel, 5)), "Ctrl-C: the session doesn't open")
        line.loses = lambda way, burst: burst[5] == OUT
        panel.say("5 OUT 0:2:1\n5 OUT 0:2:2")
        line.run(lambda: any(burst[5] == OUT for _, burst in line.bursts))
        line.stops(panel)
        ends = [tells(panel, f"{end} OUT 0:2:{at}") for at, end in ((1, "lost 5 no-reply withheld"), (2, "expired 5"))]
        asks(all(end() for end in ends), f"Ctrl-C: orders have no end in a long wait: {panel.lines[-3:]}")
    with Line() as line:
        line.reader(0, 5)
        panel = line.panel("5")
        line.run(opened(panel, 5))
        asks(line.stops(panel) == 0, "Ctrl-C: a panel that met nothing has another status")
    with Line() as line:  # quit, which a reader takes too
        reader, panel = line.reader(0, 5), line.panel("5")
        line.run(opened(panel, 5))
        panel.say("5 on\nquit\n5 off")
        asks(line.run(lambda: panel.process.poll() is not None, 20) and panel.process.poll() == 0, f"quit: status {panel.process.poll()}: {panel.lines[-3:]}")
        asks(line.run(has(panel, "settled 5 OUT 0:2:0 = ACK", "not taken 5 off: the program ends"), 5), f"quit: {panel.lines[-4:]}")
        reader.say("quit")
        asks(line.run(lambda: reader.process.poll() is not None, 20) and reader.process.poll() == 0, f"quit: a reader has the status {reader.process.poll()}")
    with tempfile.TemporaryDirectory() as folder:
        said = bytes.fromhex("530508000061003F") + packet(0x85, 0, PDID, bytes.fromhex("53494D010101000000010000")) + packet(5, 1, POLL) + packet(0x85, 1, ACK) + packet(5, 2, 0x68, bytes([0, 2, 0, 0]))
        for words, status, wanted in ((["monitor"], 0, "device  asked"), (["show"], 0, "cmd 5 seq 0 sum ID 0"), (["trace", f"{folder}/trace"], 0, f"trace {folder}/trace: "),
                                      (["find"], 1, "stopped: 0 devices found so far")):
            with Line() as line:
                script = line.start(line.panel_end, 9600, *words, stderr=subprocess.PIPE)
                asks(line.run(lambda: script.lines), f"Ctrl-C: {words} doesn't begin")
                if words != ["find"]:  # it would end where it hears another panel
                    os.write(line.panel_end.end, said)
                line.rests(0.6)
                found = line.stops(script)
                asks(found == status and tells(script, wanted)(), f"Ctrl-C: {words}: status {found}: {script.lines}")
                asks(not tells(script, " POLL")() and not tells(script, "sum ACK")(), f"Ctrl-C: {words}: POLL and ACK are shown")
                asks("Traceback" not in script.process.stderr.read().decode(), f"Ctrl-C: {words}: a traceback")


def killed():
    """A reader that is killed is found where it was, by its file; so does a panel find its devices by its own."""
    with tempfile.TemporaryDirectory() as folder, Line(readers=2) as line:
        kept = [Path(folder) / f"reader{at}" for at in range(2)]
        places = Path(folder) / "panel"
        readers = [line.reader(at, 5 + at, options=stores.options(kept[at])) for at in range(2)]
        panel = line.panel("5,6", *PANEL, options=stores.options(places))
        asks(line.run(lambda: opened(panel, 5)() and opened(panel, 6)()), "killed: the sessions don't open")
        panel.say("5 move 7 19200")
        asks(line.run(lambda: opened(panel, 7)() and opened(panel, 6, 2)()), f"killed: not found at the new places: {panel.lines[-6:]}")
        asks([stores.text(each) for each in kept] == ["5 at 7 19200\n", "6 at 6 19200\n"], "killed: the readers keep other places")
        readers[0].process.kill()
        asks(line.run(tells(panel, "lost 7")), "killed: the reader isn't lost")
        readers[0] = line.reader(0, 5, options=["--keep", kept[0]])
        asks(line.run(opened(panel, 7, 2)), "killed: the reader isn't found again")
        panel.process.kill()
        panel.process.wait()
        again = line.panel("5,6", *PANEL, options=["--keep", places])
        asks(line.run(lambda: opened(again, 7)() and opened(again, 6)()), f"killed: the panel doesn't find them: {again.lines}")
        again.say("7 on")
        asks(line.run(has(readers[0], "taken OUT 0:2:0")), f"killed: the order goes elsewhere: {again.lines[-6:]} {readers[0].lines}")
        asks(taken(readers[1]) == ["taken COMSET 6 19200"] or taken(readers[1]) == [], f"killed: the other one has taken {taken(readers[1])}")
        line.run(has(again, "settled 7 OUT 0:2:0 = ACK"))
        line.loses = lambda way, burst: burst[5] == COM
        again.say("7 move 9 19200")
        line.run(lambda: any(burst[1] == 7 and burst[5] == COMSET for _, burst in line.bursts))
        asks("5 at 7 19200 or 9 19200" in stores.text(places), f"killed: both places aren't kept before a COMSET goes out: {stores.text(places)} {again.lines[-4:]}")
        line.stops(again)
        refused = line.panel("7,6", *PANEL, options=["--keep", places], stderr=subprocess.PIPE)
        refused.process.wait(timeout=60)
        asks("may be the device that began as 5" in refused.process.stderr.read().decode(), "killed: a panel starts where another device may be")


def finds():
    """A bench with one device: its address, rate and check; another place for it, confirmed there. Two devices, and none."""
    with Line(readers=2) as line:
        reader = line.reader(0, 9, "serial", "77", rate=38400)
        line.run(lambda: line.reader_ends[0].rate is not None and reader.lines)
        script = line.start(line.panel_end, 9600, "find")
        line.run(lambda: script.is_over)
        asks(script.process.wait() == 0 and tells(script, "found address 9 rate 38400 check crc maker 53494D model 1 version 0 serial 77 firmware 0.0.0")(), f"find: {script.lines}")
        asks(all(burst[5] in (ID,) for way, burst in line.bursts if way == "out"), "find: it sends more than ID")
        script = line.start(line.panel_end, 9600, "find", options=["--set-address", "3", "--set-rate", "9600"])
        line.run(lambda: script.is_over)
        asks(script.process.wait() == 0 and has(script, "set: device is at address 3 rate 9600")(), f"find: {script.lines}")
        other = line.reader(1, 12, "serial", "78")
        line.run(lambda: line.reader_ends[1].rate is not None and other.lines)
        script = line.start(line.panel_end, 9600, "find", options=["--set-address", "4"])
        line.run(lambda: script.is_over)
        asks(script.process.wait() == 1 and tells(script, "several devices answer")() and tells(script, "found address 3 rate 9600")()
             and tells(script, "found address 12 rate 9600")() and tells(script, "nothing is set")(), f"find: two: {script.lines}")
        asks(not tells(reader, "moved 4")(), "find: a device was changed though there are two")


def another_panel():
    """Where another panel speaks, `find` says so, and asks no further."""
    with Line() as line:
        script = line.start(line.panel_end, 9600, "find", stderr=subprocess.PIPE)
        line.run(lambda: any(way == "out" for way, _ in line.bursts))
        end = time.monotonic() + 30
        while script.process.poll() is None and time.monotonic() < end:
            os.write(line.panel_end.end, packet(9, 1, POLL))
            line.rests(0.05)
        asks(script.process.wait(timeout=60) == 3 and "another panel speaks on the line of" in script.process.stderr.read().decode(), f"another panel: {script.lines}")


def listens():
    """One device of several, and all packets, of `monitor` and `show`; the table each second."""
    said = [packet(5, 0, ID, b"\0"), packet(0x85, 0, PDID, IDENTITY), packet(6, 1, POLL), packet(0x86, 1, ACK), packet(5, 1, POLL), packet(0x85, 1, 0x50, b"\0\1\x08\0\x31")]
    rows = ((["show"], ["--address", "5"], ["cmd 5 seq 0 sum ID 0", "RAW 0 1 8 31"], ["cmd 6", "POLL"]), (["show"], ["--all"], ["cmd 6 seq 1 sum POLL", "reply 6 seq 1 sum ACK"], []),
            (["monitor"], ["--address", "5"], ["device 5: opened", "5 "], ["device 6", "6  "]), (["monitor"], ["--every", "1"], ["device  asked"] , ["POLL"]),
            (["monitor"], ["--all"], ["cmd 6 seq 1 sum POLL"], []),
            (["monitor"], ["--all", "--address", "5"], ["cmd 5 seq 1 sum POLL", "RAW 0 1 8 31"], ["cmd 6", "reply 6"]))
    for words, options, wanted, unwanted in rows:
        with Line() as line:
            script = line.start(line.panel_end, 9600, *words, options=options)
            line.run(lambda: script.lines)
            for burst in said:
                os.write(line.panel_end.end, burst)
                line.rests(0.1)
            if "--every" in options:
                line.rests(1.1)
                os.write(line.panel_end.end, packet(6, 2, POLL))
                asks(line.run(lambda: tells(script, "device  asked")(), 10), f"{words} {options}: no table comes: {script.lines}")
            line.rests(0.3)
            line.stops(script)
            asks(all(any(each in line for line in script.lines) for each in wanted), f"{words} {options}: {script.lines}")
            asks(not any(each in line for line in script.lines[1:] for each in unwanted), f"{words} {options}: shows too much: {script.lines}")


def traces():
    """A trace has each burst and its moment; a full one is put aside; `osdp show` reads it. The same as a JSON object a line."""
    with tempfile.TemporaryDirectory() as folder, Line() as line:
        path = Path(folder) / "trace"
        line.reader(0, 5)
        panel = line.panel("5", options=["--trace", path, "--all"])
        asks(line.run(opened(panel, 5)), "trace: the session doesn't open")
        panel.say("5 on")
        asks(line.run(has(panel, "settled 5 OUT 0:2:0 = ACK")), "trace: no order is done")
        line.rests(0.5)
        line.stops(panel)
        shown = subprocess.run([port_line.osdp, "show"], input=path.read_text(), capture_output=True, text=True).stdout
        asks(all(each in shown for each in ("cmd 5 seq 0 sum ID 0", "PDID 53494D", "OUT 0:2:0", "POLL", "ACK")), f"trace: shown is {shown[:400]}")
        asks(tells(panel, "cmd 5 seq 1 sum POLL")() and tells(panel, " ACK")(), f"trace: --all doesn't show each packet: {panel.lines[:9]}")
        for options in ([], ["--osdpcap"]):
            file = Path(folder) / f"only{len(options)}"
            script = line.start(line.panel_end, 9600, "trace", file, options=options)
            line.run(lambda: script.lines)
            os.write(line.panel_end.end, packet(5, 1, POLL))
            line.rests(0.5)
            line.stops(script)
            asks(tells(script, "1 bursts, 7 bytes")(), f"trace: {script.lines}")
            text = file.read_text()
            data = json.loads(text)["data"].replace("-", "") if options else text.splitlines()[2]
            asks(bytes.fromhex(data) == packet(5, 1, POLL), f"trace: {text}")
            asks(options or text.startswith("# rate 9600\n# "), f"trace: it doesn't tell the rate: {text}")
        sys.path.insert(0, str(PORT.parent))
        from osdp_port.trace import Trace
        said = []
        small = Trace(f"{folder}/small", 200, said.append)
        for _ in range(20):
            small.takes(0.0, "in", bytes(20))
        before = path.read_text()
        for words in (["device", "5"], ["panel", "5"]):
            words = [PORT, "--osdp", port_line.osdp, "--trace", path, line.panel_end.path, "9600", "test", *words]
            done = subprocess.run(words, capture_output=True, text=True, timeout=60)
            asks(done.returncode == 3 and str(path) in done.stderr and path.read_text() == before, f"trace: a test begins it anew: {done}")
        came, goes = os.pipe()  # it has no end and no size
        piped = Trace(f"/dev/fd/{goes}", 30, said.append)
        for _ in range(3):
            piped.takes(0.0, "in", bytes(20))
        asks(os.read(came, 4096).count(b"\n" + b"00" * 20 + b"\n") == 3, f"trace: a pipe hasn't each burst: {said}")
        asks(os.path.getsize(f"{folder}/small") < 300 and os.path.getsize(f"{folder}/small.1") < 300 and len(said) >= 3, f"trace: it isn't bounded: {said}")


def wrong_rate_heard():
    """A listener at another rate than the line's: after a thousand bytes without a packet it is told what that means."""
    with Line() as line:
        script = line.start(line.panel_end, 9600, "show", stderr=subprocess.PIPE)
        line.run(lambda: script.lines)
        chance = random.Random(3)
        for _ in range(30):
            os.write(line.panel_end.end, bytes(chance.randrange(0x54, 0xFF) for _ in range(40)))
            line.rests(0.04)
        for number in (1, 2, 3):  # the rate is set right at the other end
            os.write(line.panel_end.end, packet(5, number, OUT, bytes([0, 2, 0, 0])))
            line.rests(0.1)
        line.rests(0.5)
        line.stops(script)
        asks(tells(script, "OUT 0:2:0", 3)(), f"heard: packets aren't shown: {script.lines[-3:]}")
        asks(script.process.stderr.read().decode().count("bytes and no packet: another rate") == 1, "heard: it isn't told once")


def acts_first():
    """A reader that is killed between its deed and its answer has done it; the panel's order isn't done a second time."""
    with Line() as line:
        end = line.reader_ends[0]
        reader = line.reader(0, 5)
        line.run(lambda: reader.lines)
        os.write(end.end, packet(5, 0, ID, b"\0"))
        asks(end.next_burst()[5:6] == bytes([PDID]), "acts first: the session doesn't open")
        reader.process.stdout.close()
        os.write(end.end, packet(5, 1, OUT, bytes([0, 2, 0, 0])))
        reader.process.wait(timeout=60)
        end.held += os.read(end.end, 100) if select.select([end.end], [], [], 0.2)[0] else b""
        asks(packet(0x85, 1, ACK) not in end.held, "acts first: the answer has gone out before the deed was told")


PARTS = {part.__name__: part for part in (noise, no_reader, echo, two_at_one_address, late_answers, stolen_bytes, pulled_adapter, second_panel, new_rate, ctrl_c, killed,
                                          finds, traces, wrong_rate_heard, another_panel, listens, acts_first, *port_words.PARTS)}


def run_part(name):
    """Runs a part in a process of its own. What it has found."""
    done = subprocess.run([sys.executable, "-B", __file__, port_line.osdp, name], capture_output=True, text=True, timeout=400)
    return name, done.returncode, (done.stdout + done.stderr).strip()


def main(path, *names):
    port_line.osdp, begun = path, time.monotonic()
    if names:
        for name in names:
            PARTS[name]()
        print(*faults, sep="\n")
        return 1 if faults else 0
    with ThreadPoolExecutor(4) as pool:
        ended = list(pool.map(run_part, PARTS))
    bad = [each for each in ended if each[1]]
    for name, _, said in bad:
        print(f"{name}:\n{said}")
    print(f"port walk: {len(PARTS)} parts, {len(bad)} with faults, in {time.monotonic() - begun:.1f} s")
    return 1 if bad else 0


if __name__ == "__main__":
    sys.exit(main(*sys.argv[1:]))
