#!/usr/bin/env python3
"""Pages that `osdp-report` makes of captures that are written here, with known moments: the answer times, late answers, echoes of commands, of answers and of
both, and devices that are gone come out as they were made, at losses of 0, 1 and 5 of a hundred answers. So do echoes by `osdp monitor --times`. Takes the path of the program.

The panel and the readers are a few lines of their own. What each page must say is worked out from what was put into the line."""
import html
import json
import random
import re
import signal
import subprocess
import sys
import time
from collections import Counter
from datetime import datetime, timedelta, timezone
from html.parser import HTMLParser
from pathlib import Path

import jsonschema

TOP = Path(__file__).resolve().parent.parent
PROGRAM = str(Path(sys.argv[1]).resolve())
START = datetime(2026, 3, 1, 23, 59, 50, tzinfo=timezone.utc)
# of each trace, the ways of commands and of answers: a panel's, a reader's, and one of a program that plays both ends. An adapter hands back what goes out
WAYS = {"none": ("out", "in"), "commands": ("out", "in"), "answers": ("in", "out"), "both": ("out", "out")}
FORM = jsonschema.Draft202012Validator(json.loads((TOP / "docs/report.schema.json").read_text()))
POLL, ACK, OUT, RAW = 0x60, 0x40, 0x68, 0x50
faults = 0
counts = Counter()


def tell(what, wanted, got):
    global faults
    faults += 1
    print(f"reports: {what}\nwanted: {wanted!r}\nis: {got!r}")


def packet(address, number, code, data=b"", reply=False):
    body = bytes([0x53, address | (0x80 if reply else 0), 7 + len(data), 0, number, code]) + data
    return body + bytes([-sum(body) & 255])


def stamp(moment):
    return (START + timedelta(milliseconds=moment)).strftime("%Y-%m-%dT%H:%M:%S.%f")[:-3] + "Z"


class Line:
    """Bursts with their moments, in milliseconds, and ways."""

    def __init__(self):
        self.bursts = []

    def add(self, moment, way, burst):
        self.bursts.append((moment, way, burst))

    def say(self, moment, way, burst, echoes):
        """A burst, and what an adapter hands back of it where it does so. Whether it has."""
        self.add(moment, way, burst)
        if echoes and way == "out":
            self.add(moment + 1, "in", burst)
        return echoes and way == "out"

    def digits(self):
        return "".join(f"# {stamp(moment)} {way}\n{burst.hex().upper()}\n" for moment, way, burst in sorted(self.bursts, key=lambda each: each[0]))

    def osdpcap(self):
        lines = []
        for moment, way, burst in sorted(self.bursts, key=lambda each: each[0]):
            at = START + timedelta(milliseconds=moment)
            lines.append(json.dumps({"timeSec": str(int(at.timestamp())), "timeNano": f"{at.microsecond * 1000:09}", "io": "output" if way == "out" else "input",
                                     "data": burst.hex("-"), "osdpTraceVersion": "1", "osdpSource": "reports"}) + "\n")
        return "".join(lines)


def following(number):
    return number % 3 + 1


def calm(source, loss, echo="none"):
    """A panel that polls 5 and 6, of which 6 is gone after a while. The line, with an echo of what it says, and what was put into it."""
    ask, say = WAYS[echo]
    line, put = Line(), {"times": [], "cards": 0, "orders": 0, "echoes": 0, "repeats": 0, "gone": None}
    numbers, moment = {5: 0, 6: 0}, 0
    for turn in range(120):
        for address in (5, 6):
            moment += 300
            order = address == 5 and turn % 20 == 19
            code, data = (OUT, bytes([0, 2, 0, 0])) if order else (POLL, b"")
            sent = packet(address, numbers[address], code, data)
            is_gone = address == 6 and turn >= 80
            lost = turn > 0 and not is_gone and source.random() * 100 < loss
            copies = [moment, moment + 200] if lost else [moment]
            for copy in copies:
                put["echoes"] += line.say(copy, ask, sent, echo != "none")
            moment = copies[-1]
            put["orders"] += order
            put["repeats"] += address == 5 and lost
            if is_gone:
                continue
            delay = source.randrange(5, 150)
            card = address == 5 and not order and turn % 10 == 5
            reply = packet(address, numbers[address], RAW if card else ACK, bytes([0, 0, 8, 0, 0xA5]) if card else b"", True)
            put["echoes"] += line.say(moment + delay, say, reply, echo != "none")
            if address == 5:
                put["cards"] += card
                if not lost:
                    put["times"].append(delay)
            else:
                put["gone"] = moment + delay
            numbers[address] = following(numbers[address])
    return line, put


def late(source, loss):
    """A reader that answers each copy after 310 ms, and a panel that waits 200. Of the answers to second copies some are lost."""
    line, number, moment, delay = Line(), 0, 0, 310
    for _ in range(60):
        line.add(moment, "out", packet(5, number, POLL))
        line.add(moment + 200, "out", packet(5, number, POLL))
        for copy in (moment, moment + 200):
            if copy == moment or source.random() * 100 >= loss:
                line.add(copy + delay, "in", packet(5, number, ACK, b"", True))
        if number == 0:
            moment += 900
        else:
            moment += 330
            while any(abs(moment - other) < 5 for other, _, _ in line.bursts):
                moment += 7
        number = following(number)
    return line


def report(text, *words):
    done = subprocess.run([TOP / "port/osdp-report", "--osdp", PROGRAM, *words], input=text.encode(), capture_output=True)
    if done.returncode or done.stderr:
        tell("the page isn't made", 0, (done.returncode, done.stderr.decode()))
    return done.stdout.decode()


class Tags(HTMLParser):
    """Whether each tag is closed, and what the page would fetch."""

    def __init__(self, text):
        super().__init__()
        self.open, self.fetched, self.rects = [], [], 0
        self.feed(text)

    def handle_starttag(self, tag, attributes):
        self.rects += tag == "rect"
        self.fetched += [value for name, value in attributes if name in ("src", "href", "srcset", "data", "action")] + ([tag] if tag in ("script", "link", "iframe") else [])
        if tag not in ("meta",):
            self.open.append(tag)

    def handle_endtag(self, tag):
        if not self.open or self.open.pop() != tag:
            self.fetched.append(f"a wrong </{tag}>")


def is_whole(what, page):
    tags = Tags(page)
    if tags.open or tags.fetched or "url(" in page or "@import" in page:
        tell(f"{what}: tags that are open, or what is fetched", [], (tags.open, tags.fetched[:5]))
    return tags


def row(page, address):
    """The cells of a device's row."""
    found = re.search(rf"<tr><td>{address}</td>(.*?)</tr>", page)
    return re.findall(r"<td[^>]*>(.*?)</td>", found[1]) if found else []


def sentences(page):
    return [html.unescape(each) for each in re.findall(r"<li>(.*?)</li>", page)]


def says(what, page, wanted, unwanted=()):
    told = "\n".join(sentences(page))
    for each in wanted:
        if not re.search(each, told):
            tell(f"{what}: a sentence is missing", each, told)
    for each in unwanted:
        if re.search(each, told):
            tell(f"{what}: said falsely", each, told)


def nearest(times, hundredth):
    """The least time that at least as many of a hundred are not above."""
    return next(time for time in sorted(times) if 100 * sum(other <= time for other in times) >= hundredth * len(times))


def looks_at_monitor(what, line, plain, echoes):
    """What `osdp monitor --times` tells of a line: how many echoes it leaves out, and of all else what it tells of the line without them."""
    heard, wanted = (subprocess.run([PROGRAM, "monitor", "--hex", "--times"], input=each.digits().encode(), capture_output=True).stdout.decode() for each in (line, plain))
    asks(f"{what}: echoes that are left out", [str(echoes)] if echoes else [], re.findall(r"^diagnosis: echoes of the adapter left out: (\d+)$", heard, re.M))
    asks(f"{what}: the table", re.findall(r"^\d+(?: +\d+){12}$|^runs .*", wanted, re.M), re.findall(r"^\d+(?: +\d+){12}$|^runs .*", heard, re.M))
    asks(f"{what}: said falsely", [], re.findall(r".*(?: panel to \d|reader \d|a late answer|comes twice|two devices|repeated although).*", heard))


def looks_at_calm(seed, loss, echo):
    before, name = faults, "no echo" if echo == "none" else f"an echo of {echo}"
    source = random.Random(seed)
    line, put = calm(source, loss, echo)
    what = f"calm {seed} {loss}, {name}"
    page = report(line.digits())
    is_whole(what, page)
    times = put["times"]
    wanted = [str(each) for each in (min(times), nearest(times, 50), nearest(times, 95), max(times), put["cards"], put["orders"])]
    cells = row(page, 5)
    if cells[4:10] != wanted:
        tell(f"{what}: times, cards and orders", wanted, cells[4:10])
    share = 100 * put["repeats"] // (120 + put["repeats"])
    if cells[2] != f"{share}%":
        tell(f"{what}: repeats", share, cells[2])
    gone = re.escape(stamp(put["gone"]))
    says(what, page, [rf"Device 6 is offline: its last answer came at {gone}, and 40 packets", "Nobody broke a rule", *([f": {put['echoes']} runs that came in"] if put["echoes"] else [])],
         ["broke a rule [0-9]", "answers late", "Device 5 is offline", "[Tt]wo devices", "comes twice", "repeated although", *([] if put["echoes"] else ["hands back"])])
    again = report(line.osdpcap(), "--osdpcap")
    if row(again, 5)[:10] != cells[:10]:
        tell(f"{what}: .osdpcap has another row", cells, row(again, 5))
    looks_at_monitor(what, line, calm(random.Random(seed), loss)[0], put["echoes"])
    found = put["echoes"] == sum(map(int, re.findall(r"hands back what is sent: (\d+) runs", page)))
    for of, more in (("pages", 1), ("found", found), ("falsely told", faults != before)):
        counts[f"{name}, losses {loss}%", of] += more


def objects(text, *words):
    """The objects of a capture, by their kinds."""
    kinds = {}
    for each in report(text, "--json", *words).splitlines():
        each = json.loads(each)
        for fault in FORM.iter_errors(each):
            tell(f"docs/report.schema.json refuses {each}", "nothing", fault.message)
        kinds.setdefault(each["kind"], []).append(each)
    return kinds


def asks(what, wanted, got):
    if wanted != got:
        tell(what, wanted, got)


def looks_at_objects():
    """What a program reads: the same figures, by name."""
    line, put = calm(random.Random(1), 5, "commands")
    kinds, times = objects(line.digits()), put["times"]
    five, six = kinds["device"]
    asks("names of a device", ["address", "answered", "asked", "damaged", "events", "heard", "kind", "online", "orders", "repeats", "times"], sorted(five))
    asks("a device", (5, 120 + put["repeats"], 120, put["repeats"], 0, put["cards"], put["orders"], True),
         tuple(five[name] for name in ("address", "asked", "answered", "repeats", "damaged", "events", "orders", "online")))
    asks("its times", {"count": len(times), "least": min(times), "median": nearest(times, 50), "of_95": nearest(times, 95), "greatest": max(times)}, five["times"])
    asks("a device that is gone", (False, stamp(put["gone"])), (six["online"], six["heard"]))
    asks("the echoes, and who is accused", (put["echoes"], 0), (kinds["line"][0]["echoes"], kinds["line"][0]["accused"]))
    late_ones = objects(late(random.Random(0), 0).digits())
    asks("late answers", {(5, 310, 200)}, {(each["address"], each["took"], each["waited"]) for each in late_ones["late"]})
    asks("each is told", len(late_ones["late"]), sum(each["text"].startswith("a late answer") for each in late_ones["told"]))
    asks("no capture", {"line"}, set(objects("")))
    wrong = [{"kind": "late", "address": 5, "took": 310}, {"kind": "late", "address": 128, "took": 310, "waited": 200}, {**five, "online": 1}, {**five, "more": 0}, {"kind": "page"}]
    asks("what the schema refuses", [False] * len(wrong), [FORM.is_valid(each) for each in wrong])


def looks_at_late(loss):
    page = report(late(random.Random(loss), loss).digits())
    is_whole(f"late {loss}", page)
    told = re.search(r"Reader 5 answers late, (\d+) times: after (\d+) to (\d+) ms, and the panel waits 200 ms", "\n".join(sentences(page)))
    if told is None or int(told[1]) < 20 or told[3] != "310" or loss == 0 and told[2] != "310":
        tell(f"late {loss}", "310 ms and 200 ms", sentences(page))
    says(f"late {loss}", page, ["Nobody broke a rule"])


def looks_at_restarts(loss):
    """A device that loses its number four times, 300 seconds apart, but once 290 and then 310: its median is 300. Of its other answers a share is lost, and comes to a copy."""
    line, number, source = Line(), 0, random.Random(loss)
    falls = {100000, 390000, 700000, 1000000}
    for moment in range(0, 1100000, 10000):
        line.add(moment, "out", packet(5, number, POLL))
        copy = 200 if moment not in falls and source.random() * 100 < loss else 0
        if copy:
            line.add(moment + copy, "out", packet(5, number, POLL))
        line.add(moment + copy + 20, "in", packet(5, number, 0x41, bytes([4]), True) if moment in falls else packet(5, number, ACK, b"", True))
        number = 0 if moment in falls else following(number)
    for what, text, wanted in (("restarts", line.digits(), "5 restarted 4 times, every 300 s"), ("restarts without moments", re.sub("# .*\n", "", line.digits()), "5 restarted 4 times")):
        said = [each["text"] for each in objects(text).get("diagnosis", [])]
        asks(f"{what}, losses {loss}%", [wanted], [each for each in said if not (loss and re.fullmatch(r"5 loses \d+% of answers", each))])
        says(f"{what}, losses {loss}%", report(text), [f"Device {wanted}.", "Nobody broke a rule"])
    done = subprocess.run([PROGRAM, "monitor", "--hex", "--times"], input=line.digits().encode(), capture_output=True)
    asks(f"restarts by osdp monitor, losses {loss}%", ["4 times, every 300 s"], re.findall(r"^times: 5 restarted (.*)$", done.stdout.decode(), re.M))


def looks_at_accused():
    """A repeat that is answered by something else, and texts that would be tags."""
    line, card = Line(), bytes([0, 0, 8, 0])
    for at, (way, burst) in enumerate((("out", packet(5, 0, POLL)), ("in", packet(5, 0, ACK, b"", True)), ("out", packet(5, 1, POLL)), ("in", packet(5, 1, RAW, card + b"\xA5", True)),
                                       ("out", packet(5, 1, POLL)), ("in", packet(5, 1, RAW, card + b"\xA6", True)))):
        line.add(at * 100, way, burst)
    told = objects(line.digits())["told"][-1]
    asks("what is told", (6, 0, "reader", 5, stamp(500), line.bursts[3][2].hex().upper(), line.bursts[5][2].hex().upper()),
         tuple(told[name] for name in ("run", "place", "party", "address", "stamp", "expected", "seen")))
    page = report(line.digits())
    is_whole("accused", page)
    says("accused", page, ["Somebody broke a rule 1 time: "])
    for each in ("Run 6: reader 5: a repeat is answered by something else (standard)", "expected 53850C000150000008", "<td class=text>RAW 0 0 8 A6</td>", "accused</text>"):
        if each not in page:
            tell("accused: the page lacks", each, page[-1500:])
    stamped = "".join(f"<i>{at} {'TX' if way == 'out' else 'RX'}: {burst.hex(' ')}\n" for at, (_, way, burst) in enumerate(line.bursts))
    page = report(stamped, "--stamped")
    if "<i>" in page or "&lt;i&gt;" not in page:
        tell("a stamp isn't escaped", "&lt;i&gt;", page[:800])
    is_whole("stamped", page)
    for words, status in ((("--x",), 2), (("a", "b"), 2), (("/nowhere/file",), 3)):
        done = subprocess.run([TOP / "port/osdp-report", "--osdp", PROGRAM, *words], capture_output=True)
        if done.returncode != status or done.stdout or not done.stderr.startswith(b"osdp-report: "):
            tell(f"words {words}", status, (done.returncode, done.stderr))
    raw = subprocess.run([TOP / "port/osdp-report", "--osdp", PROGRAM, "--raw"], input=b"".join(burst for _, _, burst in line.bursts), capture_output=True).stdout.decode()
    if row(raw, 5)[:2] != ["3", "3"]:
        tell("bytes", ["3", "3"], row(raw, 5)[:2])
    is_whole("empty", report(""))


def ends_with(what, status, why, capture, *words, **ends):
    """How it ends: its status, and what it says first on standard error."""
    done = subprocess.run([TOP / "port/osdp-report", *(words if "--osdp" in words else ["--osdp", PROGRAM, *words])], **{"input": capture, "capture_output": True, **ends})
    asks(what, (status, True), (done.returncode, done.stderr.startswith(why.encode()) and (b"Traceback" not in done.stderr)))
    return done.stdout


def looks_at_odd():
    """Stamps that are no text or numbers of any length, a carriage return within a line, a system with another alphabet; and words, programs and ends that aren't there."""
    command, answer = packet(5, 0, POLL).hex().encode(), packet(5, 0, ACK, b"", True).hex().encode()
    for stamps in (b"\xff\xfe", "M\u00e4rz".encode("latin-1"), b"9" * 400, b"9" * 5000 + b":00:00", b"a\x0bb\x1cc\xc2\x85d"):
        page = ends_with(f"the stamp {stamps[:20]}", 0, "", b"# %b out\n%b\n# %b in\n%b\n" % (stamps, command, stamps, answer))
        asks(f"the row of the stamp {stamps[:20]}", ["1", "1"], row(page.decode(), 5)[:2])
    page = ends_with("an alphabet", 0, "", "# M\u00e4rz out\n".encode() + command + "\n# M\u00e4rz in\n".encode() + answer, env={"LC_ALL": "C", "PYTHONIOENCODING": "latin-1", "PATH": "/usr/bin:/bin"})
    asks("the page is UTF-8", True, "M\u00e4rz" in page.decode(errors="replace"))
    name = [b'{"timeSec":"%d","timeNano":"0","io":"%b","data":"%b","osdpSource":"Ger\xe4t"}\n' % each for each in ((1, b"output", command), (2, b"input", answer))]
    asks("the row of a name in another alphabet", ["1", "1"], row(ends_with("a name", 0, "", b"".join(name), "--osdpcap").decode(), 5)[:2])
    echo = b"# 1 out\n%b\r%b\n# 2 in\n%b\n# 3 in\n%b\n" % (command[:6], command[6:], command, answer)
    asks("an echo of a line with a carriage return", True, b"1 runs that came in" in ends_with("a carriage return", 0, "", echo))
    ends_with("no number", 2, "osdp-report: --rate is followed by ", b"", "--rate")
    ends_with("no program", 127, "osdp-report: the program can't be started: /nowhere/osdp", b"", "--osdp", "/nowhere/osdp")
    asks("help after a word", True, b"usage: osdp-report" in ends_with("help", 0, "", b"", "file", "--help"))
    for end, why in (("<&-", "the capture can't be read: standard input is closed"), ("< /dev/null >&-", "the page can't be written: standard output is closed")):
        done = subprocess.run(["sh", "-c", f'"$0" --osdp "$1" {end}', TOP / "port/osdp-report", PROGRAM], capture_output=True)
        asks(f"its end {end}", (3, f"osdp-report: {why}\n"), (done.returncode, done.stderr.decode()))
    waits = subprocess.Popen([TOP / "port/osdp-report", "--osdp", PROGRAM], stdin=subprocess.PIPE, stdout=subprocess.PIPE, stderr=subprocess.PIPE)
    waits.stdin.write(command)
    waits.stdin.flush()
    time.sleep(1)
    waits.send_signal(signal.SIGINT)
    asks("Ctrl-C", (-signal.SIGINT, b""), (waits.wait(10), waits.stderr.read()))


for loss in (0, 1, 5):
    for number, echo in enumerate(WAYS):
        for seed in (number, number + len(WAYS)):
            looks_at_calm(seed, loss, echo)
    looks_at_late(loss)
    looks_at_restarts(loss)
looks_at_accused()
looks_at_objects()
looks_at_odd()
for name in dict.fromkeys(name for name, _ in counts):
    print(f"{name}: {', '.join(f'{of} {counts[name, of]}' for of in ('pages', 'found', 'falsely told'))}")
print(f"reports: {faults} faults")
sys.exit(1 if faults else 0)
