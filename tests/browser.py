#!/usr/bin/env python3
"""What a person sees of a page of `osdp-report`: the page is drawn by Chromium without a window and without a network: `browser.py PROGRAM [PAGE]`.

The line is made here, with known moments: device 5 has a card, an order, a lost answer and a damaged one, device 6 goes away, and reader 7 answers a repeat by
something else. A script that is put into a copy of the page (`browser.js`) writes down where each text and each mark of a timeline stands, in which colors, and
whether it is what stands in front there. What must be seen is worked out from what was put into the line:

- what is likely wrong comes first, then the devices, the whole line, the timelines, the accusations and the monitor's table, each text within the page and told from its ground;
- the cells of a device's row stand below their heads;
- the share of time in use, and packets, damage and turns of the panel a second are those of the line;
- of each packet of a device there is a mark in its row of the timeline, at its moment, and no mark stands elsewhere;
- each accusation has its packets field by field;
- nothing is fetched, and the page names no source and has no script.

Each of these is asked of broken pages too, and must find what was broken. With PAGE the page is left there."""
import html
import json
import re
import subprocess
import sys
import tempfile
from datetime import datetime, timedelta, timezone
from pathlib import Path

from terminals import packet

HERE = Path(__file__).resolve().parent
START = datetime(2026, 3, 1, 23, 59, 58, tzinfo=timezone.utc)
POLL, ACK, OUT, RAW = 0x60, 0x40, 0x68, 0x50
RATE = 9600
HEADS = ["device", "asked", "answered", "repeats", "damage", "least ms", "median ms", "95 of 100 ms", "greatest ms", "cards and keys", "orders", "state", "last heard"]
PARTS = ["What is likely wrong", "Devices", "The line", "Timelines", "Accusations", "The monitor's table"]


def stamp(moment):
    return (START + timedelta(milliseconds=moment)).strftime("%Y-%m-%dT%H:%M:%S.%f")[:-3] + "Z"


class Line:
    """Bursts with their moments in milliseconds, and what each is in the timeline of its device."""

    def __init__(self):
        self.bursts, self.points, self.times, self.last, self.now = [], {}, {}, {}, 0

    def add(self, way, burst, address, row):
        self.bursts.append((self.now, way, burst))
        self.points.setdefault((address, row), []).append(self.now)

    def ask(self, address, number, code=POLL, data=b"", row="polls"):
        self.now += 200
        self.add("out", packet(address, number, code, data), address, row)

    def answer(self, address, number, delay, code=ACK, data=b"", row="answers"):
        self.now += delay
        self.add("in", packet(address | 0x80, number, code, data), address, row)
        self.last[address] = self.now

    def exchange(self, address, number, delay, *card):
        self.ask(address, number)
        self.answer(address, number, delay, *card)
        self.times.setdefault(address, []).append(delay)

    def place(self, moment):
        """Where a moment stands on the time axis, from 0 to 1."""
        first, last = self.bursts[0][0], self.bursts[-1][0]
        return (moment - first) / (last - first)

    def digits(self):
        return "".join(f"# {stamp(moment)} {way}\n{burst.hex().upper()}\n" for moment, way, burst in self.bursts)

    def count(self, address, *rows):
        return sum(len(self.points.get((address, row), ())) for row in rows)


def made():
    """The line, and of each packet of 7 what its accusation shows: who sent it, its number, and what it says."""
    line, card = Line(), bytes([0, 0, 8, 0, 0xA5])
    for turn in range(12):
        number = (turn - 1) % 3 + 1 if turn else 0
        five(line, turn, number, card)
        if turn < 6:
            line.exchange(6, number, 50 + turn)
        else:
            line.ask(6, 3, row="polls" if turn == 6 else "repeats")
    seven(line, card)
    return line


def five(line, turn, number, card):
    """A turn of device 5."""
    if turn == 2:
        line.exchange(5, number, 40, RAW, card, "cards and keys")
    elif turn == 4:
        line.ask(5, number, OUT, bytes([0, 2, 0, 0]), "orders")
        line.answer(5, number, 33)
        line.times[5].append(33)
    elif turn in (6, 8):  # the answer is lost, or comes damaged
        line.ask(5, number)
        if turn == 8:
            bad = bytearray(packet(0x85, number, ACK))
            bad[-1] ^= 1
            line.add("in", bytes(bad), 5, "damage")
        line.ask(5, number, row="repeats")
        line.answer(5, number, 21)
    else:
        line.exchange(5, number, 20 + turn)


def seven(line, card):
    """Reader 7 answers a repeat by another card."""
    line.exchange(7, 0, 30)
    line.exchange(7, 1, 30, RAW, card, "cards and keys")
    line.ask(7, 1, row="repeats")
    line.answer(7, 1, 30, RAW, card[:4] + b"\xA6", "cards and keys")
    line.points[7, "accused"] = [line.now]


def page_of(program, line):
    done = subprocess.run([HERE.parent / "port/osdp-report", "--osdp", program, "--rate", str(RATE)], input=line.digits().encode(), capture_output=True)
    if done.returncode or done.stderr:
        sys.exit(f"browser: osdp-report has failed: {done.returncode} {done.stderr.decode()}")
    return done.stdout.decode()


POLICY = "<meta http-equiv=Content-Security-Policy content=\"default-src 'none'; style-src 'unsafe-inline'; script-src 'unsafe-inline'\">"


class Seen:
    """What is seen of a page."""

    def __init__(self, page):
        script = f"<script>{(HERE / 'browser.js').read_text()}</script>"
        with tempfile.TemporaryDirectory() as folder:
            copy = Path(folder, "seen.html")
            copy.write_text(page.replace("<head>", "<head>" + POLICY + script, 1))
            done = subprocess.run(["unshare", "-n", "chromium", "--headless", "--no-sandbox", "--disable-gpu", "--disable-dev-shm-usage", f"--user-data-dir={folder}/profile",
                                   "--window-size=1240,1000", "--hide-scrollbars", "--virtual-time-budget=5000", "--dump-dom", f"file://{copy}"],
                                  capture_output=True, text=True, timeout=120)
        found = re.search(r'<pre id="kept">(.*?)</pre>', done.stdout, re.S)
        if found is None:
            sys.exit(f"browser: the page was not looked at: {done.stdout[-300:]} {done.stderr[-500:]}")
        kept = json.loads(html.unescape(found[1]))
        self.page, self.width, self.drawings, self.asked, self.loaded = page, kept["width"], kept["drawings"], kept["asked"], kept["loaded"]
        self.texts = kept["texts"]
        for each in self.texts:
            each["words"] = each["text"].strip()
            boxes = each["boxes"] or [{"left": -1, "right": -1, "top": -1, "bottom": -1}]
            each.update(left=min(box["left"] for box in boxes), right=max(box["right"] for box in boxes), top=boxes[0]["top"], bottom=boxes[-1]["bottom"])

    def of(self, *tags):
        """The texts of such tags, from top to bottom and from left to right."""
        return sorted((each for each in self.texts if each["tag"] in tags), key=lambda each: (round(each["top"]), each["left"]))

    def part(self, name):
        """From where to where a part of the page goes."""
        tops = [each["top"] for each in self.of("h2") if each["words"] == name]
        top = tops[0] if tops else 0
        return top, min((each["top"] for each in self.of("h2") if each["top"] > top), default=10 ** 9)

    def inside(self, name, *tags):
        top, bottom = self.part(name)
        return [each for each in self.of(*tags) if top < each["top"] < bottom]

    def rows(self, name):
        """The rows of the tables of a part: texts of cells that stand beside each other."""
        rows = {}
        for each in self.inside(name, "th", "td"):
            rows.setdefault(round(each["top"]), []).append(each)
        return list(rows.values())


def order(seen, line):
    """What is likely wrong comes first."""
    heads = [each["words"] for each in seen.of("h1", "h2")]
    if heads != ["What happened on this OSDP line", *PARTS]:
        yield f"the parts are {heads}"
    for name, tags in (("What is likely wrong", ["li"]), ("Timelines", ["text"])):
        if len(seen.inside(name, *tags)) != len(seen.of(*tags)) or not seen.of(*tags):
            yield f"not all of {tags} stands in {name}"
    top, bottom = seen.part("Timelines")
    if not all(top < each["top"] < each["bottom"] < bottom for each in seen.drawings):
        yield "a timeline stands elsewhere"


def told(seen, line):
    """Every text is seen, within the page."""
    for each in seen.texts:
        if not each["seen"]:
            yield f"it isn't seen: {each['tag']} {each['words'][:60]!r}"
        if each["left"] < 0 or each["right"] > seen.width:
            yield f"it stands outside of the page: {each['tag']} {each['words'][:60]!r}"


def words(seen, line):
    """The sentences say who is gone, and that a rule was broken."""
    said = [each["words"] for each in seen.inside("What is likely wrong", "li")]
    silent = sum(moment > line.last[6] for row in ("polls", "repeats") for moment in line.points[6, row])
    for each in (f"Device 6 is offline: its last answer came at {stamp(line.last[6])}, and {silent} packets after it have none.", "Somebody broke a rule 1 time: the packets stand below."):
        if each not in said:
            yield f"it isn't said that {each!r}: {said}"


def rank(times, hundredth):
    """The least time that at least as many of a hundred are not above."""
    return next(time for time in sorted(times) if 100 * sum(other <= time for other in times) >= hundredth * len(times))


def device_row(line, address):
    asked, times = line.count(address, "polls", "repeats", "orders"), line.times[address]
    shares = [f"{100 * line.count(address, row) // asked}%" for row in ("repeats", "damage")]
    state = "offline" if address == 6 else "online"
    return [str(each) for each in (address, asked, line.count(address, "answers", "cards and keys"), *shares, min(times), rank(times, 50), rank(times, 95), max(times),
                                   line.count(address, "cards and keys"), line.count(address, "orders"), state, stamp(line.last[address]))]


def table(seen, line):
    """Each device has a row, whose cells stand below their heads."""
    rows = seen.rows("Devices")
    wanted = [HEADS, *(device_row(line, address) for address in (5, 6, 7))]
    if [[cell["words"] for cell in row] for row in rows] != wanted:
        yield f"the rows are {[[cell['words'] for cell in row] for row in rows]}, and not {wanted}"
    for row in rows[1:]:
        for head, cell in zip(rows[0], row):
            if abs(head["left"] - cell["left"]) > 1 and abs(head["right"] - cell["right"]) > 1:
                yield f"{cell['words']} doesn't stand below {head['words']}"


def whole(seen, line):
    """What is said of the whole line: each burst is a packet but a damaged one, and 5 is asked the most."""
    time, damage, rounds = (line.bursts[-1][0] - line.bursts[0][0]) / 1000, line.count(5, "damage"), line.count(5, "polls", "orders")
    share = sum(len(burst) for _, _, burst in line.bursts) * 10 / (RATE * time)
    wanted = [f"In the whole capture, {time:.1f} s: {share:.0%} of the time in use; a second {(len(line.bursts) - damage) / time:.1f} packets, {damage / time:.1f} damaged, "
              f"{rounds / time:.1f} turns of the panel."]
    said = [each["words"] for each in seen.inside("The line", "p")]
    if said != wanted or len(line.points[6, "polls"]) >= rounds:
        yield f"of the line it is said {said}, and not {wanted}"


def timeline(seen, line, drawing, address):
    """The marks of a device's timeline."""
    inside = [each for each in seen.of("text") if drawing["top"] <= each["top"] < drawing["bottom"]]
    rows = {row: {110 + min(599, int(line.place(moment) * 600)) for moment in line.points[address, row]} for each, row in line.points if each == address}
    labels = {each["words"]: (each["top"] + each["bottom"]) / 2 for each in inside if each["right"] < drawing["left"] + 110}
    if set(labels) != set(rows):
        yield f"{address}: the rows are {sorted(labels)}, and not {sorted(rows)}"
    colors = {}
    for mark in drawing["marks"]:
        middle = (mark["top"] + mark["bottom"]) / 2
        row = min(labels, key=lambda name: abs(labels[name] - middle), default=None)
        colors.setdefault(row, {}).setdefault(mark["fill"], set()).add(round(mark["left"] - drawing["left"]))
        if not mark["seen"] or mark["right"] - mark["left"] < 1 or mark["bottom"] - mark["top"] < 8:
            yield f"{address}: a mark of {row} isn't seen"
        if not (drawing["left"] <= mark["left"] < mark["right"] <= drawing["right"] <= seen.width and drawing["top"] <= mark["top"] < mark["bottom"] <= drawing["bottom"]):
            yield f"{address}: a mark of {row} stands outside"
    for row, columns in rows.items():
        drawn = colors.get(row, {})
        if len(drawn) != 1 or columns != set().union(*drawn.values()):
            yield f"{address}: marks of {row} stand at {drawn}, and not at {sorted(columns)}"
    if len({fill for drawn in colors.values() for fill in drawn}) != len(rows):
        yield f"{address}: two rows have one color"
    ends = [(each["words"], round(each["left"] - drawing["left"]), round(each["right"] - drawing["left"])) for each in inside if each["words"] not in labels]
    first, last = (stamp(line.bursts[at][0]) for at in (0, -1))
    if [each[0] for each in ends] != [first, last] or abs(ends[0][1] - 110) > 2 or abs(ends[1][2] - 710) > 2:
        yield f"{address}: the ends are {ends}"


def timelines(seen, line):
    """Each device has a timeline below its name."""
    names = [each["words"] for each in seen.inside("Timelines", "h3")]
    if names != ["Device 5", "Device 6", "Device 7"] or [each["label"] for each in seen.drawings] != [f"timeline of device {address}" for address in (5, 6, 7)]:
        yield f"the timelines are those of {names}"
        return
    heads = seen.inside("Timelines", "h3")
    for head, drawing, address in zip(heads, seen.drawings, (5, 6, 7)):
        if not head["bottom"] <= drawing["top"] + 1:
            yield f"the name of {address} doesn't stand above its timeline"
        yield from timeline(seen, line, drawing, address)


def accusations(seen, line):
    """The packets of what reader 7 is accused of stand there field by field."""
    runs = len(line.bursts)
    said = [("reader", "0", "ACK"), ("panel", "1", "POLL"), ("reader", "1", "RAW 0 0 8 A5"), ("panel", "1", "POLL"), ("reader", "1", "RAW 0 0 8 A6")]
    wanted = [["run", "moment", "way", "from", "number", "check", "says"]]
    for run, (party, number, text) in zip(range(runs - 4, runs + 1), said):
        moment, way, _ = line.bursts[run - 1]
        wanted.append([str(run), stamp(moment), way, party, number, "sum", text])
    rows = [[cell["words"] for cell in row] for row in seen.rows("Accusations")]
    if rows != wanted:
        yield f"the packets are {rows}, and not {wanted}"
    heads = [each["words"] for each in seen.inside("Accusations", "h3")]
    if heads != [f"Run {runs}: reader 7: a repeat is answered by something else (standard)"]:
        yield f"the accusations are {heads}"
    both = [each["words"].split() for each in seen.inside("Accusations", "pre")]
    if both != [["expected", line.bursts[-3][2].hex().upper(), "seen", line.bursts[-1][2].hex().upper()]]:
        yield f"the bytes are {both}"


def alone(seen, line):
    """Nothing is fetched, and nothing could be."""
    if seen.asked or seen.loaded:
        yield f"it asks for {seen.asked + seen.loaded}"
    named = re.findall(r"(?i)<(?:script|link|iframe|object|embed|img|base|form)\b|http-equiv|\b(?:href|src|srcset|ping)=|\b\w+://|url\(|@import", seen.page)
    if named:
        yield f"it names {named}"


CHECKS = (order, told, words, table, whole, timelines, accusations, alone)
LI, SVG, HIDDEN = "<li>Somebody broke a rule", "<svg ", "position:absolute;left:0;background:#fff;"
BROKEN = (  # what is broken, what stood there, what stands there then, and who must find it
    ("the accusations come first", "<h2>What is likely wrong</h2>", "<h2>Accusations</h2>", order),
    ("a timeline stands below the accusations", "<h2>Accusations</h2>", "<svg width=9 height=9></svg><h2>Accusations</h2><svg width=9 height=9></svg>", order),
    ("a sentence is hidden", LI, "<li style=display:none>Somebody broke a rule", told),
    ("a sentence is white", LI, "<li style=color:#fff>Somebody broke a rule", told),
    ("a sentence is covered", LI, f"<li><div style={HIDDEN}width:900px;height:40px></div>Somebody broke a rule", told),
    ("a table is wider than the page", "<td class=text>online</td>", "<td class=text>online<div style=width:900px></div></td>", told),
    ("a sentence isn't there", "Device 6 is offline", "Device 6 is gone", words),
    ("a cell isn't there", "<td class=text>online</td>", "", table),
    ("a number is wrong", "<td>40</td>", "<td>41</td>", table),
    ("a cell stands elsewhere", "<td class=text>online</td>", "<td class=text style=position:relative;left:9px>online</td>", table),
    ("the line isn't told", "In the whole capture", "In the capture", whole),
    ("the line's figures are hidden", "<p>In the whole capture", "<p style=visibility:hidden>In the whole capture", told),
    ("the line's figures stand elsewhere", "<h2>The line</h2>", "<h2>The line</h2><h2>More</h2>", whole),
    ("a timeline has no width", SVG + 'width="720"', SVG + 'width="0"', timelines),
    ("a timeline is cut off below", 'height="116" role', 'height="60" role', timelines),
    ("marks have no height", 'height="12"', 'height="0"', timelines),
    ("marks are white", 'fill="#3b7a57"', 'fill="#ffffff"', timelines),
    ("marks have another row's color", 'fill="#3b7a57"', 'fill="#9db4c8"', timelines),
    ("marks stand elsewhere", '<rect x="1', '<rect x="2', timelines),
    ("marks stand outside", 'y="2"', 'y="-90"', timelines),
    ("a timeline is covered", SVG, f"<div style={HIDDEN}width:900px;height:300px></div>" + SVG, timelines),
    ("a row has no name", ">orders</text>", "></text>", timelines),
    ("a packet isn't there", "<td class=text>RAW 0 0 8 A6</td>", "<td class=text>RAW</td>", accusations),
    ("the bytes that had to come aren't there", "expected 5387", "expected 5386", accusations),
    ("a picture is fetched", "<h2>Devices</h2>", "<h2>Devices</h2><img src=//192.0.2.1/x.png>", alone),
    ("a font is fetched", "<style>", "<style>@font-face{font-family:x;src:url(x.woff)}body{font-family:x,sans-serif}", alone),
    ("a script stands there", "<h2>Devices</h2>", "<h2>Devices</h2><script>fetch('x')</script>", alone),
)


def faults_of(page, line):
    """Each fault of a page, under the check that has found it."""
    seen = Seen(page)
    return {check: list(check(seen, line)) for check in CHECKS}


def main():
    line, faults = made(), []
    page = page_of(sys.argv[1], line)
    if len(sys.argv) > 2:
        Path(sys.argv[2]).write_text(page)
    for check, found in faults_of(page, line).items():
        faults += [f"{check.__name__}: {each}" for each in found]
    for what, before, after, check in BROKEN:
        if before not in page:
            faults.append(f"nothing is broken: {what}")
        elif not faults_of(page.replace(before, after), line)[check]:
            faults.append(f"{check.__name__} doesn't see that {what}")
    seen = Seen(page)
    print(f"browser: {len(seen.texts)} texts and {sum(len(each['marks']) for each in seen.drawings)} marks are seen, {len(BROKEN)} broken pages, {len(faults)} faults", *faults, sep="\n")
    return 1 if faults else 0


if __name__ == "__main__":
    sys.exit(main())
