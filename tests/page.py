"""The page of `osdp-port .. page` in Chromium without a window: `page.py OSDP [PART..] [--pictures FOLDER]`.

- `demo`: the demo shows two devices, a card, orders and losses; a second page watches, and gets control when it is given; keys, widths, light and dark.
- `walk`: on a line of pseudo terminals a device at 38,400 with a CRC alone and address 23 is found and set to 5 and 9,600; a card, an output for 3 s, ten seconds
  without a line, `test device`, the report. What the page counts and says is what `osdp-report` and `osdp monitor` say of the trace.
- `hostile`: no token, another origin, another host, a thousand requests a second, and text of the line that would be a script.
- `load`: sixteen devices at 115,200 with a card each second, and a browser that takes nothing: how much of a processor the page uses, and the intervals between packets.
- `goes_on` and `ends`: once no page has been there for ten seconds the line goes on, or the program ends.

Prints each fault. The status is 1 where there is one."""
import asyncio
import contextlib
import http.server
import json
import os
import re
import signal
import socket
import statistics
import subprocess
import sys
import tempfile
import threading
import time
from concurrent.futures import ThreadPoolExecutor
from pathlib import Path

import aiohttp

import port_line
from chromium import Browser, Failed
from page_line import Relayed, Sixteen
from port_line import PORT, TOP, asks, faults, taken
from terminals import Script, Terminal

READY = "document.body && document.body.dataset.ready"
ONLINE = "document.querySelectorAll('#devices > li.online').length"
pictures = None


def address_of(script, waits):
    """The address that a program has printed."""
    asks(waits(lambda: any("http://" in line for line in script.lines)), f"no address is printed: {script.lines}")
    return re.search(r"http://\S+", " ".join(script.lines))[0]


class Reading:
    """A program whose lines a thread reads."""

    def __init__(self, *words, **streams):
        self.script = Script(PORT, "--plain", "--osdp", port_line.osdp, *words, **streams)
        self.lines = self.script.lines
        threading.Thread(target=self.goes, daemon=True).start()

    def goes(self):
        while not self.script.is_over:
            self.script.read()
            time.sleep(0.02)

    def __enter__(self):
        return self

    def __exit__(self, *_):
        if self.script.process.poll() is None:
            self.script.process.send_signal(signal.SIGINT)
            try:
                self.script.process.wait(15)
            except subprocess.TimeoutExpired:
                faults.append("the program doesn't end")
                self.script.process.kill()

    @staticmethod
    def waits(until, seconds=60.0):
        end = time.monotonic() + seconds
        while not until() and time.monotonic() < end:
            time.sleep(0.02)
        return until()


def picture(tab, name):
    """Pictures of a page at both widths, in light and dark, where they are wanted."""
    for width, height, dark in ((1400, 900, False), (1400, 900, True), (360, 740, False), (360, 740, True)) if pictures else ():
        tab.sized(width, height, dark)
        tab.browser.rests(0.3)
        tab.picture(Path(pictures) / f"{name}_{width}{'_dark' if dark else ''}.png")
    tab.sized(1400)


def fits(tab, what):
    """Nothing stands outside of the page at 360 and at 1,400 pixels, in light and dark; what can be used has a name; and text is told from its ground."""
    for width in (360, 1400):
        for dark in (False, True):
            tab.sized(width, 800, dark)
            tab.browser.rests(0.1)
            wide = tab.evaluates("document.documentElement.scrollWidth")
            asks(wide <= width, f"{what}: {wide} pixels at {width}")
            faint = tab.evaluates(FAINT)
            asks(not faint, f"{what}: faint at {width}, dark {dark}: {faint}")
    tab.sized(1400)
    nameless = tab.evaluates("""[...document.querySelectorAll("button, input, select, a, canvas, progress, [role=tab]")].filter((each) => each.checkVisibility() && !(each.getAttribute("aria-label")
      || each.textContent.trim() || (each.labels && each.labels.length && each.labels[0].textContent.trim()))).map((each) => each.outerHTML.slice(0, 90))""")
    asks(not nameless, f"{what}: without a name: {nameless}")


FAINT = """(() => {
  const channel = (value) => value <= 0.03928 ? value / 12.92 : ((value + 0.055) / 1.055) ** 2.4;
  const light = (color) => { const [r, g, b] = color.match(/[\\d.]+/g).map((each) => channel(Number(each) / 255)); return 0.2126 * r + 0.7152 * g + 0.0722 * b; };
  const ground = (element) => { for (let at = element; at; at = at.parentElement) { const found = getComputedStyle(at).backgroundColor; if (!/, 0\\)$|transparent/.test(found)) { return found; } } return "rgb(255, 255, 255)"; };
  return [...document.querySelectorAll("p, h1, h2, h3, dt, dd, td, th, li, span, small, button, a.button, label, summary")].filter((each) => each.checkVisibility() && !each.disabled
    && [...each.childNodes].some((node) => node.nodeType === 3 && node.data.trim())).filter((each) => {
      const [a, b] = [light(getComputedStyle(each).color), light(ground(each))];
      return (Math.max(a, b) + 0.05) / (Math.min(a, b) + 0.05) < 4.5;
    }).map((each) => each.tagName + " " + each.textContent.slice(0, 30)).slice(0, 5);
})()"""


# the demo

def demo(browser):
    with Reading("--demo", "page") as program:
        tab = browser.tab()
        tab.opens(address_of(program, program.waits), READY)
        tab.waits(f"{ONLINE} === 2", what="both devices are online")
        tab.clicks("#tab-demo")
        tab.clicks("[data-reader='0'] button")
        tab.clicks("#tab-devices")
        shown = tab.waits("document.querySelector('#cards li') && document.querySelector('#cards li').innerText")
        asks("26 bits" in shown and "4386" not in shown and "17" not in shown.replace(shown[shown.find(":", 20):shown.find(":", 20) + 6], ""), f"a masked card: {shown!r}")
        tab.clicks("#reveal")
        shown = tab.waits("/4386/.test(document.querySelector('#cards').innerText) && document.querySelector('#cards').innerText")
        asks("H10301: facility 17, number 4386" in shown, f"a card: {shown!r}")  # the card that the demo holds up: facility 17, number 4386
        tab.clicks("#reveal")
        tab.waits("!/4386/.test(document.querySelector('#cards').innerText)")
        tries(tab)
        second = watches(browser, tab, program)
        fits(tab, "devices")
        for name in ("find", "line", "test", "keep", "demo"):
            tab.clicks(f"#tab-{name}")
            fits(tab, name)
        losses(tab)
        by_keys(tab)
        asks(tab.faults + second.faults == [], f"the demo: {tab.faults + second.faults}")


def tries(tab):
    """Each kind of order of what the device claims, and its life."""
    for selector, words in (("form[data-output='1'] button", "output 1 on for 3 s"), ("[aria-label='LED 0'] button:nth-child(2)", "LED 0 green"), ("[aria-label='Buzzer'] button", "sound"),
                            ("[aria-label='Ask anew'] button", "ask for tamper and power")):
        tab.clicks(f"[data-address='5'] {selector}")
        shown = tab.waits(f"[...document.querySelectorAll('#orders li')].map((each) => each.innerText).find((each) => each.includes({json.dumps(words)}) && /answered/.test(each))", what=f"{words} is answered")
        asks(all(each in shown for each in ("waiting", "on the line", "answered")), f"the life of {words}: {shown!r}")
    tab.fills("[data-address='5'] form[data-output='0'] input", "")
    before = tab.evaluates("document.querySelectorAll('#orders li').length")
    tab.clicks("[data-address='5'] form[data-output='0'] button")
    tab.browser.rests(0.5)
    asks(tab.evaluates("document.querySelectorAll('#orders li').length") == before, "an output is switched on without a time")


def watches(browser, tab, program):
    """A second page watches; what it sends all the same does nothing; it gets control once that is given."""
    second = browser.tab()
    second.opens(address_of(program, program.waits), READY)
    second.waits("/watches/.test(document.querySelector('#control').innerText)")
    asks(second.evaluates("[...document.querySelectorAll('.orders')].every((each) => each.disabled)"), "a page that watches has buttons that order")
    count = tab.evaluates("document.querySelectorAll('#orders li').length")
    second.evaluates("import('./kit.js').then(({ wire }) => { wire.send({ do: 'order', address: 5, order: { what: 'output', output: 0, tenths: 30 } }); wire.send({ do: 'take' }); wire.send({ do: 'watch' }); })")
    browser.rests(1.0)
    asks(tab.evaluates("document.querySelectorAll('#orders li').length") == count and "panel runs" in tab.text("#doing"), "a page that watches has ordered something")
    tab.clicks("#give")
    second.clicks("#take")
    second.waits("/has control/.test(document.querySelector('#control').innerText)")
    tab.waits("/watches/.test(document.querySelector('#control').innerText)")
    second.clicks("#give")
    tab.clicks("#take")
    tab.waits("/has control/.test(document.querySelector('#control').innerText)")
    second.close()
    return second


def losses(tab):
    """With losses packets are repeated, and are seen."""
    tab.clicks("#tab-demo")
    tab.fills("#demo-loss", 20)
    tab.clicks("#tab-line")
    tab.waits("[...document.querySelectorAll('#counts tbody tr')].every((row) => Number(row.children[3].textContent) > 1)", what="repeats are counted")
    told = tab.waits("/loses/.test(document.querySelector('#diagnoses').innerText) && /no answer in time/.test(document.querySelector('#told').innerText) && document.querySelector('#panel-line').innerText", what="losses are told")
    asks(re.search(r"^device [56] loses \d+% of answers(, others none)?$", told, re.M) and "A session with the device began." in told, f"what is told of losses: {told!r}")
    picture(tab, "line")


def by_keys(tab):
    """The tabs are moved through by the arrow keys."""
    tab.evaluates("document.querySelector('#tab-line').focus()")
    tab.presses("ArrowRight")
    asks(tab.evaluates("document.activeElement.id") == "tab-test" and not tab.evaluates("document.querySelector('#panel-test').hidden"), "the arrow keys move through the tabs")


# a line

def walk(browser):
    with tempfile.TemporaryDirectory() as folder, Relayed() as line:
        trace = Path(folder) / "line.trace"
        reader = line.start(line.reader_ends[0], 38400, "reader", 23, *CLAIMS)
        line.loses = crc_alone
        reader.say("inputs 0000")
        page = line.start(line.panel_end, 9600, "page", options=["--trace", trace])
        tab = browser.tab(folder=folder)
        tab.opens(address_of(page, line.waits), READY)
        finds(tab)
        sets(tab, reader, line)
        runs(tab, line, reader)
        loses_line(tab, line)
        tests(tab, Path(folder))
        same_as_trace(tab, trace)
        keeps(tab, Path(folder))
        asks(tab.faults == [], f"the walk: {tab.faults}")
        asks(line.stops(page) == 0, "the page's program ends with another status")


CLAIMS = "vendor 53494D model 1 version 2 serial 12345 firmware 1:2:3 cap 1:1:2 cap 2:1:8 cap 3:1:1 cap 4:4:1 cap 8:1:0".split()


def crc_alone(way, burst):
    """The device reads nothing but packets with a CRC."""
    return way == "out" and len(burst) > 4 and not burst[4] & 4


def finds(tab):
    tab.clicks("#find-form button")
    seen = tab.waits("document.querySelector('#find-asks').innerText", what="what is asked is shown")
    asks("Listening" in seen or "Asking" in seen, f"what is asked: {seen!r}")
    shown = tab.waits("document.querySelector('#found li') && document.querySelector('#found li').innerText", 60)
    for each in ("address 23", "38,400", "CRC", "53494D", "12345", "1.2.3"):
        asks(each in shown, f"the device that is found has no {each}: {shown!r}")
    tab.waits("document.querySelector('#found form')", 60, "the device can be set")
    asks("One device was found" in tab.text("#find-result"), f"found: {tab.text('#find-result')!r}")
    picture(tab, "find")


def sets(tab, reader, line):
    tab.fills("#found input[name=address]", 5)
    tab.fills("#found select[name=rate]", 9600)
    tab.clicks("#found form button")
    shown = tab.waits("document.querySelector('#confirm').open && document.querySelector('#confirm').innerText")
    asks(all(each in shown for each in ("from 23", "to 5", "from 38,400", "to 9,600", "search again")), f"what is confirmed: {shown!r}")
    asks(not any(each.startswith("taken COMSET") for each in reader.lines), "it is set before it is confirmed")
    tab.clicks("#confirm-yes")
    tab.waits("/Set: the device is at address 5, 9,600/.test(document.querySelector('#find-result').innerText)", 60)
    asks([each for each in reader.lines if each.startswith("taken COMSET")] == ["taken COMSET 5 9600"], f"the reader has taken {reader.lines}")


def runs(tab, line, reader):
    """A panel runs: a card is seen, and the output is on for 3 s, once."""
    tab.clicks("#found-panel button")
    tab.waits(f"{ONLINE} === 1", what="the device is online")
    tab.waits("document.querySelector('form[data-output=\"0\"]')")
    asks(tab.evaluates("document.querySelectorAll('form[data-output]').length") == 8 and not tab.evaluates("document.querySelector('[aria-label=Buzzer]')"), "there are buttons for what it doesn't claim")
    reader.say("card 17 4386")
    tab.waits("/26 bits/.test(document.querySelector('#cards').innerText)", what="the card is shown")
    tab.clicks("[data-address='5'] form[data-output='0'] button")
    tab.waits("/output 0: on/.test(document.querySelector('#devices').innerText)", 10, "the output is shown as on")
    tab.waits("/output 0: off/.test(document.querySelector('#devices').innerText)", 10, "the output is shown as off again")
    asks([each for each in reader.lines if "OUT" in each and "OSTAT" not in each] == ["taken OUT 0:5:30"], f"the reader has taken {taken(reader)}")
    picture(tab, "devices")


def loses_line(tab, line):
    """The line is gone for ten seconds: that is seen, an order is refused, and it comes back."""
    line.loses, begun = (lambda way, burst: True), time.monotonic()
    tab.waits("/offline since/.test(document.querySelector('#devices').innerText)", 15, "the lost line is seen")
    asks("no answer" in tab.text("#devices"), "why it is offline isn't said")
    asks(tab.evaluates("!document.querySelector('form[data-output]')"), "a device that is offline has buttons")
    tab.clicks("#tab-line")
    advised = tab.waits("/two wires/.test(document.querySelector('#diagnoses').innerText) && document.querySelector('#diagnoses').innerText", 10, "what to do is said")
    asks("its power, or the two wires" in advised and "by Find" in advised and "osdp-port" not in advised, f"what to do: {advised!r}")
    time.sleep(max(0, begun + 10 - time.monotonic()))
    line.loses = crc_alone
    tab.clicks("#tab-devices")
    tab.waits(f"{ONLINE} === 1", 20, "the line is seen to be back")


def tests(tab, folder):
    """`test device`: progress, verdicts, what is left out, and the report."""
    tab.clicks("#tab-test")
    tab.fills("#test-address", 5)
    tab.clicks("#test-form button")
    tab.waits("/Rule [1-9]/.test(document.querySelector('#test-rule').innerText)", 20, "progress is shown")
    tab.waits("/The test is over/.test(document.querySelector('#test-status').innerText)", 120, "the test ends")
    verdicts = tab.evaluates("[...document.querySelectorAll('#verdicts li')].map((each) => each.textContent)")
    left = tab.evaluates("[...document.querySelectorAll('#left-out li')].map((each) => each.textContent)")
    asks(all(f"rule {rule}, which isn't allowed above: {what}" in " ".join(left) for rule, what in ((18, "be silent for 8 seconds"), (50, "switch output 0 off"), (96, "switch output 0 on for a second"))), f"what is left out: {left}")
    broken = [each for each in verdicts if re.match(r"\d+ broken", each) and not each.startswith("85 ")]  # rule 85 goes by the clock: a busy machine breaks it
    counts = re.fullmatch(r"rules (\d+) ok (\d+) .*broken (\d+) .*skipped (\d+)", verdicts[-1] if verdicts else "")
    asks(bool(counts) and int(counts[2]) > 30 and broken == [] and int(counts[4]) == len(left), f"the verdicts: {broken}, {verdicts[-1:]}, {len(left)} left out")
    picture(tab, "test")
    tab.clicks("#test-save")
    file = folder / "osdp-test-5.txt"
    asks(Relayed.waits(lambda: file.exists(), 10) and file.read_text().splitlines() == verdicts, "the report that is saved isn't the one that is shown")


def report_of(trace):
    words = [TOP / "port/osdp-report", "--osdp", port_line.osdp, "--json", "--rate", "9600", trace]
    return [json.loads(line) for line in subprocess.run(words, capture_output=True, text=True, check=True).stdout.splitlines()]


def same_as_trace(tab, trace):
    """Counts and texts of the page are those of the trace."""
    tab.waits("/listening/.test(document.querySelector('#doing').innerText)")
    tab.clicks("#tab-line")
    tab.browser.rests(2.5)
    told = report_of(trace)
    wanted = [[str(each[name]) for name in ("address", "asked", "answered", "repeats", "damaged", "events", "orders")] + [str(each["times"][name]) if each["times"] else "-" for name in ("least", "median", "greatest")]
              for each in told if each["kind"] == "device" and each["answered"]]
    shown = tab.evaluates("[...document.querySelectorAll('#counts tbody tr')].map((row) => [...row.children].slice(0, 10).map((cell) => cell.textContent))")
    asks(len(wanted) == 3 and shown == wanted, f"the counts are {[row for row in shown if row not in wanted]}, and of the trace {[row for row in wanted if row not in shown]}")
    packets = tab.evaluates("import('./kit.js').then(() => document.querySelector('#pace').innerText)").replace(",", "")
    line = next(each for each in told if each["kind"] == "line")
    asks(re.search(rf"packets in all\s+{line['packets']}\b", packets) is not None, f"{line['packets']} packets, and the page has {packets!r}")
    done = subprocess.run([port_line.osdp, "monitor", "--json", trace], capture_output=True, text=True, check=False).stdout
    heads = {"device": "device {0}: {1}", "panel to": "the panel to device {0}: {1}", "reader": "reader {0}: {1}"}
    said = [heads[each["party"]].format(each["address"], each["text"]) for each in map(json.loads, done.splitlines()) if each["kind"] == "told"]
    asks(tab.evaluates("[...document.querySelectorAll('#told strong')].map((each) => each.textContent)") == said[::-1][:60] and said, "the sentences aren't those of the monitor on the trace")


def keeps(tab, folder):
    """The settings and the report of the trace are saved."""
    tab.clicks("#tab-keep")
    tab.fills("#settings input", "front door")
    tab.browser.rests(0.5)
    tab.clicks("#settings-save")
    file = folder / "osdp-settings.csv"
    asks(Relayed.waits(file.exists, 10), "no settings are saved")
    rows = [row.split(",") for row in file.read_text().splitlines()] if file.exists() else [[], []]
    asks(rows[1][1:2] + rows[1][3:] == ["front door", "5", "9600", "crc", "53494D", "1", "2", "12345", "1.2.3", "23", "38400"], f"the settings are {rows}")
    tab.clicks("#trace-off")
    tab.waits("/The trace is off/.test(document.querySelector('#trace-state').innerText)")
    tab.clicks("#trace-report")
    page = folder / "osdp-report.html"
    asks(Relayed.waits(page.exists, 30) and "What happened on this OSDP line" in page.read_text(), "no report of the trace is saved")
    picture(tab, "keep")


# hostile pages

async def asked(address, **words):
    """The status of a request."""
    async with aiohttp.ClientSession() as client:
        async with client.request(words.pop("method", "GET"), address, **words) as answer:
            await answer.read()
            return answer.status


async def opens_socket(address, **headers):
    """Whether a web socket is opened."""
    async with aiohttp.ClientSession() as client:
        try:
            async with client.ws_connect(address, headers=headers):
                return True
        except aiohttp.WSServerHandshakeError:
            return False


def refuses(address):
    """What has no token, another host, another origin, or asks for more than a page may, gets nothing."""
    root = re.match(r"http://[^/]+", address)[0]
    host = root.removeprefix("http://")
    rows = [(address, {}, 200), (root + "/", {}, 404), (root + "/page.js", {}, 404), (address[:-2] + "x/", {}, 404), (address + "../", {}, 404), (address + "page.js", {}, 200), (address + "nothing", {}, 404),
            (address, {"headers": {"Host": "osdp.example"}}, 404), (address, {"headers": {"Host": host.replace("127.0.0.1", "localhost")}}, 200), (address, {"headers": {"Origin": "http://osdp.example"}}, 404),
            (address, {"headers": {"Origin": "null"}}, 404), (address, {"headers": {"Sec-Fetch-Site": "cross-site"}}, 404), (address, {"method": "POST", "data": "x" * 5000}, 404), (address, {"method": "DELETE"}, 404)]
    for at, words, status in rows:
        asks((found := asyncio.run(asked(at, **words))) == status, f"{at.replace(address, 'ADDRESS/')} with {words} is answered by {found}, and not {status}")
    ways = address.replace("http", "ws") + "line?key=x"
    for headers, is_open in (({"Origin": root}, True), ({}, False), ({"Origin": "http://osdp.example"}, False), ({"Origin": root, "Host": "osdp.example"}, False)):
        asks(asyncio.run(opens_socket(ways, **headers)) == is_open, f"a web socket with {headers}")
    asks(not asyncio.run(opens_socket(f"ws://{host}/x/line", Origin=root)), "a web socket without the token")


def floods(root, seconds, count=1000):
    """So many requests a second, on connections that stay. How many were answered."""
    host, port = root.removeprefix("http://").split(":")
    ways = [socket.create_connection((host, int(port))) for _ in range(4)]
    asks_for = f"GET /nothing/page.html HTTP/1.1\r\nHost: {host}:{port}\r\n\r\n".encode()
    begun, sent, came = time.monotonic(), 0, b""
    while (now := time.monotonic()) < begun + seconds:
        due = int((now - begun) * count) - sent
        for way in ways:
            way.sendall(asks_for * (due // len(ways)))
            way.setblocking(False)
            with contextlib.suppress(BlockingIOError):
                came += way.recv(1 << 20)
            way.setblocking(True)
        sent += due // len(ways) * len(ways)
        time.sleep(0.01)
    for way in ways:
        way.close()
    return came.count(b"HTTP/1.1 404")


def intervals(moments, since):
    """The intervals between packets, in milliseconds: the median and the one that 95 of 100 are not above."""
    kept = [moment for moment in moments if moment >= since]
    gaps = sorted((later - one) * 1000 for one, later in zip(kept, kept[1:]))
    return (statistics.median(gaps), gaps[len(gaps) * 95 // 100], len(kept)) if len(gaps) > 10 else (0.0, 0.0, 0)


SCRIPT = "<script>alert(1)</script><img/src=x/onerror=alert(2)>"


def hostile(browser):
    with tempfile.TemporaryDirectory() as folder, Relayed() as line:
        trace = Path(folder) / "line.trace"
        reader = line.start(line.reader_ends[0], 9600, "reader", 5, *CLAIMS)
        page = line.start(line.panel_end, 9600, "page", options=["--trace", trace])
        address = address_of(page, line.waits)
        tab = browser.tab(folder=folder)
        tab.opens(address + "#devices", READY)
        refuses(address)
        tab.fills("#panel-addresses", "5")
        tab.clicks("#panel-form button")
        tab.waits(f"{ONLINE} === 1", what="the device is online")
        other_origin(browser, address)
        is_flooded(tab, line, reader, address)
        scripts(tab, reader, Path(folder))
        asks(tab.faults == [], f"hostile: {tab.faults}")
        line.stops(page)


def other_origin(browser, address):
    """A page of another origin that knows even the token opens no socket, shows no frame and reads no file."""
    class Elsewhere(http.server.BaseHTTPRequestHandler):
        def do_GET(self):
            self.send_response(200)
            self.send_header("Content-Type", "text/html")
            self.end_headers()
            self.wfile.write(b"<!doctype html><title>elsewhere</title><h1>elsewhere</h1>")

        def log_message(self, *_):
            pass
    elsewhere = http.server.ThreadingHTTPServer(("127.0.0.1", 0), Elsewhere)
    threading.Thread(target=elsewhere.serve_forever, daemon=True).start()
    tab = browser.tab()
    tab.opens(f"http://127.0.0.1:{elsewhere.server_port}/", "document.title === 'elsewhere'")
    ways = json.dumps(address.replace("http", "ws") + "line?key=x")
    opened = tab.evaluates(f"new Promise((ends) => {{ const way = new WebSocket({ways}); way.onopen = () => ends('open'); way.onerror = () => ends('refused'); }})")
    read = tab.evaluates(f"fetch({json.dumps(address)}).then(() => 'read', () => 'refused')")
    framed = tab.evaluates(f"""new Promise((ends) => {{ const frame = document.createElement("iframe"); frame.src = {json.dumps(address)}; frame.onload = () => {{
      try {{ ends(frame.contentDocument === null ? "refused" : "shown"); }} catch {{ ends("refused"); }} }}; document.body.append(frame); }})""")
    asks((opened, read, framed) == ("refused", "refused", "refused"), f"another origin: socket {opened}, file {read}, frame {framed}")
    shown = tab.evaluates("document.querySelector('iframe').contentDocument === null || !document.querySelector('iframe').contentDocument.querySelector('main')")
    asks(shown and any("frame-ancestors" in each or "X-Frame-Options" in each for each in tab.faults), f"the frame is shown at another origin: {tab.faults}")
    tab.close()
    elsewhere.shutdown()


def is_flooded(tab, line, reader, address):
    """Orders, and the intervals between packets, are those of before."""
    root = re.match(r"http://[^/]+", address)[0]
    begun = time.monotonic()
    time.sleep(4)
    quiet = intervals(line.sent, begun)
    sent, flooded = [], time.monotonic()
    flood = threading.Thread(target=lambda: sent.append(floods(root, 4)))
    flood.start()
    tab.clicks("[data-address='5'] form[data-output='0'] button")
    flood.join()
    loud = intervals([moment for moment in line.sent if moment < flooded + 4], flooded)
    print(f"page: {sent[0] / 4:.0f} requests a second; intervals between packets {quiet[0]:.0f} ms, 95 of 100 below {quiet[1]:.0f}, and without them; {loud[0]:.0f} and {loud[1]:.0f} with them")
    asks(sent[0] > 2000, f"only {sent[0]} requests were answered in 4 s")
    asks(loud[0] <= quiet[0] + 10 and loud[1] <= quiet[1] + 60 and loud[2] > quiet[2] / 2, f"the intervals are {loud}, and {quiet} without requests")
    tab.waits("/answered/.test(document.querySelector('#orders li').innerText)", what="the order is answered")
    asks([each for each in reader.lines if each.startswith("taken OUT")] == ["taken OUT 0:5:30"], f"the reader has taken {taken(reader)}")


def scripts(tab, reader, folder):
    """Text of the line that would be a script stands there as a text, and nothing of it runs."""
    reader.say(f"keys {SCRIPT}")
    tab.clicks("#reveal")
    tab.waits(f"document.querySelector('#cards').innerText.includes({json.dumps(SCRIPT)})", what="keys of the line stand there as they came")
    tab.browser.rests(0.5)
    asks(tab.evaluates("document.querySelectorAll('main script, main img').length") == 0, "an element of the line stands in the page")
    tab.clicks("#tab-keep")
    tab.clicks("#trace-report")
    page = folder / "osdp-report.html"
    asks(Relayed.waits(page.exists, 30) and "<script" not in page.read_text() and "<img" not in page.read_text(), "the report has an element of the line")
    asks(tab.evaluates("(() => { const made = document.createElement('script'); made.textContent = 'document.body.dataset.ran = 1'; document.body.append(made); return document.body.dataset.ran === undefined; })()"), "a script within the page runs")
    tab.browser.rests(0.3)
    refused = [each for each in tab.faults if "Content Security Policy" in each]
    asks(len(refused) == 1, f"the policy has refused {refused}")
    tab.faults[:] = [each for each in tab.faults if each not in refused]


# how much it uses

def used(number):
    """The seconds of a processor that a process has used, with its children that have ended."""
    fields = Path(f"/proc/{number}/stat").read_text().rpartition(")")[2].split()
    return sum(map(int, fields[11:15])) / os.sysconf("SC_CLK_TCK")


def children(number):
    done = subprocess.run(["ps", "-o", "pid=", "--ppid", str(number)], capture_output=True, text=True, check=False)
    return [int(each) for each in done.stdout.split()]


def words_of(number):
    return Path(f"/proc/{number}/cmdline").read_bytes().replace(b"\0", b" ").decode()


def blocked_socket(address):
    """A browser that opens the way to the line, and reads nothing from it."""
    root = re.match(r"http://([^/]+):(\d+)(/\S*)", address)
    way = socket.socket()
    way.setsockopt(socket.SOL_SOCKET, socket.SO_RCVBUF, 2048)
    way.connect((root[1], int(root[2])))
    way.sendall((f"GET {root[3]}line?key=blocked HTTP/1.1\r\nHost: {root[1]}:{root[2]}\r\nOrigin: http://{root[1]}:{root[2]}\r\nUpgrade: websocket\r\nConnection: Upgrade\r\n"
                 "Sec-WebSocket-Key: dGhlIHNhbXBsZSBub25jZQ==\r\nSec-WebSocket-Version: 13\r\n\r\n").encode())
    return way


def load(browser):
    terminal = Terminal()
    with Sixteen(terminal.end) as devices, Reading(terminal.path, "115200", "page") as program:
        address = address_of(program, program.waits)
        tab = browser.tab()
        tab.opens(address + "#devices", READY)
        tab.fills("#panel-addresses", ",".join(map(str, range(16))))
        tab.fills("#panel-rate", 115200)
        tab.clicks("#panel-form > button")
        tab.waits(f"{ONLINE} === 16", what="sixteen devices are online")
        time.sleep(4)
        main = program.script.process.pid
        server = next(each for each in children(main) if "osdp_port.page.server" in words_of(each))
        monitor = next(each for each in children(server))
        begun, cards, before = time.monotonic(), devices.cards, [used(each) for each in (main, server, monitor)]
        time.sleep(10)
        share = [(used(each) - one) / (time.monotonic() - begun) * 100 for each, one in zip((main, server, monitor), before)]
        quiet = intervals(devices.sent, begun)
        print(f"page: 16 devices at 115,200, {(devices.cards - cards) / 10:.1f} cards a second, {quiet[2] / 10:.0f} packets a second: {share[1]:.1f} and {share[2]:.1f} of a hundred of a processor for the page and its monitor, "
              f"beside {share[0]:.1f} of the panel's program")
        asks(devices.cards - cards > 140, f"only {devices.cards - cards} cards came in 10 s")
        asks(share[1] + share[2] < 10, f"the page uses {share[1]:.1f} and {share[2]:.1f} of a hundred of a processor")
        way, blocked = blocked_socket(address), time.monotonic()
        time.sleep(6)
        loud = intervals(devices.sent, blocked)
        way.close()
        print(f"page: intervals between packets {quiet[0]:.1f} ms, 95 of 100 below {quiet[1]:.1f}; with a browser that takes nothing {loud[0]:.1f} and {loud[1]:.1f}")
        asks(loud[0] < quiet[0] + 3 and loud[1] < quiet[1] + 20 and loud[2] > 0, f"with a blocked browser the intervals are {loud}, and {quiet} without")
        tab.waits(f"{ONLINE} === 16 && document.querySelector('#lost').hidden", what="the other page goes on")
        asks(tab.faults == [], f"load: {tab.faults}")
    terminal.close()


# nobody is there

def alone(browser, what):
    """Once no page has been there for ten seconds the line goes on, or the program ends, as its words say."""
    with Relayed() as line:
        line.start(line.reader_ends[0], 9600, "reader", 5, *CLAIMS)
        page = line.start(line.panel_end, 9600, "page", options=["--alone", what])
        tab = browser.tab()
        tab.opens(address_of(page, line.waits) + "#devices", READY)
        tab.fills("#panel-addresses", "5")
        tab.clicks("#panel-form > button")
        tab.waits(f"{ONLINE} === 1")
        tab.close()
        gone = time.monotonic()
        line.waits(lambda: page.process.poll() is not None, 40 if what == "ends" else 13)
        asks((page.process.poll() is None) == (what == "goes-on"), f"nobody is there, {what}: the status is {page.process.poll()}")
        asks(what == "ends" or any(moment > gone + 12 for moment in line.sent), "nobody is there: the line doesn't go on")


def goes_on(browser):
    alone(browser, "goes-on")


def ends(browser):
    alone(browser, "ends")


TOGETHER = (walk, demo, goes_on, ends)  # parts in which no time is measured, at the same time
AFTER = (hostile, load)


def does(part, browser):
    begun = time.monotonic()
    try:
        part(browser)
    except Failed as failed:
        faults.append(f"{part.__name__}: {failed}")
    print(f"page: {part.__name__} took {time.monotonic() - begun:.0f} s", flush=True)


def main(words):
    global pictures
    if "--pictures" in words:
        at = words.index("--pictures")
        pictures = words[at + 1]
        del words[at:at + 2]
    port_line.osdp = words[0]
    browser = Browser()
    try:
        wanted = [part for part in (*TOGETHER, *AFTER) if part.__name__ in words[1:] or not words[1:]]
        with ThreadPoolExecutor(len(TOGETHER)) as pool:
            list(pool.map(lambda part: does(part, browser), [part for part in wanted if part in TOGETHER]))
        for part in [part for part in wanted if part in AFTER]:
            does(part, browser)
    finally:
        browser.ends()
    for fault in faults:
        print(f"page: {fault}")
    print(f"page: {len(faults)} faults")
    return 1 if faults else 0


if __name__ == "__main__":
    sys.exit(main(sys.argv[1:]))
