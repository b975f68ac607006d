#!/usr/bin/env python3
"""What `osdp-report` says of a whole line: the share of time in use, packets, damage and turns of the panel a second, in all of a capture and in its busiest minute.

Each capture is written here, and its figures were reckoned by hand from what was put into it: they stand beside it as they must be read. Captures without moments, with
one moment alone, with moments that go back or that are lacking must be told so. Then the definitions are broken, one after the other, and each must be found out by a
capture. What `osdp-port --live` says of its last seconds goes by the same definitions. Takes the path of the program."""
import functools
import html
import json
import re
import subprocess
import sys
import tempfile
from datetime import datetime, timedelta, timezone
from pathlib import Path

import jsonschema

TOP = Path(__file__).resolve().parent.parent
sys.dont_write_bytecode = True
sys.path.insert(0, str(TOP / "port"))
from osdp_port import live, pace, report, report_lines, report_pace, report_page, trace  # noqa: E402
from terminals import packet  # noqa: E402

PROGRAM = str(Path(sys.argv[1]).resolve())
START = datetime(2026, 3, 1, 23, 59, 55, tzinfo=timezone.utc)  # captures go over midnight
FORM = jsonschema.Draft202012Validator(json.loads((TOP / "docs/report.schema.json").read_text()))
POLL, ACK, OUT = 0x60, 0x40, 0x68
PACE = ("of", "stamp", "time", "bytes", "packets", "refused", "turns", "use")
faults = []


def stamp(moment):
    return (START + timedelta(milliseconds=moment)).strftime("%Y-%m-%dT%H:%M:%S.%f")[:-3] + "Z"


def damaged(burst):
    return burst[:-1] + bytes([burst[-1] ^ 1])


def exchange(moment, address, number):
    """A POLL and, 20 ms later, its ACK: 7 bytes each."""
    return [(moment, "out", packet(address, number, POLL)), (moment + 20, "in", packet(address | 0x80, number, ACK))]


def number(turn):
    return (turn - 1) % 3 + 1 if turn else 0


def calm():
    """For ten seconds an exchange with 5 and one with 6 in each, and a POLL to 5 at the end: 20 exchanges of 14 bytes and 7 bytes, 41 packets, 11 of them to 5."""
    line = []
    for turn in range(10):
        line += exchange(turn * 1000, 5, number(turn)) + exchange(turn * 1000 + 500, 6, number(turn))
    return line + [(10000, "out", packet(5, number(10), POLL))]


def ill():
    """As calm, but 6 never answers, an ACK of 5 is damaged, so its POLL is repeated, and 5 gets an OUT of 11 bytes for a POLL.

    Bytes: to 5 ten POLLs, an OUT and a repeat, 88, and to 6 ten POLLs, 70; eleven answers of 5, 77. Packets: 12 to 5, 10 to 6, 10 answers. To 5 go 11 that are new, to 6 one."""
    line = []
    for turn in range(11):
        sent, answer = exchange(turn * 1000, 5, number(turn))
        if turn == 7:
            sent = (7000, "out", packet(5, number(7), OUT, bytes([0, 2, 0, 0])))
        line.append(sent)
        if turn < 10:
            line.append((answer[0], "in", damaged(answer[2])) if turn == 3 else answer)
            line += exchange(3200, 5, number(3)) if turn == 3 else []
            line.append((turn * 1000 + 500, "out", packet(6, 0, POLL)))
    return line


def long():
    """For 200 seconds an exchange with 5 each tenth second, of which the last lacks its answer and the second one's is damaged; and from 95.3 s on one with 6 in each of 40 seconds.

    Bytes: 41 and 80 times 7, 847. Packets: 120 and a damaged one, 40 to 6. The busiest minute must have all of 6, up to 134.32 s, so it begins after 74.32 s: at 80 s,
    with the exchanges of 5 from 80 s to 130 s, and without what comes at 140 s. It has 46 exchanges: 644 bytes, 92 packets, 40 to 6."""
    line = []
    for turn in range(21):
        line += exchange(turn * 10000, 5, number(turn))[:1 if turn == 20 else 2]
    moment, way, burst = line[3]
    line[3] = (moment, way, damaged(burst))
    for turn in range(40):
        line += exchange(95000 + turn * 1000 + 300, 6, number(turn))
    return sorted(line)


def echoed(line):
    """An adapter hands back what goes out, a millisecond later."""
    return sorted([*line, *((moment + 1, "in", burst) for moment, way, burst in line if way == "out")], key=lambda each: each[0])


def hexed(line, stamped=stamp, bare=()):
    """Lines of digits. The runs of these numbers have no moment."""
    return "".join(("" if at in bare else f"# {stamped(moment)} {way}\n") + f"{burst.hex().upper()}\n" for at, (moment, way, burst) in enumerate(line, 1))


def osdpcap(line):
    """Objects; after the first one stands an object without bytes, which is no run."""
    lines = []
    for moment, way, burst in line:
        at = START + timedelta(milliseconds=moment)
        object_of = {"timeSec": str(int(at.timestamp())), "timeNano": str(at.microsecond * 1000), "io": "output" if way == "out" else "input", "data": burst.hex("-")}
        lines += [object_of] if lines else [object_of, {**object_of, "data": ""}]
    return "".join(json.dumps(each) + "\n" for each in lines)


def stamped(line):
    return "".join(f"{stamp(moment)} {'TX' if way == 'out' else 'RX'}: {burst.hex(' ')}\n" for moment, way, burst in line)


def day(moment):
    return (START + timedelta(milliseconds=moment)).strftime("%H:%M:%S.%f")[:-3]


def joined(line):
    """A command and its answer are one run."""
    pairs = {}
    for moment, _, burst in line:
        pairs[moment // 500] = pairs.get(moment // 500, b"") + burst
    return "".join(f"# {stamp(at * 500)} in\n{burst.hex().upper()}\n" for at, burst in pairs.items())


NO_RATE = "What share of the time is in use isn't said, since the capture tells no rate: osdp-report --rate 9600 does."
CALM = "In the whole capture, 10.0 s: 3% of the time in use; a second 4.1 packets, 0.0 damaged, 1.1 turns of the panel."  # 2870 of 96000 bits
CALM_OBJECT = ("capture", stamp(0), 10000, 287, 41, 0, 11, 3.0)
HALF = [(moment, way, burst) for moment, way, burst in calm()[:3]]
TWICE = [(0, "out", packet(5, 0, POLL)), (1, "in", packet(0x85, 0, ACK))]  # 140 bits in a time of 9.6
MINUTES = [(0, "out", packet(5, 0, POLL)), (60000, "out", packet(5, 1, POLL))]
CASES = (  # what it is, its form, its rate, the capture, what is said of the line, and the objects
    ("calm", "--hex", 9600, hexed(calm()), [CALM], [CALM_OBJECT]),
    ("a slow rate", "--hex", 1200, hexed(calm()), [CALM.replace("3%", "24%")], [(*CALM_OBJECT[:-1], 23.9)]),
    ("no rate", "--hex", None, hexed(calm()), [CALM.replace("3% of the time in use; ", ""), NO_RATE], [(*CALM_OBJECT[:-1], None)]),
    ("a rate in the capture", "--hex", None, "# rate 1200\n" + hexed(calm()), [CALM.replace("3%", "24%")], [(*CALM_OBJECT[:-1], 23.9)]),
    ("the same rate again", "--hex", None, "# rate 1200\r\n" + hexed(calm()) + "# rate 1200\n", [CALM.replace("3%", "24%")], [(*CALM_OBJECT[:-1], 23.9)]),
    ("another rate than the capture's", "--hex", 9600, "# rate 1200\n" + hexed(calm()), [CALM], [CALM_OBJECT]),
    ("two rates", "--hex", None, f"# rate 1200\n{hexed(calm()[:9])}# rate 9600\n{hexed(calm()[9:])}",
     [CALM.replace("3% of the time in use; ", ""), NO_RATE.replace("tells no", "tells more than one")], [(*CALM_OBJECT[:-1], None)]),
    ("words that name no rate", "--hex", None, "# rate 0\n# rate 12x\n# the rate 9600\n" + hexed(calm()), [CALM.replace("3% of the time in use; ", ""), NO_RATE], [(*CALM_OBJECT[:-1], None)]),
    ("calm as .osdpcap", "--osdpcap", 9600, osdpcap(calm()), [CALM], [("capture", "1772409595.000000000", *CALM_OBJECT[2:])]),
    ("calm as stamped lines", "--stamped", 9600, stamped(calm()), [CALM], [("capture", stamp(0), *CALM_OBJECT[2:])]),
    ("an echo", "--hex", 9600, hexed(echoed(calm())), [CALM], [CALM_OBJECT]),
    ("runs of two packets", "--hex", 9600, joined(calm()), [CALM], [CALM_OBJECT]),
    ("ill", "--hex", 9600, hexed(ill()), [  # 2350 of 96000 bits
        "In the whole capture, 10.0 s: 2% of the time in use; a second 3.2 packets, 0.1 damaged, 1.1 turns of the panel."], [("capture", stamp(0), 10000, 235, 32, 1, 11, 2.4)]),
    ("long", "--hex", 9600, hexed(long()), [  # 8470 of 1920000 bits, and 6440 of 576000
        "In the whole capture, 200.0 s: 0% of the time in use; a second 0.6 packets, 0.005 damaged, 0.2 turns of the panel.",
        f"In its busiest minute, from {stamp(80000)} on: 1% of the time in use; a second 1.5 packets, 0.0 damaged, 0.7 turns of the panel."],
     [("capture", stamp(0), 200000, 847, 120, 1, 40, 0.4), ("minute", stamp(80000), 60000, 644, 92, 0, 40, 1.1)]),
    ("too much for its rate", "--hex", 9600, hexed(TWICE), [
        "In the whole capture, 0.0 s: 100% of the time in use; a second 2000.0 packets, 0.0 damaged, 1000.0 turns of the panel."], [("capture", stamp(0), 1, 14, 2, 0, 1, 100.0)]),
    ("a minute", "--hex", 9600, hexed(MINUTES), [  # 140 of 576000 bits; 2 packets in 60 s are 0.033 a second
        "In the whole capture, 60.0 s: 0% of the time in use; a second 0.03 packets, 0.0 damaged, 0.03 turns of the panel."], [("capture", stamp(0), 60000, 14, 2, 0, 2, 0.0)]),
    ("two runs without moments", "--hex", 9600, hexed(calm(), bare=(2, 3)), [  # 2730 of 96000 bits; a POLL to 6 is left out, and an ACK
        "In the whole capture, 10.0 s: 3% of the time in use; a second 3.9 packets, 0.0 damaged, 1.1 turns of the panel.", "2 of 41 runs have no moment, and are left out here."],
     [("capture", stamp(0), 10000, 273, 39, 0, 11, 2.8)]),
    ("no moments", "--hex", 9600, hexed(calm(), bare=range(1, 42)), ["The capture has no moments, so nothing is said of a second."], []),
    ("nothing", "--hex", 9600, "", ["The capture has no moments, so nothing is said of a second."], []),
    ("bytes", "--raw", 9600, b"".join(burst for _, _, burst in calm()).decode("latin-1"), ["The capture has no moments, so nothing is said of a second."], []),
    ("one moment", "--hex", 9600, hexed(calm(), lambda _: stamp(0)), ["The capture has one moment alone, so nothing is said of a second."], []),
    ("one run", "--hex", 9600, hexed(calm()[:1]), ["The capture has one moment alone, so nothing is said of a second."], []),
    ("moments that go back", "--hex", 9600, hexed([HALF[0], HALF[2], HALF[1]]), ["The moments of the capture go back at run 3, so nothing is said of a second."], []),
    ("midnight without days", "--hex", 9600, hexed(calm(), day), ["The moments of the capture go back at run 21, so nothing is said of a second."], []),
)


def said(page):
    """The sentences on the line."""
    part = re.search(r"<h2>The line</h2>\n(.*?)<h2>", page, re.S)
    return [html.unescape(each) for each in re.findall(r"<p>(.*?)</p>", part[1])] if part else []


def differs(what, page, objects, sentences, paces):
    """What of a page and its objects isn't as it was reckoned."""
    for fault in [fault.message for each in objects for fault in FORM.iter_errors(each)]:
        yield f"{what}: the schema refuses an object: {fault}"
    if said(page) != sentences:
        yield f"{what}: it says {said(page)}, and not {sentences}"
    found = [tuple(each[name] for name in PACE) for each in objects if each["kind"] == "pace"]
    if found != paces:
        yield f"{what}: the objects are {found}, and not {paces}"


def printed(form, rate, text, *words):
    """What the program prints."""
    done = subprocess.run([TOP / "port/osdp-report", "--osdp", PROGRAM, form, *(["--rate", str(rate)] if rate else []), *words], input=text.encode("latin-1"), capture_output=True)
    if done.returncode or done.stderr:
        faults.append(f"osdp-report has failed: {done.returncode} {done.stderr.decode()}")
    return done.stdout.decode()


def objects_of(lines):
    return [json.loads(each) for each in lines.splitlines()]


def looks_at_cases():
    for what, form, rate, text, *wanted in CASES:
        faults.extend(differs(what, printed(form, rate, text), objects_of(printed(form, rate, text, "--json")), *wanted))


def are_found_out():
    """Whether a case finds out what is broken. The definitions are those of this process."""
    for what, form, rate, text, *wanted in CASES:
        try:
            page, lines = (report.report(PROGRAM, form, writes, rate, text.encode("latin-1")) for writes in (report_page.page, report_lines.lines))
        except (ZeroDivisionError, IndexError):
            return True
        if any(differs(what, page, objects_of(lines), *wanted)):
            return True
    return False


def aligned(line):
    """A minute that begins at a whole one of the capture."""
    if line.runs[-1].at <= 60000:
        return None
    best = max(range(0, line.runs[-1].at, 60000), key=lambda start: line.came(start, 60000).bytes)
    return next(run for run in line.runs if run.at >= best), line.came(best, 60000)


def with_end(line, start, milliseconds, is_all=False, kept=report_pace.Line.came):
    return kept(line, start, milliseconds, True)


def without_end(line, start, milliseconds, is_all=False, kept=report_pace.Line.came):
    return kept(line, start, milliseconds, False)


def with_any(line, kept=report_pace.Line.why_not):
    """Moments that go back are taken as they are."""
    why = kept(line)
    return None if why and "back" in why else why


def by_packets(came, rate):
    return min(100.0, 100 * came.packets * 70 / (rate * came.seconds))


BROKEN = (  # what is broken, where, its name, and what stands there
    ("a byte is eight bits", pace, "BITS", 8),
    ("the device with the fewest packets tells the turns", report_pace, "turns", lambda devices: min(devices, default=0)),
    ("the turns of all devices are put together", report_pace, "turns", sum),
    ("repeats count as turns", report_pace, "NEW", ("polls", "orders", "repeats")),
    ("orders count as no turns", report_pace, "NEW", ("polls",)),
    ("a minute has half a minute", report_pace, "MINUTE", 30000),
    ("a minute has more than a minute", report_pace, "MINUTE", 61000),
    ("the busiest minute is a whole one of the capture", report_pace.Line, "busiest", aligned),
    ("no minute is the busiest", report_pace.Line, "busiest", lambda line: None),
    ("what comes at a minute's end belongs to it", report_pace.Line, "came", with_end),
    ("the last run is left out", report_pace.Line, "came", without_end),
    ("moments that go back are taken", report_pace.Line, "why_not", with_any),
    ("nothing is asked of the moments", report_pace.Line, "why_not", lambda line: None),
    ("the share goes by packets of 7 bytes", report_lines, "in_use", by_packets),
    ("the share may be more than all of the time", pace, "in_use", lambda came, rate: 100 * came.bytes * 10 / (rate * came.seconds)),
    ("small figures are 0.0", pace, "figure", lambda number: f"{number:.1f}"),
    ("echoes are counted", report, "without_echo", lambda form, capture, packets: (capture, 0)),
    ("of several rates one is taken", report, "rates_of", lambda form, capture, kept=report.rates_of: set(sorted(kept(form, capture))[:1])),
    ("no rate of a capture is taken", report, "rates_of", lambda form, capture: set()),
    ("a line without bytes counts as a run", report, "burst_of", lambda form, line, kept=report.burst_of: kept(form, line) or (None if b'"data": ""' not in line else "")),
)


def looks_at_broken():
    cached = functools.cache(lambda program, words, capture, kept=report.run: kept(program, words, capture))
    report.run = lambda program, words, capture: cached(program, tuple(words), capture)
    if are_found_out():
        faults.append("what isn't broken is found out")
    for what, where, name, broken in BROKEN:
        kept = getattr(where, name)
        setattr(where, name, broken)
        if not are_found_out():
            faults.append(f"it isn't found out that {what}")
        setattr(where, name, kept)


def looks_at_live():
    """Two tables ten seconds apart: what came between is what `ill` has. 7 was asked nothing."""
    head = ["5   0", "6   0", "7   0"]
    row = "+{}  {} 0 {}  {} 0 0  0 0 0  0 0  0".format
    old = live.Table(100.0, 1000, [], head)
    new = live.Table(110.0, 1235, [row(5, 12, 1, 10), row(6, 10, 9, 0), "+runs 33 packets 32 skipped 6 refused 1 judged 0 accused 0"], head)
    said_live = live.since([old, new], 9600)
    wanted = ["last 10 s: 2% of the time in use; a second 3.2 packets, 0.1 damaged, 1.1 turns of the panel", "device  asked   repeats      lost"]
    if said_live[:2] != wanted or len(said_live) != 5:
        faults.append(f"--live says {said_live}, and not {wanted}")


def looks_at_traces():
    """A trace of `osdp-port` tells its rate above its bursts, again where it has another one and where the file is begun anew; an object has no place for it."""
    with tempfile.TemporaryDirectory() as folder:
        rate, path = [9600], Path(folder, "trace")
        file = trace.Trace(str(path), 110, lambda line: None, rate=lambda: rate[0])
        for moment, new in ((0, 9600), (1, 9600), (2, 19200), (3, 19200), (4, 19200)):
            rate[0] = new
            file.takes(moment, "in", packet(5, 0, POLL))
        file.ended()
        told = [re.sub(r"^# 1970.*T00:00:0(\d).*", r"\1", line) for line in f"{Path(folder, 'trace.1').read_text()}|{path.read_text()}".splitlines() if not line.startswith("53")]
        # a burst has 30 and 15 bytes, and a rate 12 or 13: the second one reaches 110 bytes with neither, the third one with both
        if told != ["# rate 9600", "0", "1", "# rate 19200", "2", "|# rate 19200", "3", "4"]:
            faults.append(f"a trace tells {told}")
        other = trace.Trace(str(Path(folder, "other")), 10000, lambda line: None, trace.osdpcap, lambda: 9600)
        other.takes(0, "in", packet(5, 0, POLL))
        other.ended()
        if "rate" in Path(folder, "other").read_text():
            faults.append("an object tells a rate")


def looks_at_words():
    for words in (["--rate", "0"], ["--rate", "fast"], ["--rate", "-9600"], ["--rate", "96e2"], ["--rate", "12345678"], ["--rate", ""], ["--rate"]):
        done = subprocess.run([TOP / "port/osdp-report", "--osdp", PROGRAM, *words], stdin=subprocess.DEVNULL, capture_output=True)
        if done.returncode != 2 or done.stdout or not done.stderr.startswith(b"osdp-report: ") or b"--rate" not in done.stderr:
            faults.append(f"words {words}: {done.returncode} {done.stderr!r}")


looks_at_cases()
looks_at_broken()
looks_at_live()
looks_at_traces()
looks_at_words()
for fault in faults:
    print(f"paces: {fault}")
print(f"paces: {len(CASES)} captures, {len(BROKEN)} broken definitions, {len(faults)} faults")
sys.exit(1 if faults else 0)
