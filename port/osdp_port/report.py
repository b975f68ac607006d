"""A capture as one page: it is read by `osdp show --times` and judged by `osdp monitor`, both beside this
program."""
import json
import re
import subprocess
import sys

from . import VERSION
from .console import write_all
from .faults import BAD_WORDS, FAILED, NO_PROGRAM, Stop
from .figures import Figures, Packet, seconds
from .program import PROGRAM_FAULTS, find_program
from .report_lines import lines
from .report_page import page

HELP = """osdp-report: one page of HTML of a capture, which fetches nothing

usage: osdp-report [FORM] [--rate R] [--json] [--osdp PROGRAM] [FILE] > report.html

  --hex       the capture is lines of digits, as osdp-port --trace writes them; so it is without a form
  --osdpcap   it is .osdpcap: an object of JSON a line
  --stamped   it is lines of a stamp, TX or RX, and digits
  --raw       it is bytes; they have no moments
  --rate R    the line's rate in bits a second, by which the share of time in use is told;
              a trace of osdp-port has it
  --json      an object of JSON a line, in place of the page: man osdp-report has the names
  --osdp P    the path of the program osdp

Without FILE it reads standard input. What an adapter hands back of a packet that was sent is left out,
and told.
The page has what is likely wrong in words, a table with answer times, a timeline for each device, and each
accusation with its packets; where the capture has moments, also packets, damage and turns of the panel a
second.
It is 0 where the page is written, 2 at bad words, 3 where something can't be read or written, 127 where the
program osdp isn't there.
"""
FORMS = ("--hex", "--osdpcap", "--stamped", "--raw")
FOLLOWED = {"--rate": "a number of bits a second", "--osdp": "the path of osdp"}
SHOWN = re.compile(r"^(?:-|(.+?) +(in|out|trace)) (\d+):(\d+) (cmd|reply|skip|refused)(.*)$")
HEAD = re.compile(r"^ (\d+) seq (\d) (sum|crc)\S*(?: \S+=\S+)? (.*)$")


def rate_of(word):
    """The rate that a word names."""
    if not re.fullmatch(r"[1-9][0-9]{0,6}", word):
        raise Stop(f"--rate {word}: a number of bits a second, as 9600", BAD_WORDS)
    return int(word)


def words_of(words):
    """The form, what writes, the rate, the program's path and the file that the words ask for; the last three
    may be none."""
    form, writes, rate, given, file = "--hex", page, None, None, None
    rest = list(words)
    while rest:
        word = rest.pop(0)
        if word in FORMS:
            form = word
        elif word == "--json":
            writes = lines
        elif word in FOLLOWED and not rest:
            raise Stop(f"{word} is followed by {FOLLOWED[word]}; try: osdp-report --help", BAD_WORDS)
        elif word == "--rate":
            rate = rate_of(rest.pop(0))
        elif word == "--osdp":
            given = rest.pop(0)
        elif file is None and not word.startswith("--"):
            file = word
        else:
            raise Stop(f"no such word: {word}; try: osdp-report --help", BAD_WORDS)
    return form, writes, rate, given, file


def read(file):
    """The bytes of the capture."""
    try:
        if file in (None, "-"):
            if sys.stdin is None:
                raise Stop("the capture can't be read: standard input is closed")
            return sys.stdin.buffer.read()
        with open(file, "rb") as opened:
            return opened.read()
    except OSError as error:
        raise Stop(f"the capture can't be read: {file}: {error.strerror}", FAILED) from None


def run(program, words, capture):
    """What the program prints of a capture."""
    try:
        done = subprocess.run([program, *words], input=capture, capture_output=True)
    except OSError:
        raise Stop(f"the program can't be started: {program}", NO_PROGRAM) from None
    if done.returncode in PROGRAM_FAULTS or done.returncode < 0:
        raise Stop(done.stderr.decode(errors="replace").strip() or "the program osdp has failed")
    return done.stdout.decode(errors="replace")  # a stamp of a capture has any bytes


def shown(program, form, capture):
    """The packets, skipped bytes and refused bytes of a capture, in their order."""
    times = [] if form == "--raw" else ["--times"]
    packets = []
    for line in run(program, ["show", form, *times], capture).split("\n"):
        found = SHOWN.match(line if times else f"- {line}")
        if found is None:
            continue
        stamp, way, number, place, kind, rest = found.groups()
        head = HEAD.match(rest) if kind in ("cmd", "reply") else None
        address, sequence, check, text = head.groups() if head else (None, None, None, rest.strip())
        packets.append(
            Packet(
                seconds(stamp),
                stamp,
                way,
                int(number),
                int(place),
                kind,
                None if address is None else int(address),
                sequence,
                check,
                text,
            )
        )
    return packets


def lines_of(capture):
    """The lines of a capture, as `osdp` counts them: a line feed alone ends one."""
    return re.findall(rb"[^\n]*\n|[^\n]+", capture)


def burst_of(form, line):
    """The digits of a line that is a run; none of a blank line, a comment or an object without bytes."""
    if form == "--osdpcap":
        try:
            return (
                json.loads(line.decode(errors="replace"))["data"].replace("-", "").replace(" ", "").upper()
                or None
            )
        except (ValueError, KeyError, AttributeError, TypeError):
            return None
    text = line.decode(errors="replace").strip()
    if form == "--stamped":
        text = re.split(r"\b[TR]X:?", text, maxsplit=1)[-1]
    elif text.startswith("#"):
        return None
    return "".join(text.split()).upper() or None


def without_echo(form, capture, packets):
    """The capture without each run that came in and is the one that went out just before, and how many these
    are."""
    if form == "--raw":
        return capture, 0
    ways = {packet.run: packet.way for packet in packets}
    kept, number, before, echoes = [], 0, None, 0
    for line in lines_of(capture):
        burst = burst_of(form, line)
        if burst is None:
            kept.append(line)
            continue
        number += 1
        way = ways.get(number)
        if way == "in" and before == burst:
            echoes, before = echoes + 1, None
        else:
            kept.append(line)
            before = burst if way == "out" else None
    return b"".join(kept), echoes


def sizes_of(form, capture):
    """How many bytes each run has; none of a capture of bytes, which has no moments."""
    bursts = [] if form == "--raw" else (burst_of(form, line) for line in lines_of(capture))
    return [len(burst) // 2 for burst in bursts if burst is not None]


def rates_of(form, capture):
    """The rates that the comments of a capture tell, each once."""
    return (
        set(map(int, re.findall(rb"^# rate ([1-9][0-9]{0,6})\r?$", capture, re.M)))
        if form == "--hex"
        else set()
    )


def report(program, form, writes, rate, capture):
    """The page of a capture, or its lines."""
    packets = shown(program, form, capture)
    capture, echoes = without_echo(form, capture, packets)
    if echoes:
        packets = shown(program, form, capture)
    told = run(program, ["monitor", form, *(["--recorded"] if form == "--raw" else [])], capture)
    return writes(
        Figures(packets, told, echoes, sizes_of(form, capture), {rate} if rate else rates_of(form, capture))
    )


def write(text):
    """Writes the page, whose bytes are UTF-8 as its head says, whatever the system's are."""
    if sys.stdout is None:
        raise Stop("the page can't be written: standard output is closed")
    write_all(1, text.encode(errors="replace"))


def text_of(words):
    """What these words ask for: the page, its lines, the help or the version."""
    if words[:1] == ["help"] or "--help" in words or "-h" in words:
        return HELP
    if words[:1] == ["--version"]:
        return f"osdp-report {VERSION}\n"
    form, writes, rate, given, file = words_of(words)
    return report(find_program(given), form, writes, rate, read(file))


def main(words):
    try:
        write(text_of(words))
    except Stop as stop:
        print(f"osdp-report: {stop.why}", file=sys.stderr)
        return stop.status
    except OSError as error:
        print(f"osdp-report: the page can't be written: {error.strerror}", file=sys.stderr)
        return FAILED
    return 0
