#!/usr/bin/env python3
"""Captures of other tools, which are written here: what the program prints of them is what it prints of the same bytes as lines of digits. Takes the path
of the program.

Bursts are packets with either check, whole, damaged, cut short and with noise, from a seeded generator. The lines of digits are written here too, so each
burst comes out byte by byte, as skipped bytes or as packets whose texts tell their bytes. `osdp-port` writes `.osdpcap` and lines of digits of the same
bursts, and both are read alike; from its `.osdpcap` the moments, ways and bytes are read back here."""
import json
import random
import re
import subprocess
import sys
import tempfile
from pathlib import Path

TOP = Path(__file__).resolve().parent.parent
sys.path.insert(0, str(TOP / "port"))
from osdp_port.trace import digits, osdpcap  # noqa: E402

PROGRAM = str(Path(sys.argv[1]).resolve())
SEEDS = 30
faults = 0


def tell(what, wanted, got):
    global faults
    faults += 1
    print(f"captures: {what}\nwanted: {str(wanted)[:600]!r}\nis: {str(got)[:600]!r}")


def crc(data):
    """The CRC of OSDP: polynomial 1021, from 1D0F on."""
    value = 0x1D0F
    for byte in data:
        value ^= byte << 8
        for _ in range(8):
            value = (value << 1 ^ (0x1021 if value & 0x8000 else 0)) & 0xFFFF
    return value


def packet(source):
    """A packet of random bytes, or with a known code."""
    body = bytes([source.choice((0x60, 0x40, 0x61, 0x45, 0x68, 0x50, source.randrange(256)))]) + source.randbytes(source.choice((0, 0, 0, 1, 4, 12, 40)))
    is_crc = source.random() < 0.5
    length = 5 + len(body) + (2 if is_crc else 1)
    data = bytes([0x53, source.randrange(128) | source.choice((0, 0x80)), length & 0xFF, length >> 8, source.randrange(4) | (4 if is_crc else 0)]) + body
    return data + (crc(data).to_bytes(2, "little") if is_crc else bytes([-sum(data) & 0xFF]))


def burst(source):
    data = bytearray(b"".join(packet(source) for _ in range(source.choice((1, 1, 1, 2, 3)))))
    way = source.random()
    if way < 0.15:
        data[source.randrange(len(data))] ^= 1 << source.randrange(8)
    elif way < 0.3:
        del data[source.randrange(1, len(data)):]
    elif way < 0.4:
        data = bytearray(source.randbytes(source.randrange(1, 40)))
    return bytes(data)


def run(words, data):
    done = subprocess.run([PROGRAM, *words], input=data.encode(), capture_output=True, check=False)
    return done.stdout.decode(), done.stderr.decode(), done.returncode


def entry(source, data):
    """An object of `.osdpcap`, with members in any order, and digits in any spelling."""
    text = data.hex(source.choice(("-", " ", "-"))) if source.random() < 0.8 else data.hex()
    members = [("timeSec", str(source.randrange(2**31))), ("timeNano", str(source.randrange(10**9))), ("io", source.choice(("input", "output", "trace"))),
               ("data", source.choice((text, text.upper()))), ("osdpTraceVersion", "1"), ("osdpSource", source.choice(("OSDP.Net", "libosdp", "\u00e9")))]
    source.shuffle(members)
    return json.dumps(dict(members), ensure_ascii=source.random() < 0.5, separators=source.choice(((",", ":"), (", ", ": "))))


def dump(data):
    """What xxd writes."""
    rows = []
    for at in range(0, len(data), 16):
        part = data[at:at + 16]
        pairs = " ".join(part[place:place + 2].hex() for place in range(0, len(part), 2))
        rows.append(f"{at:08x}: {pairs:<39}  " + "".join(chr(byte) if 32 <= byte < 127 else "." for byte in part))
    return rows


def judge(seed):
    source = random.Random(seed)
    bursts = [burst(source) for _ in range(source.randrange(1, 30))]
    plain = "".join(data.hex() + "\n" for data in bursts)
    end = source.choice(("\n", ""))
    objects = "\n".join(entry(source, data) for data in bursts) + end
    stamped = "\n".join(f"{source.randrange(24):02}:00:{number % 60:02}.5 {source.choice(('TX', 'RX'))}{source.choice((':', ''))} {data.hex(' ')}" for number, data in enumerate(bursts)) + end
    whole = b"".join(bursts)
    dumped = "\n".join(dump(whole)) + end
    for command in (["show"], ["check"], ["monitor"], ["show", "--no-polls", "--address", "5"]):
        wanted = run(command, plain)
        for form, text in (("--osdpcap", objects), ("--stamped", stamped)):
            got = run([*command, form], text)
            if got != wanted:
                tell(f"seed {seed}: {command} {form}", wanted, got)
        if command[0] != "monitor":
            wanted = run([*command, "--join"], plain)
            got = run([*command, "--xxd"], dumped)
            if got != wanted:
                tell(f"seed {seed}: {command} --xxd", wanted, got)
        raw = subprocess.run([PROGRAM, "show", "--raw"], input=whole, capture_output=True, check=False)
        joined = run(["show", "--join"], plain)
        if (raw.stdout.decode(), raw.returncode) != (joined[0], joined[2]):
            tell(f"seed {seed}: --raw", joined, raw.stdout)
    # a bad line: what stands above it is printed as before, and nothing else
    lines = objects.rstrip("\n").split("\n")
    place = source.randrange(len(lines) + 1)
    for bad, cause in (('{"data":"5"}', "no data in pairs of hexadecimal digits"), ("{", "no object of JSON"), ('{"io":"input"}', "no data in pairs of hexadecimal digits")):
        got = run(["show", "--osdpcap"], "\n".join([*lines[:place], bad, *lines[place:]]))
        wanted = (run(["show"], "".join(data.hex() + "\n" for data in bursts[:place]))[0], f"osdp: line {place + 1}: {cause}\n", 2)
        if got != wanted:
            tell(f"seed {seed}: {bad}", wanted, got)


def judge_traces():
    """The two forms of osdp-port's traces."""
    source = random.Random(0)
    found = [(1700000000 + number + source.randrange(10**6) / 10**6, source.choice(("in", "out", "trace")), burst(source)) for number in range(200)]
    objects = "".join(osdpcap(*each) for each in found)
    lines = "".join(digits(*each) for each in found)
    for command in ("show", "check", "monitor"):
        if run([command, "--osdpcap"], objects) != run([command], lines):
            tell(f"osdp-port: {command}", run([command], lines), run([command, "--osdpcap"], objects))
    # the moment and the way of each line are those of its run
    stamps = [re.match("# (.*)", digits(*each))[1] for each in found]
    moments = [f"{int(since * 10**6) // 10**6}.{int(since * 10**6) % 10**6:06}000 {way}" for since, way, _ in found]
    for form, text, expected in (([], lines, stamps), (["--osdpcap"], objects, moments)):
        wanted = "".join(f"{expected[int(line.split(':')[0]) - 1]} {line}\n" for line in run(["show"], lines)[0].splitlines())
        if run(["show", "--times", *form], text)[0] != wanted:
            tell(f"osdp-port: show --times {form}", wanted, run(["show", "--times", *form], text)[0])
    for (since, way, data), line in zip(found, objects.splitlines()):
        object = json.loads(line)
        back = (object["timeSec"], object["timeNano"][:6], {"input": "in", "output": "out", "trace": "trace"}[object["io"]], bytes.fromhex(object["data"].replace("-", "")))
        if back != (str(int(since * 10**6) // 10**6), f"{int(since * 10**6) % 10**6:06}", way, data):
            tell("osdp-port: an object", (since, way, data), back)
    with tempfile.TemporaryDirectory() as folder:
        paths = [Path(folder) / name for name in ("a.osdpcap", "b.osdpcap")]
        for path, part in zip(paths, (found[:100], found[100:])):
            path.write_text("".join(osdpcap(*each) for each in part))
        alone = run(["check", "--osdpcap", str(paths[0])], "")
        if alone[0] != run(["check"], "".join(digits(*each) for each in found[:100]))[0]:
            tell("one file has no heading", "", alone)
        got = run(["check", "--osdpcap", *map(str, paths)], "")
        parts = [run(["check"], "".join(digits(*each) for each in part))[0] for part in (found[:100], found[100:])]
        if got[0] != f"# {paths[0]}\n{parts[0]}# {paths[1]}\n{parts[1]}" or got[1]:
            tell("two files", parts, got)


for number in range(SEEDS):
    judge(number)
judge_traces()
print(f"captures: {faults} faults")
sys.exit(faults > 0)
