#!/usr/bin/env python3
"""Whether `osdp sim` and the yardstick come to the same account: `bench/accounts.py [SCRIPTS [SEED]]`, 1000 and 1 if left out.

It makes schedules at random, with commands, events, losses, repeats, damage, BUSY, moves of the reader and new sessions, runs each by both
programs, and stops at the first that they tell otherwise. The yardstick has each message as digits, so the text of `osdp` is turned to them."""
import os
import random
import subprocess
import sys
import tempfile

HERE = os.path.dirname(os.path.abspath(__file__))
PROGRAM = os.environ.get("OSDP", os.path.join(HERE, "..", "crates", "osdp", "out", "osdp"))


def listed(data):
    return data.hex().upper() or "none"


def command(chance):
    """A command's text and its bytes."""
    some = lambda most: bytes(chance.randrange(256) for _ in range(chance.randrange(most)))
    b = lambda most=256: chance.randrange(most)
    kind = b(13)
    if kind < 4:
        records = [(b(9), b(8), b(65536)) for _ in range(1 + b(3))]
        words = " ".join(":".join(map(str, record)) for record in records)
        return "OUT " + words, b"\x68" + b"".join(bytes(record[:2]) + record[2].to_bytes(2, "little") for record in records)
    if kind == 4:
        fields = [b() for _ in range(7)] + [b(65536)] + [b() for _ in range(5)]
        return "LED " + ":".join(map(str, fields)), bytes([0x69, *fields[:7]]) + fields[7].to_bytes(2, "little") + bytes(fields[8:])
    if kind == 5:
        fields = [b() for _ in range(5)]
        return "BUZ " + " ".join(map(str, fields)), bytes([0x6A, *fields])
    if kind == 6:
        fields, text = [b() for _ in range(5)], some(20)
        return "TEXT " + " ".join(map(str, fields)) + " " + listed(text), bytes([0x6B, *fields, len(text)]) + text
    if kind == 7:
        address, rate = chance.choice([5, 5, 6, 126, 127, 200]), b(2**32)
        return f"COMSET {address} {rate}", bytes([0x6E, address]) + rate.to_bytes(4, "little")
    if kind == 8:
        vendor, data = chance.choice([b"SIM", b"abc"]), some(20)
        return f"MFG {vendor.hex().upper()} {listed(data)}", b"\x80" + vendor + data
    name, code, data = chance.choice([("ID", 0x61, 1), ("CAP", 0x62, 1), ("LSTAT", 0x64, 0), ("ISTAT", 0x65, 0), ("OSTAT", 0x66, 0), ("RSTAT", 0x67, 0)])
    value = b()
    return (f"{name} {value}", bytes([code, value])) if data else (name, bytes([code]))


def event(chance):
    """An event's text and its bytes."""
    b = lambda most=256: chance.randrange(most)
    data = bytes(b() for _ in range(b(9)))
    kind = b(5)
    if kind == 0:
        one, other = b(), b()
        return f"LSTATR {one} {other}", bytes([0x48, one, other])
    if kind == 1:
        name, code = chance.choice([("ISTATR", 0x49), ("OSTATR", 0x4A), ("RSTATR", 0x4B)])
        return f"{name} {listed(data)}", bytes([code]) + data
    if kind == 2:
        bits = max(0, 8 * len(data) - b(8))
        return f"RAW 1 2 {bits} {listed(data)}", bytes([0x50, 1, 2]) + bits.to_bytes(2, "little") + data
    if kind == 3:
        return f"FMT 1 0 {listed(data)}", bytes([0x51, 1, 0, len(data)]) + data
    return f"KEYPAD 1 {listed(data)}", bytes([0x53, 1, len(data)]) + data


def digits_of(text, known):
    """The bytes of a message's text, as digits: those of a command or event that was made, or of a reply."""
    name, *words = text.split(" ")
    plain = {"ACK": "40", "ISTATR 00": "4900", "RSTATR 00": "4B00", "LSTATR 0 0": "480000"}
    plain |= {"PDID 53494D 1 1 1 1 0 0": "4553494D010101000000010000", "PDCAP 2:1:8 8:1:0": "46020108080100"}
    if text in plain or text in known:
        return plain.get(text) or known[text]
    if name == "NAK":
        return f"41{int(words[0]):02X}"
    if name == "OSTATR":
        return "4A" + words[0]
    if name == "COM":
        return f"54{int(words[0]):02X}" + int(words[1]).to_bytes(4, "little").hex().upper()
    if name == "MFGREP":
        return "90" + words[0] + words[1].replace("none", "")
    sys.exit(f"no digits for {text}")


def told(output, known):
    """The program's account with its messages as digits."""
    lines = []
    for line in output.splitlines():
        name, _, rest = line.partition(" ")
        if name in ("taken", "settled", "unsettled", "reported"):
            rest = " = ".join(digits_of(text, known) for text in rest.split(" = "))
        lines.append(f"{name} {rest}")
    return "\n".join(lines) + "\n"


def moves(chance, way):
    kind = chance.choices(["deliver", "drop", "repeat", "damage"], [12, 2, 1, 1])[0]
    if kind == "damage":
        kind += " " + chance.choice(["none", "00", "53", "5305", "53050700036000", "53000700006046" if chance.random() < 0.1 else "5353"])
    return f"{way} {kind}"


def script(chance, known):
    """Two scripts that say the same, one with texts and one with digits."""
    lines = [(f"check {chance.choice(['sum', 'crc'])}", None), (f"reader 5 {1 + chance.randrange(4)}", None)]
    add = lambda text, digits=None: lines.append((text, digits))
    for _ in range(chance.randrange(120)):
        kind = chance.randrange(24)
        if kind < 4:
            text, data = (command if kind < 2 else event)(chance)
            known[text] = data.hex().upper()
            word = "issue" if kind < 2 else "queue"
            add(f"{word} 1 {text}", f"{word} 1 {known[text]}")
        elif kind == 4:
            add(f"busy 1 {chance.choice(['on', 'off', 'off'])}")
        elif kind < 7:
            add(f"wait {chance.choice([0, 1, 49, 50, 200, 400])}")
        elif kind < 11:
            add(moves(chance, chance.choice(["to-reader", "to-controller"])))
        elif kind == 11 and chance.random() < 0.2:
            [add(text) for text in ["to-reader drop", "to-controller drop", "wait 200"] * 4 + ["busy 1 off", "reopen 1", "wait 400"]]
        else:
            add(f"wait {chance.choice([50, 50, 200, 400])}")
            add(moves(chance, "to-reader"))
            add(moves(chance, "to-controller"))
    return "\n".join(text for text, _ in lines) + "\n", "\n".join(digits or text for text, digits in lines) + "\n"


def main():
    scripts = int(sys.argv[1]) if len(sys.argv) > 1 else 1000
    chance = random.Random(int(sys.argv[2]) if len(sys.argv) > 2 else 1)
    counts = {}
    with tempfile.TemporaryDirectory() as folder:
        manifest = os.path.join(HERE, "yardstick", "Cargo.toml")
        subprocess.run(["cargo", "build", "--quiet", "--release", "--offline", "--manifest-path", manifest, "--target-dir", folder], check=True)
        yardstick = os.path.join(folder, "release", "yardstick")
        for number in range(scripts):
            known = {}
            texts, digits = script(chance, known)
            ours = subprocess.run([PROGRAM, "sim"], input=texts, capture_output=True, text=True)
            theirs = subprocess.run([yardstick, "account"], input=digits, capture_output=True, text=True).stdout
            if told(ours.stdout + ours.stderr, known) != theirs:
                sys.exit(f"script {number + 1}:\n{texts}\nosdp:\n{ours.stdout}{ours.stderr}\nyardstick:\n{theirs}")
            for word in theirs.splitlines():
                word = " ".join(word.split(" ")[: 2 if word.startswith("ended") else 1])
                counts[word] = counts.get(word, 0) + 1
    print(f"{scripts} scripts, the same accounts:", ", ".join(f"{word} {count}" for word, count in sorted(counts.items())))


main()
