#!/usr/bin/env python3
"""Works out what each end makes of packets with one byte changed, by the tables of docs/PROTOCOL.md, and compares it with the tables of the tests.

    damage.py            compares; the status is 1 where a table is another one
    damage.py --print    prints both tables

The packets are those of osdp_test_packets. Nothing here is read from the code of the machines, so the tests hold them to these tables."""
import pathlib
import re
import sys

CRATES = pathlib.Path(__file__).resolve().parent.parent / "crates"
PACKETS = CRATES / "osdp_test_packets/src/lib.rt"
READER = CRATES / "osdp_machine_tests/src/tests/reader/damage.rt"
BUS = CRATES / "osdp_port_tests/src/bus/changes.rt"


def checksum(data):
    return bytes([-sum(data) & 255])


def crc(data):
    state = 0x1D0F
    for byte in data:
        state ^= byte << 8
        for _ in range(8):
            state = (state << 1 ^ 0x1021 if state & 0x8000 else state << 1) & 0xFFFF
    return bytes([state & 255, state >> 8])


def with_check(front, is_crc):
    return bytes(front) + (crc(front) if is_crc else checksum(front))


def checked_count(packet):
    """How many bytes stand before the check, by the control byte."""
    return len(packet) - (2 if packet[4] & 4 else 1)


def check_anew(packet):
    return with_check(packet[:checked_count(packet)], packet[4] & 4)


# ---- the items of a run


class Packet:
    def __init__(self, data):
        self.is_reply, self.address = data[1] >= 128, data[1] & 127
        self.number, self.is_crc, self.has_block = data[4] & 3, bool(data[4] & 4), bool(data[4] & 8)
        self.body = data[5:checked_count(data)]


def packet_at(run, place):
    """The packet that stands at a place of a run, and its length, or none."""
    rest = run[place:]
    if len(rest) < 5 or rest[0] != 0x53:
        return None
    length = rest[2] + 256 * rest[3]
    smallest = 8 if rest[4] & 4 else 7
    if not smallest <= length <= min(1440, len(rest)) or check_anew(rest[:length]) != rest[:length]:
        return None
    return Packet(rest[:length]), length


def packets_in(run):
    """All packets of a run: what is none is passed over by one byte."""
    found, place = [], 0
    while place < len(run):
        here = packet_at(run, place)
        place += here[1] if here else 1
        found += [here[0]] if here else []
    return found


# ---- which data a message may have


def is_counted(data, at, least):
    return len(data) >= least and data[at] == len(data) - least


COMMANDS = {
    0x60: lambda d: not d, 0x61: lambda d: len(d) == 1, 0x62: lambda d: len(d) == 1,
    **{code: lambda d: not d for code in (0x64, 0x65, 0x66, 0x67)},
    0x68: lambda d: 4 <= len(d) <= 1432 and len(d) % 4 == 0,
    0x69: lambda d: 14 <= len(d) <= 1428 and len(d) % 14 == 0,
    0x6A: lambda d: len(d) == 5, 0x6B: lambda d: is_counted(d, 5, 6), 0x6E: lambda d: len(d) == 5, 0x80: lambda d: len(d) >= 3,
}
REPLIES = {
    0x40: lambda d: not d, 0x41: lambda d: len(d) >= 1, 0x45: lambda d: len(d) == 12, 0x46: lambda d: len(d) % 3 == 0,
    0x48: lambda d: len(d) == 2, **{code: lambda d: True for code in (0x49, 0x4A, 0x4B)},
    0x50: lambda d: len(d) >= 4 and len(d) - 4 == (d[2] + 256 * d[3] + 7) // 8,
    0x51: lambda d: is_counted(d, 2, 3), 0x53: lambda d: is_counted(d, 1, 2), 0x54: lambda d: len(d) == 5,
    0x79: lambda d: not d, 0x90: lambda d: len(d) >= 3,
}


# ---- a reader whose device is done with all that it is told

PDID = bytes.fromhex("4553494D010101000000010000")
PDCAP = bytes.fromhex("46020108080100")


class Reader:
    def __init__(self, address):
        self.address, self.last, self.stored = address, None, b""

    def reply_to(self, body):
        """The body of the reply to a command that is acted on, and the address that it sets."""
        code, data = body[0], body[1:]
        if code not in COMMANDS:
            return b"\x41\x03", None
        if not COMMANDS[code](data):
            return b"\x41\x02", None
        if code == 0x61:
            return PDID, None
        if code == 0x62:
            return PDCAP, None
        if code == 0x6E:
            return (b"\x41\x09", None) if data[0] > 126 else (b"\x54" + data, data[0])
        # done is an answer to what acts, and to a POLL without events; a question wants a status
        return (b"\x41\x09" if 0x64 <= code <= 0x67 else b"\x40"), None

    def hears(self, p):
        """The line of the table that a packet meets, and the answer. The device is never busy."""
        def says(number, body):
            front = [0x53, 0xFF if p.address == 127 else p.address | 0x80, 0, 0, number | (4 if p.is_crc else 0), *body]
            front[2] = len(front) + (2 if p.is_crc else 1)
            return with_check(bytes(front), p.is_crc)

        if p.is_reply or p.address not in (self.address, 127):
            return "silent", b""
        if p.has_block:
            return "secured", says(p.number, b"\x41\x05")
        if p.number == 0:
            body, address = self.reply_to(p.body)
            self.last = 0
            self.moves(address)
            return "zero", says(0, body)
        if self.last is None or p.number not in (self.last, self.last % 3 + 1):
            return "wrong", says(p.number, b"\x41\x04")
        if p.number == self.last:
            return "repeat", self.stored
        body, address = self.reply_to(p.body)
        self.last, self.stored = p.number, says(p.number, body)
        answer = self.stored
        self.moves(address)
        return "taken", answer

    def moves(self, address):
        if address not in (None, self.address):
            self.address, self.last, self.stored = address, None, b""


def id_to(address):
    return Packet(check_anew(bytes([0x53, address, 8, 0, 0, 0x61, 0, 0])))


def opened_at(address):
    reader = Reader(5 if address == 127 else address)
    assert reader.hears(id_to(reader.address))[0] == "zero"
    return reader


def changed(packet, place, change):
    return packet[:place] + bytes([packet[place] ^ change]) + packet[place + 1:]


KINDS = ["silent", "secured", "zero", "taken", "wrong"]


def met_by_readers(packet, reader):
    """Each change of a byte before the check, with the check spelled anew, comes to a reader at its address that was opened by ID."""
    counts, said = dict.fromkeys(KINDS, 0), b""
    for place in range(checked_count(packet)):
        for change in range(1, 256):
            run = check_anew(changed(packet, place, change))
            if reader.address != run[1] & 127:
                reader = opened_at(run[1] & 127)
            first = packet_at(run, 0)
            kind, answer = reader.hears(first[0]) if first else ("silent", b"")
            counts[kind] += 1
            said += answer
            assert reader.hears(id_to(reader.address))[0] == "zero"
    return " ".join(str(counts[kind]) for kind in KINDS) + " " + crc(said).hex().upper(), reader


# ---- a bus of three devices, that at 5 asked for an answer to OUT by number 1


def told_of(p):
    """What a packet makes the bus tell, as bytes; none where it waits on."""
    if not p.is_reply or p.address != 5 or p.has_block:
        return None
    code, data = p.body[0], p.body[1:]
    is_readable = code in REPLIES and REPLIES[code](data)
    if p.number != 1 or is_readable and code == 0x79:
        return None
    if not is_readable:
        return bytes([2, code])
    if code == 0x41 and data[0] in (1, 4):
        return None if data[0] == 1 else bytes([3])
    return bytes([1]) + p.body


def told_by_a_bus(packet):
    counts, said = [0, 0, 0, 0], b""
    for place in range(len(packet)):
        for change in range(1, 256):
            run = changed(packet, place, change)
            for bytes_of in (run, check_anew(run)):
                told = next(filter(None, map(told_of, packets_in(bytes_of))), bytes([0]))
                counts[told[0]] += 1
                said += told
    return " ".join(map(str, counts[1:])) + " " + crc(said).hex().upper()


# ---- the tables


def constant(path, name):
    """The lines of a text in a source file."""
    found = re.search(rf'const {name}: &str = "\\\n(.*?)";', path.read_text(encoding="utf-8"), re.S)
    return found[1].split("\n")[:-1] if found else []


def main(words):
    packets = [bytes.fromhex(it) for it in constant(PACKETS, "PACKETS")]
    reader, met = opened_at(5), []
    for packet in packets:
        row, reader = met_by_readers(packet, reader)
        met.append(row)
    told = [told_by_a_bus(packet) for packet in packets]
    failed = not packets
    for path, name, rows in ((READER, "MET", met), (BUS, "TOLD", told)):
        if words == ["--print"]:
            print(name, *rows, sep="\n")
        elif constant(path, name) != rows:
            print(f"damage.py: {name} of {path.relative_to(CRATES.parent)} is not what the tables give")
            failed = True
    return 1 if failed else 0


if __name__ == "__main__":
    sys.exit(main(sys.argv[1:]))
