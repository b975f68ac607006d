"""The bytes that a test of a device sends, and the replies in the bytes that it hears."""
LARGEST = 1440  # bytes of the largest packet
NOISE = bytes.fromhex("00FF5A5300A5")
ROOMS = {0: 0, 1: 16, 2: 32, 3: 64}  # characters of a display of a level


def crc(data):
    """The CRC of a packet: polynomial 1021, first 1D0F."""
    register = 0x1D0F
    for byte in data:
        register ^= byte << 8
        for _ in range(8):
            register = (register << 1 ^ (0x1021 if register & 0x8000 else 0)) & 0xFFFF
    return register


def packet(address, number, body, check, is_reply=False, block=b""):
    """The bytes of a packet."""
    size = 5 + len(block) + len(body) + (2 if check == "crc" else 1)
    control = number | (4 if check == "crc" else 0) | (8 if block else 0)
    head = bytes((0x53, address | (0x80 if is_reply else 0), size & 0xFF, size >> 8, control)) + block + body
    return head + (crc(head).to_bytes(2, "little") if check == "crc" else bytes(((-sum(head)) & 0xFF,)))


def damaged(how, address, check):
    """Bytes that hold no packet."""
    whole = packet(address, 1, b"\x60", check)
    if how == "badcheck":
        return whole[:-1] + bytes((whole[-1] ^ 0x5A,))
    if how == "badfirst":
        return whole[:-2] + bytes((whole[-2] ^ 0x5A,)) + whole[-1:]
    if how == "long":
        return whole[:2] + bytes((whole[2] + 40,)) + whole[3:]
    if how.startswith("short"):
        return whole[:2] + bytes((int(how[5:] or 5),)) + whole[3:]
    if how == "start":
        return b"\x35" + whole[1:]
    if how == "cut":
        return whole[:-2]
    return NOISE


class Reply:
    """A reply that was heard: from which address, with which number and check, its message, and whether it has a security block."""

    def __init__(self, whole):
        self.whole, self.address, self.number = whole, whole[1] & 0x7F, whole[4] & 3
        self.check, self.has_block = "crc" if whole[4] & 4 else "sum", bool(whole[4] & 8)
        self.body = whole[5:-2 if whole[4] & 4 else -1]

    def is_busy(self):
        return self.body[:1] == b"\x79"

    def is_nak(self, *reasons):
        return self.body[:1] == b"\x41" and (not reasons or self.body[1:2] in [bytes((reason,)) for reason in reasons])


def replies_in(heard):
    """The replies in bytes, in their order, whatever stands before and between them."""
    found, at = [], 0
    while at < len(heard):
        size = int.from_bytes(heard[at + 2:at + 4], "little") if heard[at] == 0x53 and len(heard) >= at + 5 else 0
        whole = heard[at:at + size]
        is_crc = size > 0 and bool(heard[at + 4] & 4)
        is_whole = 7 <= size == len(whole) and size <= LARGEST and whole[1] & 0x80
        if is_whole and (crc(whole[:-2]) == int.from_bytes(whole[-2:], "little") if is_crc else sum(whole) & 0xFF == 0):
            found.append(Reply(whole))
            at += size
        else:
            at += 1
    return found


def caps_in(heard):
    """What a PDCAP tells: level and count of each function, of the first entry. None where none was heard."""
    for reply in replies_in(heard):
        if reply.body[:1] == b"\x46":
            caps = {}
            for function, level, count in entries_of(reply.body):
                caps.setdefault(function, (level, count))
            return caps
    return None


def entries_of(body):
    """The entries of a PDCAP: function, level and count of each."""
    return list(zip(body[1::3], body[2::3], body[3::3]))


def twice_told(body):
    """What a PDCAP tells that it may not: a function with number 0, or one that stands there twice. An empty text where it does neither."""
    functions = [entry[0] for entry in entries_of(body)]
    twice = [each for each in dict.fromkeys(functions) if functions.count(each) > 1]
    return f"PDCAP-tells-function-{(twice + [0])[0]}{'-twice' if twice else ''}:{body.hex().upper()}" if twice or 0 in functions else ""


def filled(size, check):
    """The body of an unknown code that makes a packet of so many bytes."""
    return b"\x5F" + b"\xA5" * max(0, min(size, LARGEST) - 6 - (2 if check == "crc" else 1))


def beyond(name, caps):
    """The body of an order to what the device doesn't have by its CAP, or why there is none."""
    if name == "BEYOND-OUT":
        return bytes((0x68, caps[2][1], 1, 0, 0)) if 2 in caps else "CAP-tells-no-outputs"
    if name == "BEYOND-LED":
        return bytes((0x69, 0, caps[4][1], 0, 0, 0, 0, 0, 0, 0, 1, 1, 0, 0, 0)) if 4 in caps else "CAP-tells-no-LEDs"
    if 6 not in caps or caps[6][0] not in ROOMS:
        return "CAP-tells-no-display"
    count = ROOMS[caps[6][0]] + 1
    return bytes((0x6B, 0, 1, 0, 1, 1, count)) + b" " * count


def large(name, caps, check):
    """The body of a packet by the receive buffer of CAP, or why there is none."""
    if 10 not in caps:
        return "CAP-tells-no-buffer"
    size = caps[10][0] + 256 * caps[10][1]
    if name == "FILLS":
        return filled(size, check)
    return filled(size + 32, check) if size < LARGEST else "no-packet-is-larger"


def neighbours(address):
    """The addresses that differ in one bit, and 0: a device that reads a part of its address alone takes one of them for its own."""
    return [each for each in dict.fromkeys([0, *(address ^ (1 << bit) for bit in range(7))]) if each not in (address, 127)]
