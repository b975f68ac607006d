"""Packets of the bench's inputs, as bytes."""


def crc(data):
    state = 0x1D0F
    for byte in data:
        state ^= byte << 8
        for _ in range(8):
            state = ((state << 1) ^ 0x1021 if state & 0x8000 else state << 1) & 0xFFFF
    return state


def packet(address, control, body):
    """A packet to or from an address; the control byte tells whether it has a CRC."""
    length = 5 + len(body) + (2 if control & 4 else 1)
    front = bytes([0x53, address, length % 256, length // 256, control]) + body
    if control & 4:
        return front + crc(front).to_bytes(2, "little")
    return front + bytes([-sum(front) % 256])
