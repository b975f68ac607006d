"""Cards as a person reads them: their bits, and facility and number where 26 bits and their parity say so."""


def bytes_of(digits):
    """The bytes that digits of a text stand for, of which there may be none."""
    return b"" if digits == "none" else bytes.fromhex(digits)


def bits_of(count, digits):
    """The bits of a card, as many as it has."""
    every = "".join(f"{byte:08b}" for byte in bytes_of(digits))
    return every[:count]


def facility_and_number(bits):
    """The facility and the number of 26 bits whose parity is right: even over the first half, odd over the
    second."""
    if len(bits) != 26 or bits[:13].count("1") % 2 != 0 or bits[13:].count("1") % 2 != 1:
        return None
    return int(bits[1:9], 2), int(bits[9:25], 2)


def shown(words):
    """What stands after an event: of a card its bits, and what they say; of keys the keys that are
    printable."""
    if words[:1] == ["RAW"] and len(words) == 5:
        bits = bits_of(int(words[3]), words[4])
        both = facility_and_number(bits)
        return (f" bits {bits}" if bits else "") + (f" facility {both[0]} number {both[1]}" if both else "")
    if words[:1] == ["KEYPAD"] and len(words) == 3:
        keys = bytes_of(words[2])
        return f" keys {keys.decode()}" if keys and all(0x21 <= key < 0x7F for key in keys) else ""
    return ""


def raw_of(facility, number):
    """The text of an event of a card of 26 bits."""
    middle = f"{facility:08b}{number:016b}"
    even, odd = middle[:12].count("1") % 2, 1 - middle[12:].count("1") % 2
    bits = f"{even}{middle}{odd}".ljust(32, "0")
    return f"RAW 0 1 26 {int(bits, 2):08X}"
