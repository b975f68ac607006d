"""Cards by the formats that are common: how many bits, where their parity is, and what facility and number they tell."""
from ..cards import bits_of

# name, bits; the bits that an even and an odd parity are over, counted from 0; the facility, which may be none, and the number
FORMATS = (
    ("H10301", 26, range(0, 13), range(13, 26), (1, 9), (9, 25)),
    ("H10306", 34, range(0, 17), range(17, 34), (1, 17), (17, 33)),
    ("H10304", 37, range(0, 19), range(18, 37), (1, 17), (17, 36)),
    ("H10302", 37, range(0, 19), range(18, 37), None, (1, 36)),
)


def formats_of(bits):
    """What each format that fits says of these bits."""
    found = []
    for name, count, even, odd, facility, number in FORMATS:
        if len(bits) == count and sum(bits[at] == "1" for at in even) % 2 == 0 and sum(bits[at] == "1" for at in odd) % 2 == 1:
            found.append({"format": name, "facility": int(bits[slice(*facility)], 2) if facility else None, "number": int(bits[slice(*number)], 2)})
    return found


def card_of(words):
    """A card or keys, of the words of an event; none where it is neither. What is in `digits` and after it is masked until it is asked for."""
    if words[:1] == ["RAW"] and len(words) == 5:
        bits = bits_of(int(words[3]), words[4])
        return {"what": "card", "reader": int(words[1]), "count": int(words[3]), "digits": words[4], "bits": bits, "formats": formats_of(bits)}
    if words[:1] == ["FMT"] and len(words) == 4:
        return {"what": "card", "reader": int(words[1]), "count": None, "digits": words[3], "bits": "", "formats": []}
    if words[:1] == ["KEYPAD"] and len(words) == 3:
        keys = b"" if words[2] == "none" else bytes.fromhex(words[2])
        return {"what": "keys", "reader": int(words[1]), "count": len(keys), "digits": "".join(chr(each) if 0x20 < each < 0x7F else "." for each in keys), "bits": "", "formats": []}
    return None


def masked(card):
    """A card without what it says of its holder."""
    return {**card, "digits": None, "bits": None, "formats": [{**each, "facility": None, "number": None} for each in card["formats"]]}
