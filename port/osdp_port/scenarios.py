"""The scenarios of `test device`: for each rule of `osdp test` the packets that are sent, in their order.

A step is `open` or `ask`, a number, what is sent, and how. `open` makes ready, and `ask` is what the rule is judged by. What is sent is a command's
name, or `x` and the digits of a body. How: `sum` or `crc`, where both may stand the run's own; `other`, to another device; `near`, to each address that
differs in one bit, and to 0; `reply`, as if a device had said it; `block`, with a security block; `filled`, after bytes FF. Bytes that are no packet:
`badcheck`, `badfirst`, `long`, `short` (with a length), `start`, `cut`, `noise`. `+` joins the steps of packets that go out without a pause between them. What is
made by what the device told by CAP: `BEYOND-OUT`, `BEYOND-LED` and `BEYOND-TEXT`, which name what it doesn't have; `FILLS` and `OVER`, an unknown code
that fills its receive buffer, or is larger; `LARGEST` is the largest packet of all.

Other steps: `wait`; `times` judges a rule by the times of all answers; `caps` by what CAP told; `event` waits for a card, a key or an input, whose answer is
then asked for again; `anew` looks whether it is told once more; `relay` orders an output twice; `alive` tells whether the device still answers. The rules of
`WHOLE` are judged by all that was said in the run. What isn't answered is sent twice in scenarios where nothing else would tell that it was lost."""

NAMES = {
    "POLL": "60", "ID": "6100", "CAP": "6200", "LSTAT": "64", "ISTAT": "65", "OSTAT": "66", "RSTAT": "67",
    "OUT": "68{out:02X}000000", "LED": "690000000000000000000000000000", "BUZ": "6A0001000000", "TEXT": "6B00010001010120",
}

OPEN = "open 0 ID"
TURN = "open 1 POLL"

# number of the rule: what must be allowed for it, and its steps
SCENARIOS = {
    1: ("", "ask 0 ID; ask 1 POLL"),
    2: ("", "ask 0 ID sum; ask 1 POLL sum"),
    3: ("", "ask 0 ID crc; ask 1 POLL crc"),
    4: ("", "ask 0 ID; ask 0 POLL"),
    5: ("", f"{OPEN}; ask 1 POLL"),
    6: ("", f"{OPEN}; {TURN}; ask 2 POLL"),
    7: ("", f"{OPEN}; {TURN}; open 2 POLL; ask 3 POLL"),
    8: ("", "ask 0 ID; ask 1 POLL; ask 2 CAP"),
    9: ("", "ask 0 ID; ask 1 POLL; ask 2 POLL; ask 3 CAP"),
    10: ("", "ask 0 ID; ask 1 POLL; ask 2 CAP; ask 3 POLL"),
    11: ("", "ask 0 ID; ask 1 POLL; ask 2 POLL; ask 3 POLL; ask 1 CAP; ask 2 POLL; ask 3 POLL; ask 1 POLL"),
    12: ("", f"{OPEN}; ask 0 POLL; {TURN}; ask 0 ID; {TURN}; open 2 POLL; ask 0 ID"),
    13: ("", "open 0 ID; ask 1 POLL; ask 2 POLL; ask 3 POLL; ask 1 POLL; ask 2 POLL"),
    14: ("", f"{OPEN}; {TURN}; open 3 POLL; ask 2 POLL"),
    15: ("", f"{OPEN}; {TURN}; open - badcheck; ask 2 POLL"),
    16: ("", f"{OPEN}; {TURN}; open 3 POLL other; ask 2 POLL"),
    17: ("", "ask 0 ID filled; ask 1 POLL filled"),
    18: ("silence", f"{OPEN}; {TURN}; wait 8200; ask 0 ID"),
    19: ("", f"{OPEN}; {TURN}; ask 1 POLL; open 2 POLL; ask 2 POLL; open 3 POLL; ask 3 POLL"),
    20: ("", f"{OPEN}; open 1 ID; ask 1 ID"),
    21: ("", f"{OPEN}; open 1 CAP; ask 1 CAP"),
    22: ("", f"{OPEN}; {TURN}; ask 1 POLL; ask 1 POLL; open 2 ID; ask 2 ID; ask 2 ID"),
    23: ("", f"{OPEN}; open 1 x10; ask 1 x10"),
    24: ("", f"{OPEN}; {TURN}; open 2 POLL; open 3 ID; ask 3 ID"),
    25: ("", f"{OPEN}; ask 2 POLL"),
    26: ("", f"{OPEN}; ask 3 POLL"),
    27: ("", f"{OPEN}; {TURN}; ask 3 POLL"),
    28: ("", f"{OPEN}; {TURN}; open 2 POLL; ask 1 POLL"),
    29: ("", f"{OPEN}; {TURN}; open 2 POLL; open 3 POLL; ask 2 POLL"),
    30: ("", f"{OPEN} sum; ask - badcheck sum"),
    31: ("", f"{OPEN} crc; ask - badcheck crc"),
    32: ("", f"{OPEN}; ask - long"),
    33: ("", f"{OPEN}; ask - short"),
    34: ("", f"{OPEN}; ask - start; ask - start"),
    35: ("", f"{OPEN}; ask - cut"),
    36: ("", f"{OPEN}; ask - noise; ask - noise"),
    37: ("", f"{OPEN}; ask 1 POLL other; ask 0 ID other"),
    38: ("", f"{OPEN}; ask 1 x40 reply"),
    39: ("", f"{OPEN}; ask 1 POLL block"),
    40: ("", f"{OPEN}; ask 1 POLL; ask 0 POLL"),
    41: ("", "ask 0 ID; ask 1 ID"),
    42: ("", f"{OPEN}; ask 1 CAP"),
    43: ("", f"{OPEN}; ask 1 POLL; ask 2 POLL; ask 3 POLL"),
    44: ("", "ask 0 ID; ask 1 ID"),
    45: ("", f"{OPEN}; ask 1 CAP"),
    46: ("", f"{OPEN}; ask 1 LSTAT"),
    47: ("", f"{OPEN}; ask 1 ISTAT"),
    48: ("", f"{OPEN}; ask 1 OSTAT"),
    49: ("", f"{OPEN}; ask 1 RSTAT"),
    50: ("out", f"{OPEN}; ask 1 OUT"),
    51: ("led", f"{OPEN}; ask 1 LED"),
    52: ("buz", f"{OPEN}; ask 1 BUZ"),
    53: ("text", f"{OPEN}; ask 1 TEXT"),
    54: ("", "ask 0 ID; ask 1 ID"),
    55: ("", f"{OPEN}; ask 1 CAP"),
    56: ("", f"{OPEN}; ask 1 LSTAT"),
    57: ("", f"{OPEN}; ask 1 x00"),
    58: ("", f"{OPEN}; ask 1 x5F"),
    59: ("", f"{OPEN}; ask 1 x6001"),
    60: ("", f"{OPEN}; ask 1 x61"),
    61: ("", f"{OPEN}; ask 1 x62"),
    62: ("", f"{OPEN}; ask 1 x6401"),
    63: ("", f"{OPEN}; ask 1 x6501"),
    64: ("", f"{OPEN}; ask 1 x6601"),
    65: ("", f"{OPEN}; ask 1 x6701"),
    66: ("out", f"{OPEN}; ask 1 x68000000"),
    67: ("led", f"{OPEN}; ask 1 x6900000000000000000000000000"),
    68: ("buz", f"{OPEN}; ask 1 x6A00010000"),
    69: ("text", f"{OPEN}; ask 1 x6B00010001010220"),
    70: ("comset", f"{OPEN}; ask 1 x6E05802500"),
    71: ("", "open 0 CAP; ask 1 ISTAT"),
    72: ("", "open 0 CAP; ask 1 OSTAT"),
    73: ("", "open 0 CAP; ask 1 RSTAT"),
    74: ("beyond", "open 0 CAP; ask 1 BEYOND-OUT"),
    75: ("beyond", "open 0 CAP; ask 1 BEYOND-LED"),
    76: ("beyond", "open 0 CAP; ask 1 BEYOND-TEXT"),
    77: ("", f"{OPEN}; ask 1 POLL + ask 2 ID"),
    78: ("", f"{OPEN}; ask 1 ID + ask 2 CAP"),
    79: ("", f"{OPEN}; ask 1 ID + ask 1 ID; {OPEN}; ask 1 POLL + ask 1 POLL"),
    80: ("", f"{OPEN}; open 1 POLL + open 2 ID; ask 3 POLL"),
    81: ("", f"{OPEN}; ask 1 LARGEST other"),
    82: ("", f"{OPEN}; {TURN}; open 2 LARGEST other; ask 2 POLL"),
    83: ("", "open 0 CAP; ask 1 FILLS"),
    84: ("", f"open 0 CAP; {TURN}; open 2 OVER; ask 0 ID"),
    86: ("", f"{OPEN}; open 1 x5F; ask 2 POLL; open 3 x00; ask 1 ID"),
    87: ("", f"{OPEN}; open 1 x6001; ask 2 POLL; open 3 x61; ask 1 POLL"),
    88: ("beyond", "open 0 CAP; open 1 BEYOND-OUT; ask 2 POLL"),
    89: ("", f"{OPEN}; {TURN}; open 1 POLL; ask 2 POLL; open 3 ID; open 3 ID; open 3 ID; ask 1 POLL"),
    90: ("", f"{OPEN} crc; ask - badfirst crc; ask - badfirst crc"),
    91: ("", f"{OPEN}; " + "; ".join(f"ask - short{length}" for length in (0, 1, 2, 3, 4, 6) * 2)),
    92: ("", f"{OPEN}; ask 0 ID near"),
    93: ("", "open 0 CAP; caps"),
    94: ("", f"{OPEN}; event"),
    95: ("", "anew"),
    96: ("relay", "open 0 CAP; relay"),
    85: ("", "times"),
    97: ("", "alive"),
}

# the rules that are judged by all that was said in the run
WHOLE = (98, 99, 100, 101, 102, 103, 104, 105, 106, 107)
