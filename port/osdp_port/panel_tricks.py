"""The tricks of `test panel`: for each rule of `osdp test panel` what the device does to one packet of the panel, in the order in which they are played."""

ALWAYS = (*range(1, 8), 36)  # these rules are judged by each packet
NUMBERED = {"number 1": 1, "number 2": 2, "number 3": 3}  # nothing is said to a packet with this number

TRICKS = {
    8: "answer", 9: "late", 10: "filled", 11: "after noise", 12: "reserved", 13: "pieces", 14: "after another", 15: "card",
    16: "number 1", 17: "number 2", 18: "number 3", 20: "twice", 21: "lost card", 22: "order",
    23: "check", 24: "cut", 25: "length", 26: "start", 27: "noise",
    28: "next number", 29: "number 0", 30: "another", 31: "no reply",
    32: "busy", 33: "second busy", 34: "busy number", 35: "nak 1", 36: "restart", 19: "opening", 37: "lapse",
}
