"""Orders in words of a door: `5 open 3s`, `5 led green`, `5 beep`. Each is one command, by its text as `osdp`
reads it."""
import re

from .faults import Refused, is_number

COLOURS = {
    "off": 0,
    "black": 0,
    "red": 1,
    "green": 2,
    "amber": 3,
    "blue": 4,
    "magenta": 5,
    "cyan": 6,
    "white": 7,
}
COMMANDS = ("ID", "CAP", "LSTAT", "ISTAT", "OSTAT", "RSTAT", "OUT", "LED", "BUZ", "TEXT", "COMSET", "MFG")
PLAIN = {
    "id": "ID 0",
    "capabilities": "CAP 0",
    "tamper": "LSTAT",
    "inputs": "ISTAT",
    "outputs": "OSTAT",
    "readers": "RSTAT",
}
HELP = """ADDRESS open [TIME] [output N]      on for a time, 3s where it is left out
ADDRESS on [output N], off [output N]   for good, at once
ADDRESS led COLOUR [TIME], led COLOUR blink   off, red, green, amber, blue, magenta, cyan, white
ADDRESS beep [N], text WORDS   so many short sounds; words on the display
ADDRESS id, capabilities, tamper, inputs, outputs, readers   what the device tells
ADDRESS move NEW [RATE], rate RATE   a COMSET: another address, another rate of the whole line
ADDRESS accept   the device that stands there now is the right one
ADDRESS COMMAND..   as osdp has it: 5 OUT 0:5:30
quit, or Ctrl-C   ends the panel"""


def wrong(at, word, could):
    """A word that isn't one: which it is, where it stands, and what could stand there."""
    raise Refused(f"word {at}, {word}: {could}" if word else f"word {at} is missing: {could}")


def whole(words, at, what, least=0, most=255):
    word = words[at] if at < len(words) else ""
    if not is_number(word, least, most):
        wrong(at + 2, word, f"{what}, a number from {least} to {most}")
    return int(word)


def tenths(word, at):
    """The units of 100 ms of a time such as 3s, 500ms or 2m."""
    found = re.fullmatch(r"([0-9]{1,9}(?:\.[0-9])?)(ms|s|m)", word)
    time = round(float(found[1]) * {"ms": 0.01, "s": 10, "m": 600}[found[2]]) if found else 0
    if not 1 <= time <= 65535:
        wrong(at + 2, word, "a time from 100ms to 109m, as 3s")
    return time


def ends(words, count):
    """There is no word after these."""
    if len(words) > count:
        wrong(count + 2, words[count], "nothing more stands there")


def output(words, at):
    """The output that `output N` names at this place; 0 where nothing stands there."""
    if len(words) <= at:
        return 0
    if words[at] != "output":
        wrong(at + 2, words[at], "output and its number, or nothing")
    ends(words, at + 2)
    return whole(words, at + 1, "the output")


def opens(words, _):
    has_time = len(words) > 1 and words[1] != "output"
    time = tenths(words[1], 1) if has_time else 30
    return f"OUT {output(words, 1 + has_time)}:5:{time}"


def led(words, _):
    colour = COLOURS.get(words[1] if len(words) > 1 else "")
    if colour is None:
        wrong(3, words[1] if len(words) > 1 else "", "a colour: " + ", ".join(COLOURS))
    ends(words, 3)
    if len(words) == 2:
        return f"LED 0:0:0:0:0:0:0:0:1:1:0:{colour}:0"
    if words[2] == "blink":
        return f"LED 0:0:0:0:0:0:0:0:1:5:5:{colour}:0"
    return f"LED 0:0:2:1:0:{colour}:0:{tenths(words[2], 2)}:0:0:0:0:0"


def beep(words, _):
    ends(words, 2)
    return f"BUZ 0 2 1 1 {whole(words, 1, 'how many sounds', 1) if len(words) > 1 else 1}"


def text(words, _):
    shown = " ".join(words[1:])
    if not 1 <= len(shown) <= 32:
        wrong(3, shown, "words of at most 32 characters")
    return f"TEXT 0 1 0 1 1 {shown.encode().hex().upper()}"


def move(words, place):
    ends(words, 3)
    rate = whole(words, 2, "the rate", 1, 4000000) if len(words) > 2 else place.rate
    return f"COMSET {whole(words, 1, 'the new address', 0, 126)} {rate}"


def rate(words, place):
    ends(words, 2)
    return f"COMSET {place.address} {whole(words, 1, 'the rate', 1, 4000000)}"


def switch(control):
    return lambda words, _: f"OUT {output(words, 1)}:{control}:0"


WORDS = {
    "open": opens,
    "on": switch(2),
    "off": switch(1),
    "led": led,
    "beep": beep,
    "text": text,
    "move": move,
    "rate": rate,
}


def command(words, place):
    """The text of the command that these words of an order are, for a device at this place."""
    name = words[0] if words else ""
    if name.upper() in COMMANDS and name not in PLAIN and name not in WORDS:
        return " ".join([name.upper(), *words[1:]])
    if name in PLAIN:
        ends(words, 1)
        return PLAIN[name]
    if name not in WORDS:
        wrong(2, name, f"one of {', '.join([*WORDS, *PLAIN, 'accept'])}, or a command of osdp as OUT 0:5:30")
    return WORDS[name](words, place)
