#!/usr/bin/env python3
"""Holds the helps of the program to its manual pages, and runs their examples and recipes. Takes the path of the program.

- No words, `help`, `--help`, `-h` and `help COMMAND` print on standard output, with status 0; the four first print the same.
  `COMMAND --help` and `COMMAND -h` print what `help COMMAND` does.
- Each usage is a line of the page's synopsis, and each command of `help` has one, a help of its own, and a name in the page's description.
- The rows of a help's settings, options and calls are those of the page's part, and each number of a row stands in the page's entry.
- Each help of a command has two examples or more, which print what it says. Each recipe of `help show` makes of a text, which is written here,
  the lines that `show` prints of its packets.
- The version is the same in the program, include/osdp.h and rust/Cargo.toml."""
import os
import re
import subprocess
import sys
import tempfile
from pathlib import Path

TOP = Path(__file__).resolve().parent.parent
PROGRAM = Path(sys.argv[1]).resolve()
ENVIRONMENT = {**os.environ, "PATH": f"{PROGRAM.parent}:{os.environ['PATH']}"}
TOPICS = ("show", "monitor", "check", "make", "sim", "panel", "reader", "plan", "test")
# which part of a page has the rows of a help's part: the part of the help is what stands before its rows
PARTS = {"show": [("OPTIONS, OPTIONS OF SHOW", "usage")], "monitor": [("OPTIONS", "usage")], "check": [("OPTIONS", "usage")],
         "sim": [("SCRIPTS", "Input")],
         "panel": [("SETTINGS", "usage"), ("CALLS", "Input"), ("COMMANDS", "Commands"), ("ANSWERS", "Answers")],
         "reader": [("SETTINGS", "usage"), ("CALLS", "Input"), ("EVENTS", "Events"), ("ANSWERS", "Answers")],
         "plan": [("SETTINGS", "usage"), ("FIGURES", "Times")],
         "test": [("OPTIONS", "usage"), ("INPUT", "Input"), ("INPUT OF A PANEL", "Input of a panel"), ("SCRIPTS", "Input of a script")]}
# a text for each command of `help panel` and each event of `help reader`, after the calls that hand it over
HANDED = {"panel": ("Commands", "add 5 0\nsubmit 1 never ",
                    ["ID 0", "CAP 0", "LSTAT", "ISTAT", "OSTAT", "RSTAT", "OUT 0:5:30", "LED 0:0:0:0:0:0:0:0:1:1:0:2:0", "BUZ 0 2 1 1 1",
                     "TEXT 0 1 0 1 1 48454C4C4F", "COMSET 7 9600", "MFG 53494D 00"]),
          "reader": ("Events", "event ", ["KEYPAD 0 31", "RAW 0 0 26 00112240", "FMT 0 0 3132", "ISTATR 0100", "OSTATR 01", "RSTATR 00", "LSTATR 0 1"])}
# a POLL, and the answer to an ID with a check of one byte, as the examples of docs/PROTOCOL.md have them
PACKETS = (bytes.fromhex("53000700006046"), bytes.fromhex("53851300004553494D010101000000010000E3"))
SHOWN = ("cmd 0 seq 0 sum POLL", "reply 5 seq 0 sum PDID 53494D 1 1 1 1 0 0")
faults = 0


def tell(what, wanted="", got=""):
    """Prints a disagreement."""
    global faults
    faults += 1
    print(f"{what}\nwanted: {wanted!r}\nis: {got!r}")


def run(command):
    """Runs a line of a shell."""
    return subprocess.run(["bash", "-c", command], env=ENVIRONMENT, capture_output=True, text=True, timeout=60, stdin=subprocess.DEVNULL)


def asked(*words):
    """What the program prints, which must end well."""
    done = subprocess.run([PROGRAM, *words], capture_output=True, text=True, timeout=60, stdin=subprocess.DEVNULL)
    if done.returncode or done.stderr or not done.stdout.endswith("\n"):
        tell(f"osdp {' '.join(words)}: status, standard error", (0, ""), (done.returncode, done.stderr))
    if max(map(len, done.stdout.splitlines()), default=121) > 110:
        tell(f"osdp {' '.join(words)}: a line of more than 110 characters")
    return done.stdout


def page(name):
    """The parts of a manual page as text, by their headings."""
    environment = {**ENVIRONMENT, "MANWIDTH": "200", "MANROFFOPT": "", "LC_ALL": "C"}
    done = subprocess.run(["man", "-E", "ascii", "-l", TOP / f"man/{name}.1"], env=environment, capture_output=True, text=True, check=True)
    text = re.sub(r"\x1b\[[0-9;]*m|.\x08", "", done.stdout)
    return {heading: body for heading, body in re.findall(r"^([A-Z][A-Z ]+)\n((?:[ \t]+.*\n|\n)*)", text, re.M)}


def plain(text):
    """A text with one blank between its words."""
    return " ".join(text.split())


def unmarked(line):
    """A line of a page's source without its marks."""
    return plain(re.sub(r"\\f.|^\.[A-Z]+ |\"", "", line).replace("\\-", "-"))


def entries(name, heading):
    """The entries of a part of a manual page: the line that an entry begins with, and the whole."""
    body = re.split(rf'^\.SH "?{heading}"?$', (TOP / f"man/{name}.1").read_text(), flags=re.M)[1].split("\n.SH ")[0]
    found = []
    for entry in body.split("\n.TP\n")[1:]:
        lines = [unmarked(line) for line in entry.split("\n.PP")[0].splitlines()]
        found.append((lines[0], " ".join(lines)))
    return found


def rows(text):
    """The rows of a help's part: a name with its values, two blanks or more, and what it is. After a long option one blank is enough."""
    return re.findall(r"^  (--\w{8,}(?= [a-z])|\S+(?: \S+)*?)(?: {2,}| (?<=\w{8} ))(.*)$", text, re.M)


def part_of(help_text, begins):
    """The rows after the paragraph of a help that begins so: up to the next line that isn't indented."""
    body = re.split(rf"^{begins}(?:.+\n)+\n", help_text, maxsplit=1, flags=re.M)[1]
    return re.split(r"^\S", body, maxsplit=1, flags=re.M)[0]


def judge_rows(topic, help_text, name):
    """The rows of a help are entries of the page, with their numbers, and there are no others."""
    for heading, begins in PARTS.get(topic, []):
        known = [entry for each in heading.split(", ") for entry in entries(name, each)]
        told = rows(part_of(help_text, begins))
        for row, what in told:
            word = re.split(r"[ ,]", row)[0]
            entry = next((whole for tag, whole in known if word in re.split(r"[ ,]+", tag)), None)
            if entry is None:
                tell(f"help {topic}: the page has no {word} in {heading}")
            elif not set(re.findall(r"\d+", what)) <= set(re.findall(r"\d+", entry)):
                tell(f"help {topic}: {row}: a number isn't in the page's entry", what, entry)
        every = " ".join(row + " " + what for row, what in told)
        for tag, _ in known:
            if re.match(r"[a-z-]+", tag) and not re.search(rf"(?<![\w-]){re.match(r'[a-z-]+', tag)[0]}(?![\w-])", every):
                tell(f"help {topic}: {tag} of {heading} is missing")


def judge_texts(topic, help_text):
    """The names of the commands or events that a help has are those of the texts here, and each text is taken. The names of its refusals are the page's."""
    begins, call, texts = HANDED[topic]
    words = [word for row, _ in rows(part_of(help_text, begins)) for word in re.findall(r"[A-Z]+", row)]
    words += [word for _, what in rows(part_of(help_text, begins)) for word in re.findall(r"\b[OR]STATR\b", what)]
    names = {text.split()[0] for text in texts}
    for name in names:
        if name not in words:
            tell(f"help {topic}: no {name} in {begins}")
    for text in texts:
        done = subprocess.run([PROGRAM, topic], input=call + text + "\n", capture_output=True, text=True, timeout=60)
        if done.returncode or "refused" in done.stdout:
            tell(f"{topic}: {text} isn't taken", "", done.stdout)
    told = [" ".join(each for _, each in entries(f"osdp-{topic}", "ANSWERS")), " ".join(row for row, _ in rows(part_of(help_text, "Answers")))]
    if len({frozenset(re.findall(r"\b[BCN]\d\b", each)) for each in told}) != 1:
        tell(f"help {topic}: its refusals aren't those of the page", *told)


def judge_examples(topic, help_text):
    """The examples print what the help says. How many there are."""
    body = help_text.split("\nExamples:\n")[1]
    found = re.findall(r"^  \$ (.*)\n((?:  (?!\$ ).*\n)*)", body, re.M)
    for command, wanted in found:
        done = run(command)
        if done.stdout + done.stderr != re.sub(r"^  ", "", wanted, flags=re.M):
            tell(f"help {topic}: {command}", re.sub(r"^  ", "", wanted, flags=re.M), done.stdout + done.stderr)
    if len(found) < 2:
        tell(f"help {topic}: only {len(found)} examples")


def dumped(data, row):
    """The rows of a dump: sixteen bytes each, with their place, and as characters."""
    for at in range(0, len(data), 16):
        piece = data[at:at + 16]
        yield row(at, piece, "".join(chr(byte) if 32 <= byte < 127 else "." for byte in piece))


def hexdump_row(at, piece, characters):
    digits = [f"{byte:02x}" for byte in piece] + ["  "] * (16 - len(piece))
    return f"{at:08x}  {' '.join(digits[:8])}  {' '.join(digits[8:])}  |{characters}|"


def xxd_row(at, piece, characters):
    return f"{at:08x}: " + f"{piece.hex(' ', -2):<39}" + f"  {characters}"


def samples():
    """A text for each recipe, by its name, and whether its packets are one run."""
    data = b"".join(PACKETS)
    times = [f"10:02:33.{number}50 {way}: {packet.hex(' ').upper()}" for number, (way, packet) in enumerate(zip(("TX", "RX"), PACKETS))]
    return {
        "hexdump -C": ("\n".join([*dumped(data, hexdump_row), f"{len(data):08x}"]), True),
        "xxd": ("\n".join(dumped(data, xxd_row)), True),
        "0x53, 0x00": ("\n".join("{ " + ", ".join(f"0x{byte:02X}" for byte in packet) + " };" for packet in PACKETS), False),
        "53:00:07": ("\n".join(packet.hex(":") for packet in PACKETS), False),
        "10:02:33 TX: 53": ("\n".join(times), False),
    }


def judge_recipes(help_text):
    """Each recipe makes of its text what `show` prints of the packets."""
    body = help_text.split("\nRecipes")[1]
    found = dict(re.findall(r"^  of (\S+(?: \S+)*?) {2,}(.*)$", body, re.M))
    texts = samples()
    if found.keys() != texts.keys():
        tell("help show: the recipes", sorted(texts), sorted(found))
    lengths = [0, len(PACKETS[0])]
    for name in found.keys() & texts.keys():
        text, joined = texts[name]
        wanted = "".join(f"{1 if joined else number + 1}:{lengths[number] if joined else 0} {shown}\n" for number, shown in enumerate(SHOWN))
        with tempfile.NamedTemporaryFile("w", suffix=".txt") as file:
            file.write(text + "\n")
            file.flush()
            done = run(found[name].replace("FILE", file.name))
        if done.stdout + done.stderr != wanted:
            tell(f"help show: the recipe of {name}", wanted, done.stdout + done.stderr)
    # what the tool itself writes, where it is there
    for tool, name in (("hexdump -C", "hexdump -C"), ("xxd", "xxd")):
        made = subprocess.run(["bash", "-c", f"command -v {tool.split()[0]} >/dev/null && exec {tool}"], input=b"".join(PACKETS), capture_output=True)
        if made.returncode == 0 and made.stdout.decode() != texts[name][0] + "\n":
            tell(f"what {tool} writes", made.stdout.decode(), texts[name][0] + "\n")


def judge_version():
    """The version is one."""
    header = re.search(r'^#define OSDP_VERSION "(.*)"$', (TOP / "include/osdp.h").read_text(), re.M)
    manifest = re.search(r'^version = "(.*)"$', (TOP / "rust/Cargo.toml").read_text(), re.M)
    wanted = asked("--version")
    for place, found in (("include/osdp.h", header), ("rust/Cargo.toml", manifest)):
        if not found or f"osdp {found[1]}\n" != wanted:
            tell(f"the version of {place}", wanted, found and found[1])


def main():
    whole = asked("help")
    if asked() != whole or asked("--help") != whole or asked("-h") != whole:
        tell("no words, --help or -h print something else than help")
    pages = {name: page(name) for name in ("osdp", "osdp-monitor", "osdp-panel", "osdp-plan", "osdp-reader", "osdp-test")}
    commands = [name for name, _ in rows(part_of(whole, "usage")) if re.match(r"[a-z]", name)]
    if commands != [*TOPICS, "help"]:
        tell("the commands of help", [*TOPICS, "help"], commands)
    for command in commands:
        if not any(line.strip().startswith(f"osdp {command}") for line in pages["osdp"]["SYNOPSIS"].splitlines()):
            tell(f"man osdp: no synopsis of {command}")
        if command not in (tag for tag, _ in entries("osdp", "DESCRIPTION")):
            tell(f"man osdp: {command} isn't described")
    for topic in TOPICS:
        text = asked("help", topic)
        if asked(topic, "--help") != text or asked(topic, "-h") != text:
            tell(f"{topic} --help or {topic} -h prints something else than help {topic}")
        parts = pages.get(f"osdp-{topic}", pages["osdp"])
        usage = re.search(r"^usage: (.*)$", text, re.M)
        for known in {id(parts): parts, id(pages["osdp"]): pages["osdp"]}.values():
            if not usage or usage[1] not in [plain(line) for line in known["SYNOPSIS"].splitlines()]:
                tell(f"help {topic}: its usage is no synopsis of the page", plain(known["SYNOPSIS"]), usage and usage[1])
        if not text.startswith(f"osdp {topic}: ") or "\nInput: " not in text:
            tell(f"help {topic}: it doesn't begin with its name, or tells of no input")
        judge_rows(topic, text, f"osdp-{topic}" if f"osdp-{topic}" in pages else "osdp")
        judge_examples(topic, text)
        if topic in HANDED:
            judge_texts(topic, text)
    judge_recipes(asked("help", "show"))
    judge_version()
    print(f"help: {len(TOPICS) + 1} helps, {faults} faults")
    sys.exit(1 if faults else 0)


main()
