#!/usr/bin/env python3
"""Holds include/osdp.h and rust/src/sys.rs to the archive and to the definitions: `names.py ARCHIVE`. Prints each disagreement.

- The functions that the header declares, those that rust/ declares, and those that the archive has are the same.
- What the archive needs from outside is what the header says: its heap, and three calls of C.
- The constants of both have the same names and values, and the structs the same fields, in their order and of the same types.
- Each constant has the number that a definition of crates/osdp_c_values/specs, or of the crates below, gives it, and each such number has a constant. Those of
  fields, for which there is no definition, have the number of the standard's tables; and so have those of crates/osdp_names/src/named.rt, and of rust/src/named.rs.
- The functions of both have the same parameters, by names and types.
- include/osdp_site.h has the pause and the room of crates/osdp_site, its states hold the longest text, and each status has the number that its comment names.
- A status says the same in C (c/osdp_texts.c) and in Rust (rust/src/error.rs), but where Rust has one error for several statuses."""
import re
import subprocess
import sys
from pathlib import Path

TOP = Path(__file__).resolve().parent.parent
HEAP = {"rattle_alloc", "rattle_realloc", "rattle_dealloc"}
# What stands beside the archive: c/osdp_texts.c
BESIDE = {"osdp_version", "osdp_status_text", "osdp_struct_size"}
OUTSIDE = HEAP | {"memcpy", "memmove", "memset"}
TYPES = {
    "uint8_t": "u8", "uint16_t": "u16", "uint32_t": "u32", "uint64_t": "u64", "size_t": "usize", "osdp_size": "usize", "char": "c_char", "void": "c_void",
}
SPECS = "crates/osdp_c_values/specs"
# The lines that give a number, by their file: the name of what has it, the number, and how its constants begin
NUMBERED = (
    ("Statuses", r"^\w+ (?P<name>[\w.]+) = (?P<number>\d+)$", "OSDP_"),
    ("Settings", r"^check_of number = if number == (?P<number>\d+) then (?P<name>Sum) else Crc$", "OSDP_CHECK_"),
    ("Settings", r"nat_le s\.(?P<name>check) (?P<number>\d+)", "OSDP_CHECK_"),
    ("Reports", r"^report_of \((?P<name>\w+) .*\) r = tells (?P<number>\d+) ", "OSDP_REPORT_"),
    ("Reports", r"^what_of \((?P<name>\w+) command\) r = tells (?P<number>\d+) ", "OSDP_REPORT_"),
    ("Reports", r"^report_struct (?P<name>None) r = tells (?P<number>\d+) ", "OSDP_REPORT_"),
    ("Reports", r"^(?P<name>maybe_again) = (?P<number>\d+)$", "OSDP_EVENT_"),
    ("Reports", r"^cause_number (?P<name>\w+) = (?P<number>\d+)$", "OSDP_LOST_"),
    ("Answers", r"^kind_number (?P<name>\w+) = (?P<number>\d+)$", "OSDP_SAID_"),
    ("Monitors", r"prints == (?P<number>\d+) then Some \(?(?P<name>\w+)", "OSDP_PRINTS_"),
    ("Readers", r"^how_expired \(?(?:Some \()?(?P<name>\w+).* = (?P<number>\d+)$", "OSDP_EXPIRED_"),
    ("Answers", r"^order_number (?P<name>\w+) = (?P<number>\d+)$", "OSDP_ORDER_"),
    ("Answers", r"^(?P<name>pends) .* \(ordered (?P<number>\d+) ", "OSDP_ORDER_"),
    ("Answers", r"^(?P<name>pends) .* kind = (?P<number>\d+) ", "OSDP_SAID_"),
    ("/osdp_msg/specs/CommandTable", r"^command_spelled \(?(?P<name>\w+).* = \((?P<number>0x\w+), ", "OSDP_"),
    ("/osdp_msg/specs/ReplyTable", r"^reply_spelled \(?(?P<name>\w+).* = \((?P<number>0x\w+), ", "OSDP_"),
    ("/osdp_msg/specs/NakReasons", r"^reason_number (?P<name>\w+) = (?P<number>\d+)$", "OSDP_NAK_"),
    ("/osdp_msg/specs/Limits", r"^(?P<name>most_data) = (?P<number>\d+)$", "OSDP_"),
    ("/osdp_frame/specs/Packet", r"^(?P<name>largest) = (?P<number>\d+)$", "OSDP_"),
    ("/osdp_bus/specs/Machine", r"^(?P<name>most_entries) = (?P<number>\d+)$", "OSDP_"),
    ("/osdp_c_values/src/pieces.rt", r"^pub const (?P<name>MAX_TEXT): usize = (?P<number>\d+);$", "OSDP_"),
)
# What the standard calls otherwise than the definitions do
TERMS = {
    "Poll": "POLL", "Id": "ID", "Cap": "CAP", "LocalStatus": "LSTAT", "InputStatus": "ISTAT", "OutputStatus": "OSTAT", "ReaderStatus": "RSTAT",
    "Output": "OUT", "Led": "LED", "Buzzer": "BUZ", "Text": "TEXT", "Comset": "COMSET", "Maker": "MFG",
    "Ack": "ACK", "Nak": "NAK", "PdId": "PDID", "PdCap": "PDCAP", "LocalState": "LSTATR", "Inputs": "ISTATR", "Outputs": "OSTATR",
    "Readers": "RSTATR", "Raw": "RAW", "Formatted": "FMT", "Keypad": "KEYPAD", "Com": "COM", "MakerReply": "MFGREP",
    "most_data": "MOST_DATA", "largest": "MOST_PACKET", "most_entries": "MOST_DEVICES", "MAX_TEXT": "MOST_TEXT", "pends": "PENDING", "maybe_again": "MAYBE_AGAIN",
}
# What a constant calls otherwise than its definition does
OTHERWISE = {
    "Done": "OK", "message.Length": "BAD_LENGTH", "message.Count": "BAD_COUNT", "bus.NoMemory": "PANEL_NO_MEMORY",
    "bus.OutOfRange": "PANEL_OUT_OF_RANGE", "bus.Full": "COMMANDS_FULL", "reader.NoMemory": "DEVICE_NO_MEMORY",
    "reader.OutOfRange": "DEVICE_OUT_OF_RANGE", "monitor.NoMemory": "MONITOR_NO_MEMORY", "monitor.TooLong": "MONITOR_TOO_LONG",
    "monitor.OutOfRange": "MONITOR_OUT_OF_RANGE", "monitor.Stopped": "MONITOR_STOPPED", "Refusals": "FOUND", "Filtered": "TALK", "Full": "PACKETS", "check": "CRC", "PollAnswered": "ANSWERED", "Silent": "NONE",
    "Nothing": "NONE",
}
# Numbers in the fields of messages, from the tables of OSDP 2.2: no definition names them, since a message with any other number is read and written too
STANDARD = {
    "OUTPUT": "NO_CHANGE=0 OFF=1 ON=2 OFF_AFTER=3 ON_AFTER=4 ON_FOR_A_TIME=5 OFF_FOR_A_TIME=6",
    "LED": "NOTHING=0 CANCEL_TEMPORARY=1 SET_TEMPORARY=2 SET_PERMANENT=1",
    "COLOR": "OFF=0 RED=1 GREEN=2 AMBER=3 BLUE=4 MAGENTA=5 CYAN=6 WHITE=7",
    "TONE": "NONE=0 OFF=1 DEFAULT=2",
    "TEXT": "PERMANENT=1 PERMANENT_WRAPPED=2 TEMPORARY=3 TEMPORARY_WRAPPED=4",
    "STATE": "INACTIVE=0 ACTIVE=1 NORMAL=0 TAMPERED=1 POWER_FAILS=1",
    "READER": "NORMAL=0 NOT_CONNECTED=1 TAMPERED=2",
    "CARD": "RAW=0 WIEGAND=1 FORWARD=0 REVERSE=1",
    "FUNCTION": "CONTACT_STATUS=1 OUTPUT_CONTROL=2 CARD_DATA_FORMAT=3 LED_CONTROL=4 AUDIBLE_OUTPUT=5 TEXT_OUTPUT=6 TIME_KEEPING=7 CHECK_CHARACTERS=8 COMMUNICATION_SECURITY=9 RECEIVE_BUFFER=10 LARGEST_MESSAGE=11 SMART_CARDS=12 READERS=13 BIOMETRICS=14 SECURE_PIN_ENTRY=15 VERSION=16",
}
faults = []


def compare(what, ours, theirs, where="rust/src/sys.rs"):
    for name in sorted(ours.keys() | theirs.keys()):
        if ours.get(name) != theirs.get(name):
            faults.append(f"{what} {name}: {ours.get(name)} in the header, {theirs.get(name)} in {where}")


def constant(name):
    """What a constant calls what a definition names: its words in capitals."""
    return OTHERWISE.get(name) or TERMS.get(name) or re.sub(r"(?<=[a-z])(?=[A-Z])", "_", name.rpartition(".")[2]).upper()


def defined():
    """The numbers that the definitions give, by the constants that have them."""
    found = {}
    for file, line, front in NUMBERED:
        folder = TOP / "crates" if file.startswith("/") else TOP / SPECS
        for each in re.finditer(line, (folder / (file.lstrip("/") + ("" if file.endswith(".rt") else ".antt"))).read_text(), re.M):
            found[front + constant(each["name"])] = int(each["number"], 0)
    return found | standard()


def standard():
    """The numbers in the fields of messages, by their constants."""
    return {f"OSDP_{group}_{name}": int(number) for group, row in STANDARD.items() for name, number in re.findall(r"(\w+)=(\d+)", row)}


def c_type(text):
    """A type of C, as Rust writes it."""
    words = text.replace("*", " * ").replace("struct ", "").split()
    const, name = "const" in words, [word for word in words if word not in ("const", "*")][0]
    pointer = "*const " if const else "*mut "
    return (pointer if "*" in words else "") + TYPES.get(name, name)


def c_field(text):
    """The name and the type of a field or a parameter of C."""
    kind, name, count = re.fullmatch(r"(.*?)(\w+)(?:\[(\d+)\])?", text.strip()).groups()
    return name, f"[{c_type(kind)}; {count}]" if count else c_type(kind)


def parts(text, end):
    return [part.strip() for part in text.split(end) if part.strip()]


def header():
    """What the header declares: its functions, constants and structs."""
    text = re.sub(r"/\*.*?\*/", "", (TOP / "include/osdp.h").read_text(), flags=re.S)
    faults.extend(f"{name}: its status may be passed over without a warning" for name in re.findall(r"^(?:static inline )?osdp_status (\w+)\([^;{]*;", text, re.M))
    text = text.replace("OSDP_CHECKED ", "")
    text = re.sub(r"^static inline [^;{]*;", "", text, flags=re.M)  # what the header itself defines, over functions of the archive
    functions = {}
    for gives, name, takes in re.findall(r"^([\w ]+?[ *])((?:osdp|rattle)_\w+)\(([^)]*)\);", text, re.M | re.S):
        functions[name] = ([c_field(one) for one in parts(takes, ",") if one != "void"], TYPES.get(gives.strip(), gives.strip()))
    constants = {name: int(value, 0) for name, value in re.findall(r"\b(OSDP_\w+) = (\w+)", text)}
    structs = {name: [c_field(one) for one in parts(body, ";")] for name, body in re.findall(r"^(?:typedef )?struct (\w+) \{(.*?)^\}[ \w]*;", text, re.M | re.S)}
    return functions, constants, structs


def rust():
    """What rust/src/sys.rs declares: the same."""
    text = re.sub(r"//.*", "", (TOP / "rust/src/sys.rs").read_text())
    functions = {}
    for plain, name, takes in re.findall(r"^    (pub\(crate\) fn )?(osdp_\w+)\(([^)]*)\);", text, re.M):
        functions[name] = ([tuple(one.split(": ")) for one in parts(takes, ",")], "c_void" if plain else "osdp_status")
    constants = {name: int(value, 0) for name, value in re.findall(r"pub const (OSDP_\w+): u32 = (\w+);", text)}
    fields = {name: parts(body, ",") for name, body in re.findall(r"^    (\w+), \d+ \{(.*?)\}", text, re.S | re.M)}
    numbers = {name: "u32" for name in re.findall(r"#\[repr\(u32\)\]\n(?:#.*\n)*pub enum (\w+)", text)}
    structs = {}
    for name, body in fields.items():
        pairs = [one.split(": ") for one in body]
        structs[name] = [(field, numbers.get(kind, kind)) for field, kind in pairs]
    return functions, constants, structs


def named():
    """What the numbers in fields are called in Rattle, by the constants of the header that have the same names."""
    text = re.sub(r"//.*", "", (TOP / "crates/osdp_names/src/named.rt").read_text())
    groups = re.findall(r"^pub mod (\w+) \{(.*?)^\}", text, re.M | re.S)
    return {f"OSDP_{group.upper()}_{name}": int(value) for group, body in groups for name, value in re.findall(r"pub const (\w+): u8 = (\d+);", body)}


def named_in_rust():
    """The constants of sys.rs that rust/src/named.rs names, each by the name that it gives it."""
    text = re.sub(r"//.*", "", (TOP / "rust/src/named.rs").read_text())
    groups = re.findall(r"^    (\w+) \{(.*?)^    \}", text, re.M | re.S)
    return {f"OSDP_{group.upper()}_{name}": value for group, body in groups for name, value in re.findall(r"(\w+) = (\w+),", body)}


def statuses():
    """The statuses of the header."""
    return re.findall(r"\b(OSDP_\w+) = ", re.search(r"typedef enum osdp_status \{(.*?)\n\}", (TOP / "include/osdp.h").read_text(), re.S)[1])


def texts_in_c():
    """What c/osdp_texts.c says of each status."""
    cases = re.findall(r"((?:    case OSDP_\w+:\n)+)        return \"(.*)\";", (TOP / "c/osdp_texts.c").read_text())
    return {name: text for several, text in cases for name in re.findall(r"OSDP_\w+", several)}


def texts_in_rust():
    """What rust/src/error.rs says of each status. One error stands for several statuses without memory or room."""
    code = (TOP / "rust/src/error.rs").read_text()
    said = dict(re.findall(r'Error::(\w+) => "(.*)",', code))
    errors = [(re.findall(r"sys::(OSDP_\w+)", several), error) for several, error in re.findall(r"((?:sys::OSDP_\w+\s*\|?\s*)+)=> \{?\s*Error::(\w+)", code)]
    return {name: said[error] for several, error in errors for name in several if error not in ("NoMemory", "Full")}


def judge_site():
    """The constants of include/osdp_site.h: by the crate in Rattle, by the longest text (255 characters after six bytes), and by their comments, as `P5: ..`."""
    text, crate = ((TOP / name).read_text() for name in ("include/osdp_site.h", "crates/osdp_site/src/site.rt"))
    constants = {name: int(number) for name, number in re.findall(r"OSDP_SITE_(\w+) = (\d+)", text)}
    wanted = {name.upper(): int(number) for name, number in re.findall(r"^            (pause|room): (\d+),$", crate, re.M)} | {"MOST_DATA": 6 + 255, "ANY_LENGTH": 0, "OK": 0}
    wanted |= {name: int(number) for number, name in re.findall(r"/\* P(\d): [^*]*\*/\n    OSDP_SITE_(\w+) =", text)}
    compare("constant OSDP_SITE", constants, wanted, "crates/osdp_site and the comments")


def names(archive, *words):
    """The names that nm prints."""
    printed = subprocess.run(["nm", *words, archive], check=True, capture_output=True, text=True).stdout
    return {line.split()[-1] for line in printed.splitlines() if len(line.split()) > 1}


def main():
    declared, constants, structs = header()
    compare("function", {name: one for name, one in declared.items() if name not in HEAP | BESIDE}, rust()[0])
    compare("constant", constants, rust()[1])
    compare("constant", constants, defined(), SPECS)
    compare("constant", standard(), named(), "crates/osdp_names/src/named.rt")
    compare("constant", {name: name for name in standard()}, named_in_rust(), "rust/src/named.rs")
    judge_site()
    in_c, in_rust = texts_in_c(), texts_in_rust()
    compare("text", {name: in_c.get(name) for name in in_rust}, in_rust, "rust/src/error.rs")
    compare("text", dict.fromkeys(statuses(), True), dict.fromkeys(in_c, True), "c/osdp_texts.c")
    if len(in_rust) < 18:
        faults.append("texts of statuses are not there")
    compare("struct", {name: one for name, one in structs.items() if name != "osdp_block"}, rust()[2])
    for name in sorted((declared.keys() - HEAP - BESIDE) ^ names(sys.argv[1], "--defined-only", "--extern-only")):
        faults.append(f"{name}: only {'the header' if name in declared else 'the archive'} has it")
    for name in sorted(names(sys.argv[1], "--undefined-only") - OUTSIDE):
        faults.append(f"{name}: the archive needs it, and the header doesn't say so")
    if not HEAP | BESIDE <= declared.keys():
        faults.append("the header doesn't declare the heap and what stands beside the archive")
    if len(declared) < 20 or len(constants) < 30 or len(structs) < 9:
        faults.append("declarations are not there")
    for fault in faults:
        print(fault)
    return 1 if faults else 0


if __name__ == "__main__":
    sys.exit(main())
