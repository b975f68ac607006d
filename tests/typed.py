#!/usr/bin/env python3
"""Holds docs/MESSAGES.md to what there is. Prints each disagreement.

- Each message whose code the header has stands in one row, and no other does. Each cell has a name; `-` stands only where a line below the table says why.
- Each name stands in the test of its message, in its language, outside comments: so it was compiled and run. A name of C is a call, a struct or a constant of
  include/osdp.h; one of Rust is public in rust/src; one of Rattle is public in osdp_msg. Types and calls that a program uses of Rattle are handed on by osdp_panel or osdp_device.
- No program of examples/ and rust/examples/, and no block of code of the pages for makers, writes a code of a message as a number, or `as u8`."""
import re
import sys
from pathlib import Path

import names

TOP = Path(__file__).resolve().parent.parent
PAGE = "docs/MESSAGES.md"
COLUMNS = ["Message", "Rattle, made", "Rattle, read", "C, made", "C, read", "Rust, made", "Rust, read"]
# The tests of each language, and how the test of a message begins
TESTS = {
    "Rattle": ([f"crates/osdp_typed_tests/src/{part}.rt" for part in ("commands", "events", "replies")], r"fn {}\("),
    "C": (["tests/c/messages.c"], r"static void {}\("),
    "Rust": (["rust/tests/messages.rs"], r"fn {}\("),
}
# What programs may not write: they have names for it
NUMBERS = r"\b(?:raw|event|submit)\([^()]*\b0x[4-9]\w\b|\bas u8\b|\bcode(?:\(\))? *[!=]= *0x"
PROGRAMS = ["examples/c/*.c", "rust/examples/*.rs", "crates/osdp_example_*/src/*.rt"]
PAGES = ["docs/GUIDE.md", "c/README.md", "rust/README.md"]
faults = []


def text_of(path):
    return (TOP / path).read_text()


def bare(text):
    """A program without its comments."""
    return re.sub(r"/\*.*?\*/|//[^\n]*", "", text, flags=re.S)


def rows():
    """The rows of the page's tables of messages, and the cells of which a line says why they are empty."""
    found, why, inside = [], set(), False
    for line in text_of(PAGE).splitlines():
        cells = [cell.strip() for cell in line.strip("|").split("|")] if line.startswith("|") else []
        if not cells:
            inside = False
        elif cells == COLUMNS:
            inside = True
        elif inside and cells[0].isupper():
            found.append(cells)
        reason = re.match(r"`-` of (\w+) \((.*?)\): ", line)
        if reason:
            why |= {(reason[1], column) for column in reason[2].split("; ")}
    return found, why


def messages():
    """The messages that the header has a code for."""
    parts = re.findall(r"/\* The codes of \w+\. \*/\nenum \{(.*?)\};", text_of("include/osdp.h"), re.S)
    return [name for part in parts for name in re.findall(r"OSDP_(\w+) = 0x", part)]


def test_of(language, message):
    """What the test of a message does, without its comments."""
    files, head = TESTS[language]
    for file in files:
        found = re.search(head.format(message.lower()) + r"[^\n]*\n(.*?)^\}", bare(text_of(file)), re.S | re.M)
        if found:
            return found[1]
    faults.append(f"{message}: there is no test in {language}")
    return ""


def has_public(name, texts, kinds):
    """Whether a public type, or a variant or call of it, stands in these files."""
    kind, _, member = name.partition("::")
    declared = [text for text in texts if re.search(rf"pub (?:{kinds}) {kind}\b|\bas {kind}\b|^    {kind}, osdp_", text, re.M)]
    if not member:
        return bool(declared)
    variant = re.compile(rf"pub enum {kind}\b[^{{]*\{{(?:[^{{}}]|\{{[^{{}}]*\}})*?\b{member}\b", re.S)
    call = re.compile(rf"pub fn {member}\b")
    return bool(declared) and any(variant.search(text) or (re.search(rf"impl[^\n]*\b{kind}\b", text) and call.search(text)) for text in texts)


def public():
    """Whether a name is public, by language."""
    rattle = [bare(path.read_text()) for path in sorted((TOP / "crates/osdp_msg/src").glob("*.rt"))]
    exported = text_of("crates/osdp_msg/src/lib.rt")
    handed = text_of("crates/osdp_panel/src/lib.rt") + text_of("crates/osdp_device/src/lib.rt")
    rust = [bare(path.read_text()) for path in sorted((TOP / "rust/src").glob("*.rs"))]
    functions, constants, structs = names.header()
    static = set(re.findall(r"^OSDP_CHECKED static inline osdp_status (\w+)\(", text_of("include/osdp.h"), re.M))

    def in_rattle(name):
        kind = name.partition("::")[0]
        listed = all(re.search(rf"\b{kind}\b", where) for where in (exported, handed))
        # the lists of records share one type
        member = name.partition("::")[2]
        return listed and (has_public(name, rattle, "struct|enum|type") or (member == "new" and re.search(rf"pub type {kind}\b", "".join(rattle))))

    return {
        "Rattle": in_rattle,
        "C": lambda name: name in functions or name in constants or name in structs or name in static,
        "Rust": lambda name: bool(re.search(rf"\b{name.partition('::')[0]}\b", text_of("rust/src/lib.rs"))) and has_public(name, rust, "struct|enum|type"),
    }


def check_table():
    found, why = rows()
    is_public = public()
    wanted, there = sorted(messages()), sorted(cells[0] for cells in found)
    if wanted != there:
        faults.append(f"{PAGE}: rows {there}, and messages {wanted}")
    for cells in found:
        for column, cell in zip(COLUMNS[1:], cells[1:], strict=True):
            language = column.partition(",")[0]
            told = re.findall(r"`(?:struct )?([\w:]+)`", cell)
            if cell == "-" and (cells[0], column) in why:
                continue
            if not told:
                faults.append(f"{cells[0]}, {column}: the cell has no name")
            for name in told:
                if language == "C" and not name.startswith("OSDP_") and name.endswith("_of") != column.endswith("read"):
                    faults.append(f"{cells[0]}, {column}: {name} does the other")
                if not is_public[language](name):
                    faults.append(f"{cells[0]}, {column}: {name} isn't public")
                call = name.rpartition("::")[2]
                if not re.search(rf"\b{name}\b" + (rf"|\.{call}\(" if call.islower() else ""), test_of(language, cells[0])):
                    faults.append(f"{cells[0]}, {column}: its test doesn't use {name}")


def check_programs():
    """Programs, and the code of pages, use names."""
    texts = {str(path.relative_to(TOP)): bare(path.read_text()) for pattern in PROGRAMS for path in sorted(TOP.glob(pattern))}
    for page in PAGES:
        texts[page] = bare("\n".join(re.findall(r"^```(?:c|rust)\n(.*?)^```", text_of(page), re.S | re.M)))
    if len(texts) < 10:
        faults.append("programs are not there")
    for name, text in texts.items():
        for line in re.findall(rf"^.*(?:{NUMBERS}).*$", text, re.M):
            faults.append(f"{name}: a number that has a name: {line.strip()}")


def main():
    check_table()
    check_programs()
    for fault in faults:
        print(fault)
    return 1 if faults else 0


if __name__ == "__main__":
    sys.exit(main())
