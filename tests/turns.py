#!/usr/bin/env python3
"""Holds the picture of turns in docs/PROTOCOL.md to a run of `sim`. Takes the path of the program.

The picture shows the steps of `examples/turns.script` after its sessions are open. After each answer that it shows the account of the
reader that it names tells one line more, what the answer settles or reports, and no other account has changed; a BUSY tells nothing."""
import pathlib
import re
import subprocess
import sys

TOP = pathlib.Path(__file__).resolve().parent.parent
SCRIPT = (TOP / "examples/turns.script").read_text().splitlines()
READERS = ["first", "second", "third"]
OPENED = SCRIPT.index("wait 50")


def accounts(steps):
    """The lines that the account of each reader tells, after the first so many lines of the script."""
    done = subprocess.run([sys.argv[1], "sim"], input="\n".join(SCRIPT[:steps]) + "\n", capture_output=True, text=True, check=True)
    told = [part.splitlines()[1:] for part in re.split(r"^(?=reader )", done.stdout, flags=re.M) if part]
    if len(told) != len(READERS):
        sys.exit(f"turns: {len(told)} accounts")
    return told


def drawn():
    """The lines of the picture after the participants."""
    text = (TOP / "docs/PROTOCOL.md").read_text()
    picture = re.search(r"^From `examples/turns\.script`:\n\n```mermaid\n(.*?)```$", text, re.M | re.S)
    if not picture:
        sys.exit("turns: docs/PROTOCOL.md has no picture of turns")
    return [line.strip() for line in picture[1].splitlines() if not re.match(r"sequenceDiagram| *participant", line)]


def taken(at, word):
    """Goes past the step that the script has at this line."""
    if at >= len(SCRIPT) or SCRIPT[at] != word:
        sys.exit(f"turns: line {at + 1} of the script is not `{word}`, as the picture shows")
    return at + 1


def new_lines(before, after, name, asked, answer):
    """What the answer adds to the accounts, against what the picture says of it."""
    wanted = [[] for _ in READERS]
    if answer != "BUSY":
        told = f"settled {asked} = {answer}" if asked != "POLL" else f"reported {answer}"
        wanted[READERS.index(name)] = [told]
    found = [[line for line in new if line not in old and not line.startswith("taken ")] for old, new in zip(before, after)]
    if found != wanted:
        sys.exit(f"turns: after {answer} of the {name} reader the accounts tell {found} more, and not {wanted}")


def walk():
    """Follows the picture through the script."""
    at, asked, paused = OPENED, None, None
    before = accounts(at)
    for line in drawn():
        if note := re.match(r"Note over panel: .*?(\d+) ms", line):
            paused = note[1]
        elif busy := re.match(r"Note over (\w+): busy (on|off)", line):
            at = taken(at, f"busy {READERS.index(busy[1]) + 1} {busy[2]}")
        elif send := re.match(r"panel->>(\w+): (.*)", line):
            at = taken(taken(at, f"wait {paused or 0}"), "to-reader deliver")
            asked, paused = send[2], None
        elif reply := re.match(r"(\w+)-->>panel: (.*)", line):
            at = taken(at, "to-controller deliver")
            after = accounts(at)
            new_lines(before, after, reply[1], asked, reply[2])
            before = after
        else:
            sys.exit(f"turns: the picture's line cannot be read: {line}")
    if at != len(SCRIPT):
        sys.exit("turns: the script goes on after the picture's end")


walk()
