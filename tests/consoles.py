#!/usr/bin/env python3
"""Runs what the pages show of the program. Takes the path of `osdp`.

A block of a page that is marked `console` is a run at the top of the repository: a line that begins with "$ " is a command, and the lines after
it are what it prints. Its status is 1 where these lines show a refusal, or an accusation of `monitor`, 2 to 4 where they show a fault, and 0 else. A page's
block marked `sh` is not run, and the page says so: the words "not run" stand in the block or in the paragraph above it. README's blocks that call `rt` or `bash .ci/run` are the gate itself, and need not say so."""
import os
import re
import subprocess
import sys
from pathlib import Path

TOP = Path(__file__).resolve().parent.parent
BLOCK = re.compile(r"((?:[^\n]+\n)*)\n?```(console|sh)\n(.*?)^```$", re.M | re.S)
faults = 0


def commands(text):
    """Each command of a block, and what it is to print."""
    for part in re.split(r"^\$ ", text, flags=re.M)[1:]:
        command, _, wanted = part.partition("\n")
        yield command, wanted


def statuses(wanted):
    """The statuses that a command may end with that prints this, as the manual pages have them."""
    if re.search(r"^osdp\w*: ", wanted, re.M):
        return (2, 3, 4)
    return (1,) if re.search(r"\brefused (F[1-4]|M[23])\b|\baccused [1-9]|^nothing was judged$", wanted, re.M) else (0,)


def tell(page, what, wanted="", got=""):
    """Prints a disagreement."""
    global faults
    faults += 1
    print(f"{page}: {what}\nwanted: {wanted!r}\nis: {got!r}")


def judge_page(page, environment):
    """Runs the blocks of one page. How many commands there were."""
    count = 0
    for above, kind, text in BLOCK.findall((TOP / page).read_text()):
        if kind == "sh":
            if "not run" not in " ".join((above + text).lower().split()) and not re.search(r"\brt |\.ci/run|must-fail", text):
                tell(page, f"a block that is not run doesn't say so: {text.splitlines()[0]}")
            continue
        for command, wanted in commands(text):
            done = subprocess.run(["bash", "-c", command], cwd=TOP, env=environment, capture_output=True, text=True, timeout=60)
            count += 1
            if done.stdout + done.stderr != wanted:
                tell(page, command, wanted, done.stdout + done.stderr)
            if done.returncode not in statuses(wanted):
                tell(page, f"the status of {command}", statuses(wanted), done.returncode)
    return count


if __name__ == "__main__":
    folder = Path(sys.argv[1]).resolve().parent
    paths = {**os.environ, "PATH": f"{folder}:{os.environ['PATH']}"}
    pages = ["README.md", "c/README.md", "examples/README.md", "rust/README.md"] + sorted(str(file.relative_to(TOP)) for file in (TOP / "docs").glob("*.md"))
    run = sum(judge_page(page, paths) for page in pages)
    print(f"consoles: {run} commands, {faults} faults")
    sys.exit(1 if faults or run == 0 else 0)
