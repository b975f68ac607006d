#!/usr/bin/env python3
"""How `./install` puts files in place (release/placing.py): at Ctrl-C, and where a step fails, all is there or nothing has changed; modes go by nobody's
umask; a second run waits for nobody and is refused; what an earlier version had goes with it; and `remove` leaves what somebody changed."""
import os
import runpy
import signal
import sys
import tempfile
from pathlib import Path

TOP = Path(__file__).resolve().parent.parent
PLACING = runpy.run_path(str(TOP / "release/placing.py"))
SPACE = PLACING["put"].__globals__
OLD = {"bin/one": "old one", "share/osdp/two": "old two", "lib/gone": "old three"}
NEW = {"bin/one": "new one", "share/osdp/two": "new two", "include/four": "new four", "share/doc/a/five": "new five"}
faults = []


def tell(what, wanted, got):
    if wanted != got:
        faults.append(f"{what}: {got!r}, and not {wanted!r}")


def write(folder, files):
    for name, text in files.items():
        (folder / name).parent.mkdir(parents=True, exist_ok=True)
        (folder / name).write_text(text)
        (folder / name).chmod(0o755 if name.startswith("bin/") else 0o600)
    return folder


def read(folder):
    """What is there, but for the manifest."""
    return {str(it.relative_to(folder)): it.read_text() for it in folder.rglob("*") if it.is_file() and it.name != "MANIFEST"}


def modes(folder):
    return {str(it.relative_to(folder)): oct(it.stat().st_mode & 0o777) for it in folder.rglob("*") if it.is_file() or it.is_dir()}


def made(work):
    """Both versions as they are laid out, and a place where the old one is, beside a file of somebody else."""
    old, new, there = write(work / "old", OLD), write(work / "new", NEW), work / "there"
    PLACING["put"](old, there)
    write(there, {"bin/others": "not ours"})
    return new, there


class Hooked:
    """The module os, whose n-th renaming does something before."""

    def __init__(self, at, does):
        self.left, self.does = at, does

    def __getattr__(self, name):
        return getattr(os, name)

    def rename(self, source, target):
        self.left -= 1
        if self.left == 0:
            self.does()
        os.rename(source, target)


def fails():
    raise OSError(28, "No space left on device", "somewhere")


def puts_with(work, at, does):
    """Puts the new version in place, with something at a renaming. How it ended, and what is there then."""
    new, there = made(work)
    SPACE["os"] = Hooked(at, does)
    try:
        PLACING["put"](new, there)
        ended = "well"
    except (OSError, KeyboardInterrupt) as why:
        ended = type(why).__name__
    finally:
        SPACE["os"] = os
    return ended, read(there)


def judge_interruptions():
    others = {"bin/others": "not ours"}
    for at in range(1, 12):
        with tempfile.TemporaryDirectory() as work:
            ended, there = puts_with(Path(work), at, lambda: os.kill(os.getpid(), signal.SIGINT))
            tell(f"Ctrl-C at renaming {at}", ("well", NEW | others), (ended, there))
        with tempfile.TemporaryDirectory() as work:
            ended, there = puts_with(Path(work), at, fails)
            wanted = ("OSError", OLD | others) if at <= 9 else ("well", NEW | others)
            tell(f"a failure at renaming {at}", wanted, (ended, there))


def judge_modes():
    with tempfile.TemporaryDirectory() as work:
        before = os.umask(0o077)
        try:
            PLACING["put"](write(Path(work) / "new", NEW), Path(work) / "a/there")
        finally:
            os.umask(before)
        there = Path(work) / "a/there"
        wanted = {name: "0o755" for name in ("bin", "share", "share/osdp", "share/doc", "share/doc/a", "include", "bin/one")}
        wanted |= {name: "0o644" for name in NEW if name != "bin/one"} | {"share/osdp/MANIFEST": "0o644"}
        tell("modes", wanted, modes(there))
        tell("the modes of the folder itself", ["0o755", "0o755"], [oct(it.stat().st_mode & 0o777) for it in (there, there.parent)])


def refused(what, words, does):
    try:
        does()
        faults.append(f"{what} is not refused")
    except PLACING["Refused"] as why:
        tell(what, True, words in str(why))


def judge_refusals():
    with tempfile.TemporaryDirectory() as work:
        new, there = made(Path(work))
        with PLACING["locked"](there):
            refused("a second run", "another run is at work", lambda: PLACING["put"](new, there))
        tell("what a second run leaves", OLD | {"bin/others": "not ours"}, read(there))
        (Path(work) / "file").write_text("")
        refused("a file in place of a folder", "is no folder", lambda: PLACING["writable"](Path(work) / "file/below"))
        refused("to remove what isn't there", "nothing was put in place", lambda: PLACING["remove"](Path(work) / "nowhere"))


def judge_removing():
    with tempfile.TemporaryDirectory() as work:
        new, there = made(Path(work))
        PLACING["put"](new, there)
        tell("after an upgrade", NEW | {"bin/others": "not ours"}, read(there))
        tell("folders after an upgrade", False, (there / ".osdp-install-").exists())
        (there / "include/four").write_text("mine")
        (there / ".osdp-install-killed").mkdir()
        PLACING["put"](write(Path(work) / "less", {"bin/one": "new one"}), there)
        tell("what was changed stays", {"bin/one": "new one", "include/four": "mine", "bin/others": "not ours"}, read(there))
        tell("what a killed run left goes", [], [it.name for it in there.glob(".osdp*")])
        (there / "bin/one").write_text("mine too")
        tell("what is told as changed", ["bin/one"], PLACING["remove"](there))
        tell("what is left", {"bin/one": "mine too", "include/four": "mine", "bin/others": "not ours"}, read(there))
        tell("folders that are left", {"bin", "include"}, {it.name for it in there.rglob("*") if it.is_dir()} - {"lib"})


if __name__ == "__main__":
    judge_interruptions(), judge_modes(), judge_refusals(), judge_removing()
    print(f"placing: {len(faults)} faults", *faults, sep="\n")
    sys.exit(1 if faults else 0)
