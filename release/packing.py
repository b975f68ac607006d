"""Makes the packages of a release from a folder in which all is laid out as `./install` puts it in place: Debian packages (`debian.py`), an archive of the files,
and their checksums. The same files give the same bytes."""
import gzip
import hashlib
import io
import os
import re
import runpy
import shutil
import subprocess
import tarfile
from pathlib import Path

DEBIAN = runpy.run_path(str(Path(__file__).resolve().parent / "debian.py"))


class Refused(Exception):
    """There is nothing that packages may be made of; why."""


def said(top, *words):
    """What git says."""
    done = subprocess.run(["git", *words], cwd=top, capture_output=True, text=True)
    if done.returncode:
        raise Refused(f"git {words[0]} fails: packages are made of a commit")
    return done.stdout.strip()


def gate(top):
    """What the last run of .ci/run has left: the commit, whether all has passed, and the last line of its proofs."""
    kept = top / "out/gate"
    lines = kept.read_text().splitlines() if kept.exists() else []
    found = dict(line.split(": ", 1) for line in lines if ": " in line)
    return found.get("commit"), found.get("scripts"), found.get("proofs", "no gate has run")


def statement(top, version, is_trial):
    """The lines that say of what the packages are made. Where that isn't a passed gate of this commit, they are refused, or made for a trial."""
    commit, changed = said(top, "rev-parse", "HEAD"), said(top, "status", "--porcelain", "--untracked-files=no")
    of, scripts, proofs = gate(top)
    kit = re.search(r"^It is proved with `(.*)` \(`rt version`\)\.$", (top / "README.md").read_text(), re.M)[1]
    passed = of == commit and scripts == "passed" and not changed
    if not passed and not is_trial:
        raise Refused("no gate has passed on this commit as it stands: run .ci/run first; nothing was made")
    return (f"osdp {version}\ncommit: {commit}\nmoment: {said(top, 'log', '-1', '--format=%ct')}\nkit: {kit}\n"
            f"gate: {proofs}\nscripts: {'passed' if passed else 'a trial, made before the gate has passed'}\n")


def files_below(folder):
    """The names of all files below a folder, in order."""
    return sorted(str(file.relative_to(folder)) for file in folder.rglob("*") if file.is_file())


def read_all(folder):
    """Each file's bytes and mode."""
    return {name: ((folder / name).read_bytes(), 0o755 if os.access(folder / name, os.X_OK) else 0o644) for name in files_below(folder)}


def owned(entry, moment, mode, kind):
    entry.mtime, entry.mode, entry.type, entry.uname, entry.gname = moment, mode, kind, "root", "root"
    return entry


def write_tar(files, moment):
    """The bytes of a packed tar: each file is a pair of its bytes and its mode, and each folder stands before what is in it."""
    out, seen = io.BytesIO(), set()
    with tarfile.open(fileobj=out, mode="w", format=tarfile.GNU_FORMAT) as tar:
        for name, (data, mode) in sorted(files.items()):
            parts = name.split("/")
            for folder in ("/".join(parts[:at]) for at in range(1, len(parts))):
                if folder not in seen:
                    seen.add(folder)
                    tar.addfile(owned(tarfile.TarInfo(folder), moment, 0o755, tarfile.DIRTYPE))
            entry = owned(tarfile.TarInfo(name), moment, mode, tarfile.REGTYPE)
            entry.size = len(data)
            tar.addfile(entry, io.BytesIO(data))
    return gzip.compress(out.getvalue(), 9, mtime=0)


def pack(work, folder, version, says):
    """Makes the packages in a folder, of what is laid out in `work/all`. The names of what was made."""
    moment = int(re.search(r"^moment: (\d+)$", says, re.M)[1])
    every, root = read_all(work / "all"), f"osdp-{version}"
    made = DEBIAN["build"](work, every, version, says, moment)
    whole = every | {"RELEASE": (says.encode(), 0o644)}
    made[f"{root}-linux-x86_64.tar.gz"] = write_tar({f"{root}/{name}": what for name, what in whole.items()}, moment)
    made["RELEASE"] = says.encode()
    made["SHA256SUMS"] = "".join(f"{hashlib.sha256(data).hexdigest()}  {name}\n" for name, data in sorted(made.items())).encode()
    folder.mkdir(parents=True, exist_ok=True)
    for name, data in made.items():
        (folder / f"{name}.new").write_bytes(data)
        shutil.move(folder / f"{name}.new", folder / name)
    return [str(folder / name) for name in made]
