"""Puts files in place below a folder, all or none of them, and takes them away again. A manifest there says which files these are.

While they are put in place no other run works there, Ctrl-C comes too late, and where something fails, what was there before is put back. A loss of power in
these moments may leave some of the new files beside old ones; the next run mends that."""
import contextlib
import fcntl
import hashlib
import os
import shutil
import signal
import tempfile
from pathlib import Path

MANIFEST = "share/osdp/MANIFEST"
WORK = ".osdp-install-"
WAIT = {signal.SIGINT, signal.SIGTERM, signal.SIGHUP, signal.SIGQUIT}


class Refused(Exception):
    """Nothing was changed; why."""


def nearest(folder):
    """The folder itself, or the first above it that is there."""
    while not folder.exists():
        folder = folder.parent
    return folder


def writable(folder):
    """Ends where nothing can be put below a folder."""
    there = nearest(folder)
    if not there.is_dir():
        raise Refused(f"{there} is no folder: nothing can be put in place below it")
    if not os.access(there, os.W_OK | os.X_OK):
        raise Refused(f"{there} can't be written: take a folder of your own by --prefix, or run this as its owner")


@contextlib.contextmanager
def locked(folder):
    """No other run works below the folder meanwhile."""
    held = os.open(folder, os.O_RDONLY | os.O_DIRECTORY)
    try:
        fcntl.flock(held, fcntl.LOCK_EX | fcntl.LOCK_NB)
    except BlockingIOError:
        os.close(held)
        raise Refused(f"another run is at work below {folder}") from None
    try:
        yield
    finally:
        os.close(held)


@contextlib.contextmanager
def undisturbed():
    """Signals that would end this come too late: what was begun is done."""
    before = signal.pthread_sigmask(signal.SIG_BLOCK, WAIT)
    try:
        yield
    finally:
        while late := signal.sigpending() & WAIT:
            signal.sigwait(late)
        signal.pthread_sigmask(signal.SIG_SETMASK, before)


def digest(file):
    return hashlib.sha256(file.read_bytes()).hexdigest()


def kept_in(folder):
    """What the manifest names: the files with their digests, and the folders that were made for them."""
    manifest, files, folders = folder / MANIFEST, {}, []
    for line in manifest.read_text().splitlines() if manifest.exists() else ():
        kind, _, rest = line.partition(" ")
        if kind == "folder":
            folders.append(rest)
        elif kind == "file":
            files[rest[65:]] = rest[:64]
    return files, folders


def is_as_put(folder, name, known):
    """Whether a file is there as it was put there."""
    return (folder / name).is_file() and digest(folder / name) == known


def made_folders(folder):
    """Makes a folder and those above it that aren't there, with a mode that goes by nobody's umask. Which ones, the highest first."""
    if folder.exists():
        return []
    made = made_folders(folder.parent)
    folder.mkdir()
    folder.chmod(0o755)
    return [*made, folder]


class Change:
    """What a run has changed so far, so that it can be taken back."""

    def __init__(self, folder, work):
        self.folder, self.work, self.moved, self.placed, self.made = folder, work, [], [], []

    def take_away(self, name):
        """A file goes, but is kept for now."""
        if os.path.lexists(self.folder / name):
            away = self.work / f"old-{len(self.moved)}"
            os.rename(self.folder / name, away)
            self.moved.append((name, away))

    def make_folders(self, folder):
        """A folder and those above it that aren't there."""
        self.made += (str(made.relative_to(self.folder)) for made in made_folders(folder))

    def put(self, file, name):
        """A file comes to its place."""
        self.make_folders((self.folder / name).parent)
        self.take_away(name)
        os.rename(file, self.folder / name)
        self.placed.append(name)

    def take_back(self):
        """All is as it was before."""
        for name in reversed(self.placed):
            (self.folder / name).unlink()
        for name, away in reversed(self.moved):
            os.rename(away, self.folder / name)
        for name in reversed(self.made):
            (self.folder / name).rmdir()


def manifest_of(files, folders):
    lines = [f"file {known} {name}" for name, known in sorted(files.items())]
    return "\n".join([*lines, *(f"folder {name}" for name in folders)]) + "\n"


def copied(source, target):
    """Copies all files below a folder, each with its mode, whatever the caller's umask is. Their digests, by their names."""
    found = {}
    for file in sorted(it for it in source.rglob("*") if it.is_file()):
        name = str(file.relative_to(source))
        (target / name).parent.mkdir(parents=True, exist_ok=True)
        shutil.copyfile(file, target / name)
        (target / name).chmod(0o755 if os.access(file, os.X_OK) else 0o644)
        found[name] = digest(file)
    return found


def exchange(change, new, files, known):
    """Files of an earlier run that aren't any more go, unless somebody changed them, and the new ones come. The folders that are to be remembered."""
    earlier, folders = known
    for name, before in earlier.items():
        if name not in files and is_as_put(change.folder, name, before):
            change.take_away(name)
    for name in files:
        change.put(new / name, name)
    change.make_folders((change.folder / MANIFEST).parent)
    remembered = [*folders, *(name for name in change.made if name not in folders)]
    (new / "manifest").write_text(manifest_of(files, remembered))
    (new / "manifest").chmod(0o644)
    change.put(new / "manifest", MANIFEST)


@contextlib.contextmanager
def workplace(folder):
    """A folder of work on the same disk, since only there a file comes to its place in one step. What a run that was killed left is taken away."""
    for left in folder.glob(f"{WORK}*"):
        shutil.rmtree(left)
    with tempfile.TemporaryDirectory(prefix=WORK, dir=folder) as work:
        yield work


def put(source, folder):
    """Puts all files below `source` in place below `folder`: all, or none."""
    writable(folder)
    made_folders(folder)
    with locked(folder), workplace(folder) as work:
        new = Path(work) / "new"
        files = copied(source, new)
        with undisturbed():
            change = Change(folder, Path(work))
            try:
                exchange(change, new, files, kept_in(folder))
            except OSError:
                change.take_back()
                raise


def remove(folder):
    """Takes away what was put in place. What somebody changed since stays, and is told."""
    if not (folder / MANIFEST).exists():
        raise Refused(f"nothing was put in place below {folder}: {folder / MANIFEST} isn't there")
    with locked(folder), undisturbed():
        files, folders = kept_in(folder)
        changed = [name for name, known in files.items() if os.path.lexists(folder / name) and not is_as_put(folder, name, known)]
        for name in files:
            if name not in changed:
                (folder / name).unlink(missing_ok=True)
        (folder / MANIFEST).unlink()
        for name in reversed(folders):
            with contextlib.suppress(OSError):
                (folder / name).rmdir()
    return changed
