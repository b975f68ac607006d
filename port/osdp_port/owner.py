"""Which other programs have a port open, as far as this user may see."""
import os

from .faults import shown


def holders(path):
    """A text for each program that has the file open: its name and its number."""
    return [text for text, _ in found_holders(path)]


def others(path):
    """Those of them that may take bytes from a port. The one that is at the other end of a pseudo terminal
    isn't one of these, though it has this end open too."""
    is_pseudo = os.path.realpath(path).startswith("/dev/pts/")
    return [text for text, has_other_end in found_holders(path) if not (is_pseudo and has_other_end)]


def found_holders(path):
    """The text of each program that has the file open, and whether it has the other end of a pseudo
    terminal."""
    real, found = os.path.realpath(path), []
    for process in os.listdir("/proc") if os.path.isdir("/proc") else ():
        if not process.isdecimal() or int(process) == os.getpid():
            continue
        folder = f"/proc/{process}/fd"
        try:
            links = {link_of(f"{folder}/{each}") for each in os.listdir(folder)}
        except OSError:
            continue  # it has ended, or is another user's
        if real in links:
            found.append(
                (f"{name_of(process)} (process {process})", bool({"/dev/ptmx", "/dev/pts/ptmx"} & links))
            )
    return found


def link_of(path):
    try:
        return os.readlink(path)
    except OSError:
        return None


def name_of(process):
    """The words that a program was called by, shortened."""
    try:
        with open(f"/proc/{process}/cmdline", "rb") as file:
            words = shown(file.read().replace(b"\0", b" ").decode(errors="replace").strip())
        return words if len(words) <= 80 else words[:77] + "..."
    except OSError:
        return "a program"
