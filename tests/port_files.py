"""The files of `osdp-port`: a full disk, files that other programs change or move, two panels or readers with one file, and words that a file contradicts. Takes the path
of `osdp`, and the parts to run; all of them without."""
import os
import resource
import signal
import subprocess
import sys
import tempfile
import time
from pathlib import Path

import port_line
import stores
from port_line import PANEL, PORT, Line, asks, faults, opened, tells
import simulated  # noqa: F401
from terminals import Terminal

from osdp_port.faults import Stop
from osdp_port.keep import PanelPlaces, ReaderPlace
from osdp_port.owner import holders
from osdp_port.store import DO
from osdp_port.trace import Trace, begun


def ends(*words, stdin=subprocess.DEVNULL):
    """The command, once it has ended."""
    return subprocess.run([PORT, "--plain", "--osdp", port_line.osdp, *map(str, words)], capture_output=True, text=True, timeout=120, stdin=stdin)


def full_disk():
    """A trace on a full disk: the verdict on the device comes out all the same, the file is named, and the status is 3. So it is of a panel that goes on without."""
    with tempfile.TemporaryDirectory() as folder:
        script = Path(folder) / "script"
        script.write_text("device 5\nsend ID 0\nexpect PDID\n")
        for words in (["device", 5], ["script", script]):
            terminal = Terminal()
            done = ends("--trace", "/dev/full", terminal.path, 9600, "test", *words)
            asks(done.returncode == 3 and done.stdout and "can't be written: /dev/full: No space left on device" in done.stderr and "Traceback" not in done.stderr,
                 f"full disk: {words}: {done}")
            terminal.close()
    with Line() as line:
        line.reader(0, 5)
        panel = line.panel("5", *PANEL, options=["--trace", "/dev/full"], stderr=subprocess.PIPE)
        asks(line.run(opened(panel, 5)), f"full disk: the session doesn't open: {panel.lines}")
        status, said = line.stops(panel), panel.process.stderr.read().decode()
        asks(status == 3 and "the trace can't be written, and ends: /dev/full: No space left on device" in said, f"full disk: a panel: {status}, {said}")


def moved_trace():
    """A trace that another program puts aside, or removes, is begun anew under its name."""
    with tempfile.TemporaryDirectory() as folder:
        path, said = Path(folder) / "trace", []
        trace = Trace(str(path), 1000000, said.append, rate=lambda: 9600)
        trace.takes(0, "in", b"\1")
        path.rename(f"{path}.old")
        trace.takes(0, "in", b"\2")
        asks(path.exists() and path.read_text().endswith("in\n02\n") and path.read_text().startswith("# rate 9600\n"), f"moved trace: {os.listdir(folder)}")
        asks(Path(f"{path}.old").read_text().endswith("in\n01\n"), "moved trace: the old one has more")
        path.unlink()
        trace.takes(0, "in", b"\3")
        trace.ended()
        asks(path.exists() and path.read_text().endswith("in\n03\n") and not said, f"moved trace: removed, and {said}")


def files_of_lines():
    """A panel's store names its port: a panel at another port is refused, one at the same port by a link starts, and a store without a name gets it."""
    with tempfile.TemporaryDirectory() as folder, Line() as line, Line() as other:
        keep, link = Path(folder) / "places", Path(folder) / "link"
        link.symlink_to(line.panel_end.path)
        stores.write(keep, "5 at 5 9600")
        line.reader(0, 5)
        for path in (line.panel_end.path, str(link)):
            line.panel_end.path = path
            panel = line.panel("5", *PANEL, options=["--keep", keep])
            is_kept = lambda path=path: stores.rows(keep, "SELECT line FROM store") == [(path,)] and "5 at 5 9600 is" in stores.text(keep)
            asks(line.run(is_kept), f"files of lines: {panel.lines}, {stores.text(keep)!r}")
            line.stops(panel)
        done = ends("--keep", keep, other.panel_end.path, 9600, "panel", "5")
        said = f"{keep} is of the line at {link}, and not of {other.panel_end.path}: name another file"
        asks(done.returncode == 3 and said in done.stderr and stores.rows(keep, "SELECT line FROM store") == [(str(link),)], f"files of lines: {done}")


def strange_ports():
    """A port of any name is known again by its store."""
    with tempfile.TemporaryDirectory() as folder:
        for at, port in enumerate(("/dev/serial/by-id/usb-a\\x2fb c", "/dev/t\u00fc\n5 at 6 9600", "relative", "rfc2217://host:4001?timeout=3", "it's; DROP TABLE store")):
            kept = PanelPlaces(f"{folder}/{at}", port, is_new=True)
            asks(kept.read() == {} and kept.begins() is None, f"strange ports: {port!r} isn't kept")
            kept.close()
            again = PanelPlaces(kept.path, port)
            asks(again.read() == {}, f"strange ports: {port!r} is another one")
            again.close()
            other = PanelPlaces(kept.path, f"{port}2")
            try:
                other.read()
                asks(False, f"strange ports: {port!r} is taken for {port}2")
            except Stop as stop:
                asks(f"{kept.path} is of the line at " in stop.why, f"strange ports: {stop.why}")
            other.close()


def unwritten_file():
    """A panel whose store can't be written tells so once, and takes no COMSET. What the store had before stays. Once it can be written the panel takes a COMSET."""
    with tempfile.TemporaryDirectory() as folder, Line() as line:
        keep = Path(folder) / "places"
        stores.write(keep, "5 at 5 9600")
        line.reader(0, 5)
        panel = line.panel("5", *PANEL, options=["--keep", keep], stderr=subprocess.DEVNULL, preexec_fn=lambda: signal.signal(signal.SIGXFSZ, signal.SIG_IGN))
        asks(line.run(opened(panel, 5)), f"unwritten file: the session doesn't open: {panel.lines}")
        asks(line.run(lambda: "is 53494D" in stores.text(keep)), "unwritten file: the device isn't kept")
        before = resource.prlimit(panel.process.pid, resource.RLIMIT_FSIZE, (0, resource.RLIM_INFINITY))
        panel.say("5 on\n5 off\n5 move 7")
        why = f"the store {keep} can't be written: disk I/O error"
        asks(line.run(tells(panel, f"not taken 5 COMSET 7 9600: the new place must be kept first, and {why}")), f"unwritten file: {panel.lines[-3:]}")
        line.run(tells(panel, "settled 5 OUT", 2))
        asks(panel.lines.count(f"not kept: {why}") == 1 and stores.text(keep) == "5 at 5 9600 is 53494D 1 0\n", f"unwritten file: {panel.lines}, {stores.text(keep)!r}")
        resource.prlimit(panel.process.pid, resource.RLIMIT_FSIZE, before)
        panel.say("5 move 7")
        asks(line.run(opened(panel, 7)) and stores.text(keep) == "5 at 7 9600 is 53494D 1 0\n", f"unwritten file: {panel.lines[-3:]}, {stores.text(keep)!r}")
        asks(line.stops(panel) != 3, "unwritten file: it ends as if nothing was kept")


def linked_file():
    """A store that is named by a link is refused. One in a folder that is named by a link isn't."""
    with tempfile.TemporaryDirectory() as folder:
        (Path(folder) / "far").mkdir()
        far, keep, near = Path(folder) / "far/place", Path(folder) / "place", Path(folder) / "near"
        stores.write(far, role="device")
        keep.symlink_to(far)
        near.symlink_to(Path(folder) / "far")
        asks(why_not(lambda: ReaderPlace(str(keep)).read()) == f"{keep} is a symbolic link: name the file itself", "linked file: it is followed")
        through = ReaderPlace(str(near / "place"))
        asks(through.read() is None and through.begins(7, 19200) is None and stores.text(far) == "7 at 7 19200\n", f"linked file: {stores.text(far)!r}")
        through.close()


def why_not(does):
    """Why the program would end by this; none where it wouldn't."""
    try:
        does()
    except Stop as stop:
        return stop.why
    return None


def two_programs():
    """The store of a program that runs is refused to a second one, of any kind. After its end it isn't."""
    with tempfile.TemporaryDirectory() as folder:
        keep, terminal = Path(folder) / "place", Terminal()
        first = ReaderPlace(str(keep), is_new=True)
        asks(first.read() is None and first.begins(5, 9600) is None, "two programs: a new store isn't kept")
        done = ends("--keep", keep, terminal.path, 9600, "reader", 5)
        asks(done.returncode == 3 and done.stderr.endswith(f"another program has the store {keep}\n"), f"two programs: {done}")
        asks(first.keep("7 19200") is None and stores.text(keep) == "5 at 7 19200\n", "two programs: the first one writes no more")
        first.close()
        done = ends("--keep", keep, terminal.path, 9600, "panel", 5)
        asks(done.returncode == 3 and f"{keep} is the store of a device, and not of a panel: name another file" in done.stderr, f"two programs: {done}")
        done = ends("--keep", keep, "--new", terminal.path, 9600, "reader", 5)
        asks(done.returncode == 3 and f"there is a store already: {keep}. Start without --new" in done.stderr, f"two programs: {done}")
        done = ends("--keep", f"{keep}2", terminal.path, 9600, "reader", 5)
        asks(done.returncode == 3 and f"there is no store at {keep}2. Bring back a copy of it" in done.stderr and not Path(f"{keep}2").exists(), f"two programs: {done}")
        terminal.close()


def kept_rate():
    """A file with a rate that the port hasn't is named."""
    with tempfile.TemporaryDirectory() as folder:
        terminal, kept = Terminal(), Path(folder) / "kept"
        for command, role in (("panel", "panel"), ("reader", "device")):
            kept.unlink(missing_ok=True)
            stores.write(kept, "5 at 5 12345", role=role)
            done = ends("--keep", kept, terminal.path, 9600, command, 5)
            asks(done.returncode == 3 and f"{terminal.path} has no rate 12345" in done.stderr and f"the rate is that of {kept}" in done.stderr, f"kept rate: {done}")
        terminal.close()


def address_twice():
    """A reader's address is its fourth word: as a setting it is refused, and named."""
    terminal = Terminal()
    for words, at in ((["address", "7"], 5), (["gap", "20", "address", "5"], 7)):
        done = ends(terminal.path, 9600, "reader", 5, *words)
        asks(done.returncode == 2 and f"word {at}, address: word 4 says it" in done.stderr, f"address twice: {done}")
    terminal.close()


def cut_files():
    """A store that is empty, cut at any page or within one, or has a page of another file, is refused, with what to do: a panel would open the wrong door."""
    with tempfile.TemporaryDirectory() as folder:
        whole, keep = Path(folder) / "whole", Path(folder) / "places"
        stores.write(whole, "5 at 6 9600 is 53494D 1 1", "6 at 5 9600 or 7 19200 is 53494D 1 2")
        stores.rows(whole, "PRAGMA wal_checkpoint(TRUNCATE)")
        data = whole.read_bytes()
        asks(len(data) > 8 * 4096, f"cut files: a store has {len(data)} bytes")
        refused, cuts = 0, [data[:length] for length in (0, 1, 15, 16, 99, 100, *range(512, len(data), 512))] + [data[:at] + bytes(4096) + data[at + 4096:] for at in range(0, len(data), 4096)]
        for each in cuts:
            keep.write_bytes(each)
            places, lines = PanelPlaces(str(keep), "/dev/line"), None
            why = why_not(places.read)
            if why is None:  # nothing stood in what was cut
                places.close()
                lines = stores.text(keep)
            asks(lines == stores.text(whole) if why is None else str(keep) in why and DO in why, f"cut files: {len(each)} bytes: {why}, {lines!r}")
            refused += why is not None
        asks(refused > len(cuts) - 9, f"cut files: {refused} of {len(cuts)} are refused")
        keep.write_bytes(b"")
        terminal = Terminal()
        done = ends("--keep", keep, terminal.path, 9600, "panel", "5,6")
        asks(done.returncode == 3 and f"{keep} has 0 bytes, and is no store. Bring back a copy" in done.stderr, f"cut files: {done}")
        terminal.close()


def links_beside():
    """A link with a name beside the store's is not followed: what it leads to stays."""
    with tempfile.TemporaryDirectory() as folder:
        other = Path(folder) / "other"
        for end in (".new", "-wal", "-shm", ".new-wal", ".new-journal"):
            path = Path(folder) / f"place{end}"
            other.write_text("another file\n")
            Path(f"{path}{end}").symlink_to(other)
            place = ReaderPlace(str(path), is_new=True)
            why = why_not(place.read) or place.begins(7, 19200)
            asks((why is None) == (end in (".new", ".new-journal")) and other.read_text() == "another file\n", f"links beside: {end}: {why}, {other.read_text()!r}")


def private_files():
    """Traces, lines of a test and stores that are made are read by their user alone. A store that others may read is theirs no more."""
    with tempfile.TemporaryDirectory() as folder:
        before = os.umask(0o022)
        Trace(f"{folder}/trace", 1, lambda line: None).takes(0, "in", b"A")
        begun(f"{folder}/test").close()
        stores.write(f"{folder}/panel")
        Path(f"{folder}/panel").chmod(0o644)
        places = [ReaderPlace(f"{folder}/reader", is_new=True), PanelPlaces(f"{folder}/panel", "/dev/line")]
        asks(places[0].read() is None and places[0].begins(7, 19200) is None and places[1].read() == {} and places[1].begins() is None, "private files: nothing is kept")
        os.umask(before)
        modes = {path.name: f"{path.stat().st_mode & 0o777:o}" for path in Path(folder).iterdir()}
        asks({"trace", "test", "reader", "panel", "reader-wal", "panel-wal"} <= set(modes) and set(modes.values()) == {"600"}, f"private files: {modes}")
        for each in places:
            each.close()


def escapes():
    """The words of another user's program do nothing to the terminal: each control character is shown as such. So it is of each text that is printed."""
    terminal = Terminal()
    words = ["-c", "input()", "\x1b]0;title\x07\x1b[31mred\x9b\u202eright"]
    other = subprocess.Popen([sys.executable, *words], stdin=subprocess.PIPE, stdout=terminal.other, env={**os.environ, "LC_ALL": "C.UTF-8"})
    time.sleep(0.5)
    found = [each for each in holders(terminal.path) if f"(process {other.pid})" in each]
    asks(found and found[0].isprintable() and "\\x1b[31mred\\x9b\\u202eright" in found[0], f"escapes: {found}")
    done = ends(terminal.path + "\x1b[31m", 9600, "show")
    asks(done.returncode == 3 and "\x1b" not in done.stdout + done.stderr and "\\x1b[31m" in done.stderr, f"escapes: {done}")
    other.kill()
    other.wait()
    terminal.close()


PARTS = (cut_files, links_beside, private_files, escapes, full_disk, moved_trace, files_of_lines, strange_ports, unwritten_file, linked_file, two_programs, kept_rate, address_twice)


def main(path, *names):
    port_line.osdp = path
    begun = time.monotonic()
    for part in PARTS:
        if not names or part.__name__ in names:
            part()
    print(f"port files: {len(faults)} faults in {time.monotonic() - begun:.1f} s", *faults[:40], sep="\n")
    return 1 if faults else 0


if __name__ == "__main__":
    sys.exit(main(*sys.argv[1:]))
