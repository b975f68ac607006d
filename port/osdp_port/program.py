"""The program `osdp` beside this one: by lines, as `osdp panel` and `osdp reader`, or with a stream of bytes,
as `osdp monitor`."""
import os
import shutil
import signal
import subprocess
import sys
import threading
from pathlib import Path

from .console import STOPS, write_all
from .faults import NO_PROGRAM, Stop

PROGRAM_FAULTS = (2, 3, 4)  # statuses of the program: it has told the fault


def find_program(given=None):
    """The path of `osdp`: as it was given, or beside this program, or on PATH."""
    beside = Path(sys.argv[0]).resolve().parent / "osdp"
    if given and shutil.which(given) is None:
        raise Stop(f"the program can't be started: {given}", NO_PROGRAM)
    path = given or (str(beside) if os.access(beside, os.X_OK) and beside.is_file() else shutil.which("osdp"))
    if path is None:
        raise Stop("the program osdp isn't on PATH: ./install puts it there, or --osdp names it", NO_PROGRAM)
    return path


def start(path, words, **streams):
    """Starts the program. No Ctrl-C reaches it, and no SIGTERM, which a service manager sends to it too: so
    it tells its end once its input is over."""
    pipes = {"stdin": subprocess.PIPE, "stdout": subprocess.PIPE, **streams}
    before = signal.pthread_sigmask(signal.SIG_BLOCK, STOPS)  # it inherits that
    try:
        return subprocess.Popen([path, *words], start_new_session=True, **pipes)
    except OSError:
        raise Stop(f"the program can't be started: {path}", NO_PROGRAM) from None
    finally:
        signal.pthread_sigmask(signal.SIG_SETMASK, before)


def end_of(process):
    """How this program ends since that one has. It has said why where its status is one of its faults."""
    status = process.wait()
    return Stop("", status) if status in PROGRAM_FAULTS else Stop("the program osdp has ended")


class Stream:
    """The program with a stream of bytes or lines: what it prints is read beside, line by line."""

    def __init__(self, path, words, console):
        self.console, self.stop, self.is_ending = console, None, False
        self.process = start(path, words)
        self.thread = threading.Thread(target=self.read, daemon=True)
        self.thread.start()

    def write(self, data):
        try:
            self.console.hands(self.process.stdin.fileno(), data)
        except OSError:
            pass  # it has ended, and its status tells
        except Stop:
            self.process.kill()  # else it tells that its output is closed
            raise

    def read(self):
        """Hands on each line. Where it can't be printed, or no line comes any more, the program ends, as the
        main thread is told."""
        try:
            for text in self.process.stdout:
                if text.endswith(b"\n"):  # else it was killed within the line
                    self.prints(text.decode().rstrip("\n"))
            if not self.is_ending:
                raise end_of(self.process)
        except Stop as stop:
            self.stop = stop
            self.console.wake()

    def ends(self):
        """The input has ended: the last lines come out. The status."""
        self.is_ending = True
        try:
            self.process.stdin.close()
        except OSError:
            pass
        while self.thread.is_alive():
            self.thread.join(0.05)
            if self.console.is_stuck():
                self.process.kill()
                self.console.gives_up()
        if self.stop:
            self.process.kill()
            raise self.stop
        return self.process.wait()


class Lines:
    """`osdp panel` or `osdp reader`: a line is a call, and is answered by lines."""

    def __init__(self, path, words, quiet=False):
        self.process = start(path, words, **({"stderr": subprocess.DEVNULL} if quiet else {}))

    def call(self, line):
        """Hands it one line. The lines of its answer; the last of them begins with `due` or `waiting`."""
        answer = []
        # so that the program isn't left in the middle of an answer
        signal.pthread_sigmask(signal.SIG_BLOCK, STOPS)
        try:
            write_all(self.process.stdin.fileno(), line.encode() + b"\n")
        except OSError:
            pass  # it has ended, and its output ends too
        try:
            while not answer or not answer[-1].startswith(("due ", "waiting ")):
                text = self.process.stdout.readline()
                if not text.endswith(b"\n"):  # no line, or a part of one
                    self.ended()
                answer.append(text.decode().rstrip("\n"))
        finally:
            signal.pthread_sigmask(signal.SIG_UNBLOCK, STOPS)
        return answer

    def ended(self):
        raise end_of(self.process)

    def close(self):
        self.process.stdin.close()
        self.process.stdout.close()
        self.process.wait()
