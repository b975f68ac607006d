"""The program `osdp` beside an example: `osdp panel` or `osdp reader`, which speaks lines."""
import signal
import subprocess

from lines import NO_PROGRAM, STOPS, stop


class Program:
    """`osdp panel` or `osdp reader`, with its settings, some before and some after these. A first word with a `/` is the path of the program."""

    def __init__(self, name, words, first=(), last=()):
        path, words = (words[0], words[1:]) if words and "/" in words[0] else ("osdp", words)
        try:
            self.process = subprocess.Popen([path, name, *first, *words, *last], stdin=subprocess.PIPE, stdout=subprocess.PIPE, start_new_session=True)
        except OSError:
            stop(f"the program can't be started: {path}", NO_PROGRAM)

    def call(self, line):
        """Hands it one line. The lines of its answer; the last of them begins with `due` or `waiting`."""
        answer = []
        signal.pthread_sigmask(signal.SIG_BLOCK, STOPS)  # so that the program isn't left in the middle of an answer
        try:
            self.process.stdin.write(line.encode() + b"\n")
            self.process.stdin.flush()
        except OSError:
            pass  # it has ended, and its output ends too
        while not answer or not answer[-1].startswith(("due ", "waiting ")):
            text = self.process.stdout.readline()
            if not text:  # it has told why, where its status is one of its faults
                status = self.process.wait()
                raise SystemExit(status) if status in (2, 3, 4) else stop("the program has ended")
            answer.append(text.decode().rstrip("\n"))
        signal.pthread_sigmask(signal.SIG_UNBLOCK, STOPS)
        return answer
