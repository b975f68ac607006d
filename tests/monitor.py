"""Listens to live lines by `monitor`. Takes the path of the program.

The script is the line. It hands on each burst of our own panel and readers, or a seeded generator has it lost to the end that it is for, or damaged, or noise
stands before it. The listener hears what is on the line, also what an end has lost. So nobody may be accused, and the table must have what was heard, which is
counted here by the bytes. Moments of the machines are made up here; those of the listener are the clock's."""
import os
import random
import select
import signal
import subprocess
import sys
import tempfile
import threading
import time
from collections import Counter
from pathlib import Path

TOP = Path(__file__).resolve().parent.parent
sys.path.insert(0, str(TOP / "examples"))
from program import Program  # noqa: E402
from terminals import Terminal, packet  # noqa: E402

PROGRAM = str(Path(sys.argv[1]).resolve())
COLUMNS = ("asked", "polls", "repeats", "answered", "busy", "nak", "events", "opened", "moved", "judged", "forgot", "accused")
BUSY, NAK, POLL, EVENTS = 0x79, 0x41, 0x60, (0x50, 0x51, 0x53)
SECONDS = 5
faults = 0


def tell(what, wanted, got):
    global faults
    faults += 1
    print(f"monitor: {what}\nwanted: {wanted!r}\nis: {got!r}")


class Listener:
    """The command, with its input open."""

    def __init__(self, *words, stdin=subprocess.PIPE):
        self.process = subprocess.Popen([PROGRAM, "monitor", "--raw", *words], stdin=stdin, stdout=subprocess.PIPE)
        self.text = b""

    def hear(self, data):
        self.process.stdin.write(data)
        self.process.stdin.flush()

    def waits_for(self, text):
        """Whether the text has come within some seconds, while the input stays open."""
        end = time.monotonic() + SECONDS
        while text not in self.text and time.monotonic() < end:
            if select.select([self.process.stdout], [], [], 0.05)[0]:
                self.text += os.read(self.process.stdout.fileno(), 65536)
        return text in self.text

    def end(self):
        """All that it has printed, and its status."""
        if self.process.stdin:
            self.process.stdin.close()
        self.text += self.process.stdout.read()
        return self.text.decode(), self.process.wait()


def table(text):
    """The rows of the last table, and the counts of the last line."""
    *_, rows = text.split("device  asked")
    lines = [row for row in rows.splitlines()[1:] if not row.startswith("diagnosis: ")]
    words = lines[-1].split()
    return {int(row.split()[0]): dict(zip(COLUMNS, map(int, row.split()[1:]))) for row in lines[:-1]}, dict(zip(words[::2], map(int, words[1::2])))


class Counted:
    """What the listener must have counted, by the bytes that it heard."""

    def __init__(self):
        self.rows, self.last, self.packets = {}, {}, 0

    def packet(self, burst):
        self.packets += 1
        address, code = burst[1] & 0x7F, burst[5]
        row = self.rows.setdefault(address, Counter({name: 0 for name in COLUMNS}))
        if burst[1] & 0x80:
            row.update({"busy": code == BUSY, "nak": code == NAK, "answered": code not in (BUSY, NAK), "events": code in EVENTS})
        else:
            row.update({"asked": 1, "polls": code == POLL, "repeats": burst == self.last.get(address)})
            self.last[address] = burst

    def damage(self):
        self.last = {}


def sent(answer):
    return [bytes.fromhex(line.split()[1]) for line in answer if line.startswith("send ")]


def ticks(panel):
    """What a panel answers to a tick, and to the write of a burst that is to go out then."""
    answer = panel.call("tick")
    return [*answer, *panel.call("write")] if "burst" in answer else answer


class Line:
    """A panel, readers and a listener on one line."""

    def __init__(self, seed, addresses):
        self.chance, self.now = random.Random(seed), 0
        self.panel = Program("panel", [PROGRAM, "check", "sum"])
        self.readers = [Program("reader", [PROGRAM, "address", str(address)]) for address in addresses]
        self.listener, self.counted = Listener(), Counted()
        for index, address in enumerate(addresses, 1):
            self.panel.call(f"add {address} 1")
            self.panel.call(f"begin {index}")

    def say(self, burst, ends):
        """A burst goes over the line; what comes of it at each end that has read it or its damage."""
        fate = self.chance.random()
        heard = burst[:-1] + bytes([burst[-1] ^ 0x01]) if fate < 0.04 else burst
        if fate > 0.9:
            heard = bytes([0xFF] * self.chance.randint(1, 3)) + heard
        self.listener.hear(heard)
        if fate < 0.04:
            self.counted.damage()
        else:
            self.counted.packet(burst)
        answers = []
        for end in ends:
            if 0.04 <= fate < 0.1:
                continue  # the end has lost it
            end.call(f"at {self.now}")
            answers += end.call(f"bytes {heard.hex().upper()}")
        return answers

    def round(self):
        """What is due at the panel, and what the readers answer to it."""
        self.panel.call(f"at {self.now}")
        answer = ticks(self.panel)
        for burst in sent(answer):
            self.now += 5
            for reply in sent(self.say(burst, self.readers)):
                self.now += 5
                answer += self.say(reply, [self.panel])
        due = answer[-1].split()[1] if answer[-1].startswith("due ") else "none"
        if not due.isdigit():
            self.panel.call(f"at {self.now}")
            due = ticks(self.panel)[-1].split()[1]
        self.now = max(self.now + 30, int(due) if due.isdigit() else 0)

    def run(self, rounds):
        for number in range(rounds):
            reader = self.chance.choice(self.readers)
            happens = self.chance.random()
            if happens < 0.1:
                reader.call(f"event KEYPAD 0 {number % 10 + 0x30:02X}")
            elif happens < 0.15:
                reader.call(self.chance.choice(("busy on", "busy off")))
            elif happens < 0.25:
                self.panel.call(f"submit {self.chance.randint(1, len(self.readers))} never OUT 0:{self.chance.randint(1, 2)}:0")
            elif happens < 0.3:
                for index in range(1, len(self.readers) + 1):
                    self.panel.call(f"begin {index}")
            self.round()


def judge_good_line(seed):
    """Nobody is accused, and the table has what was heard."""
    line = Line(seed, (5, 6))
    line.run(250)
    text, _ = line.listener.end()
    if " panel to " in text or " reader " in text:
        tell(f"seed {seed}: somebody is accused", "", [said for said in text.splitlines() if " panel to " in said or " reader " in said])
    rows, counts = table(text)
    wanted = {address: dict(row) for address, row in line.counted.rows.items()}
    for address, row in wanted.items():
        row["opened"] = text.count(f" device {address}: opened\n")
        row["moved"] = row["accused"] = 0
        judged, forgot = rows[address]["judged"], rows[address]["forgot"]
        if not judged or judged > row["asked"] + row["answered"] + row["busy"] + row["nak"] - forgot:
            tell(f"seed {seed}: device {address}: judged and forgotten", "some of its packets", (judged, forgot))
        row["judged"], row["forgot"] = judged, forgot
        if not row["opened"]:
            tell(f"seed {seed}: device {address} opened no session", "some", 0)
    if rows != wanted:
        tell(f"seed {seed}: the table", wanted, rows)
    if (counts["packets"], counts["accused"]) != (line.counted.packets, 0) or not counts["refused"]:
        tell(f"seed {seed}: the counts", (line.counted.packets, 0), counts)


def judge_other_answer():
    """A reader of this script answers a repeat anew: it is accused before the panel's next packet."""
    panel, listener, now = Program("panel", [PROGRAM, "check", "sum"]), Listener(), 0
    panel.call("add 5 1")
    panel.call("begin 1")

    def next_burst():
        nonlocal now
        for _ in range(100):
            panel.call(f"at {now}")
            answer = ticks(panel)
            if sent(answer):
                listener.hear(sent(answer)[0])
                return sent(answer)[0]
            due = answer[-1].split()[1]
            now = max(now + 1, int(due) if due.isdigit() else 0)
        return b""

    def answers(burst, body, comes=True):
        reply = packet(0x85, burst[4] & 3, bytes.fromhex(body)[0], bytes.fromhex(body)[1:])
        listener.hear(reply)
        if comes:
            panel.call(f"bytes {reply.hex().upper()}")
        return reply

    answers(next_burst(), "4553494D010105000000010000")
    asked = next_burst()
    first = answers(asked, "53000131", comes=False)
    repeat = next_burst()
    if repeat != asked:
        tell("the panel repeats its packet", asked.hex(), repeat.hex())
    other = answers(repeat, "53000132")
    wanted = f" reader 5: a repeat is answered by something else (standard)\n     expected {first.hex().upper()}\n     seen     {other.hex().upper()}\n".encode()
    if not listener.waits_for(wanted):
        tell("the reader is accused before the panel's next packet", wanted, listener.text)
    text, status = listener.end()
    if table(text)[1]["accused"] != 1 or status != 1:
        tell("one accusation, and its status", (1, 1), (table(text)[1], status))


def judge_damaged_length():
    """A damaged length holds nothing back once the gap has passed."""
    listener = Listener()
    listener.hear(bytes.fromhex("5305A00504"))
    time.sleep(0.3)
    listener.hear(bytes.fromhex("53050700016040") * 20)
    if not listener.waits_for(b"1:0 refused F4\n"):
        tell("a damaged length before good packets", "1:0 refused F4", listener.text)
    text, status = listener.end()
    rows, counts = table(text)
    if (rows.get(5, {}).get("asked"), counts["packets"], counts["refused"], status) != (20, 20, 1, 1):
        tell("twenty packets after a damaged length", (20, 20, 1, 1), (rows, counts, status))


def judge_clock():
    """The table comes by the clock as bytes come, and at a terminal each packet is told as it comes."""
    terminal = Terminal()
    listener = Listener("--packets", "--every", "1", stdin=terminal.other)
    for wanted in (b"1:0 cmd 5 seq 1 sum POLL\n", b"2:0 cmd 5 seq 1 sum POLL\n"):
        os.write(terminal.end, bytes.fromhex("53050700016040"))
        if not listener.waits_for(wanted):
            tell("a packet at a terminal", wanted, listener.text)
        time.sleep(1.2)
    if not listener.waits_for(b"runs 1 packets 2 skipped 0 refused 0 judged 1 accused 0\n"):
        tell("a table by the clock", "runs 1 packets 2", listener.text)
    listener.process.terminate()
    listener.process.wait()
    terminal.close()


def stopped(words, stdin, feed=b""):
    """What is printed of bytes while the program is stopped for a while now and then: it reads them late."""
    process = subprocess.Popen([PROGRAM, "monitor", "--raw", "--gap", "1", *words], stdin=stdin, stdout=subprocess.PIPE)
    writer = threading.Thread(target=lambda: (process.stdin.write(feed), process.stdin.close())) if feed else None
    if writer:
        writer.start()
    while process.poll() is None:
        time.sleep(0.004)
        process.send_signal(signal.SIGSTOP)
        time.sleep(0.02)
        process.send_signal(signal.SIGCONT)
    if writer:
        writer.join()
    return process.stdout.read().decode()


def judge_recorded():
    """Bytes that were recorded are read by no clock: a file, by its name or as standard input, and a pipe with --recorded. A pipe without it is: there some packets
    are cut, also by the word `-`."""
    line = b"".join(packet(5, number % 3 + 1, POLL) + packet(0x85, number % 3 + 1, 0x40) for number in range(300000))
    with tempfile.NamedTemporaryFile() as file:
        file.write(line)
        file.flush()
        seen = {"a file by its name": stopped([file.name], subprocess.DEVNULL)}
        for words in ([], ["-"]):
            with open(file.name, "rb") as standard:
                seen[f"a file as standard input, {words}"] = stopped(words, standard)
    seen["a pipe with --recorded"] = stopped(["--recorded"], subprocess.PIPE, line)
    for what, text in seen.items():
        counts = table(text)[1]
        if (counts["runs"], counts["packets"], counts["refused"], counts["accused"]) != (1, 600000, 0, 0):
            tell(f"{what}, read late", (1, 600000, 0, 0), counts)
    for words in ([], ["-"]):
        if not table(stopped(words, subprocess.PIPE, line))[1]["refused"]:
            tell(f"a pipe, {words}, read late: the clock cuts packets", "some refused", 0)


for number in (1, 2, 3):
    judge_good_line(number)
judge_other_answer()
judge_damaged_length()
judge_clock()
judge_recorded()
print(f"monitor: {faults} faults")
sys.exit(1 if faults else 0)
