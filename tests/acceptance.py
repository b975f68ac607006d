#!/usr/bin/env python3
"""`osdp-port .. test script` against `osdp-port .. reader 5` over two pseudo terminals: the report of examples/site.acceptance is examples/site.report, also where
it is judged once more from its trace. A bad script sends nothing, and tells line and word. A test that is ended before its end, and one whose port is gone, isn't well.
Where another device's bytes come first, the delay is that of the answer; and what the script takes for the answer is what the program does. Takes the path of the program."""
import os
import pty
import random
import re
import select
import signal
import subprocess
import sys
import tempfile
import threading
import time
import tty
from pathlib import Path

TOP = Path(__file__).resolve().parent.parent
sys.path.insert(0, str(TOP / "port"))
from osdp_port import owner, scripts, testing  # noqa: E402

PORT = ["/usr/bin/python3", str(TOP / "port/osdp-port")]
SITE = TOP / "examples/site.acceptance"
IDENTITY = "vendor 53494D model 1 version 1 serial 1 firmware 1:0:0".split()
ENDS = [pty.openpty(), pty.openpty()]
BAD = """# a bad script
device 5
expcet ACK
send OUT 0:2:0
send OUT 1
expect ACK
ready
  heard 1 2 none
"""
WRONG = ("line 3, expcet ACK: no line begins with expcet", "line 4, send OUT 0:2:0: no may above it allows this command",
         "line 5, send OUT 1: word 3 cannot be 1", "line 6, expect ACK: nothing was sent above it",
         "line 7, ready: no line of a script begins so, since osdp-port writes it", "line 8, heard 1 2 none: no line of a script begins so, since osdp-port writes it")
FROM_WINDOWS = "\ufeffdevice 5\r\n# a\x0bb\u2028c\r\nsend ID 0\r\nexpect PDID\r\n"  # of which `osdp` counts four lines
PLACES = 2000  # how often the answer is looked for
LEFT = "what is left of the test wasn't done"
CUT_OFF = (["test", "script", "SCRIPT"], ["test", "device", "5"], ["test", "panel", "6"])
WORDS = ((["test", "script"], "the following arguments are required: FILE"), (["test", "script", "a", "b"], "b: nothing more stands there"),
         (["--may", "out:0", "test", "script", "a"], "--may is no option of test script: a line of the script says it"),
         (["--tap", "test", "script", "a"], "--tap is no option of test script"),
         (["--sum", "test", "script", "a"], "--sum is no option of test script: a line of the script says it"))
faults = 0


def tell(what, *rest):
    global faults
    faults += 1
    print(f"acceptance: {what}", *rest, sep="\n")


def carry():
    """What comes at one end goes out at the other, and is counted."""
    ways = {ENDS[0][0]: ENDS[1][0], ENDS[1][0]: ENDS[0][0]}
    while True:
        for end in select.select(list(ways), [], [])[0]:
            data = os.read(end, 4096)
            carry.count += len(data)
            os.write(ways[end], data)


carry.count = 0


def runs(program, path, device, trace):
    """The script on the line: a card is shown to the reader as soon as the script asks for it."""
    port = os.ttyname(ENDS[0][1])
    done = subprocess.Popen([*PORT, port, "9600", "test", "script", str(path), "--trace", str(trace), "--osdp", program], stdout=subprocess.PIPE, stderr=subprocess.PIPE, text=True)

    def shows():
        for line in done.stderr:
            runs.notes.append(line.rstrip("\n"))
            if "from user" in line:
                device.stdin.write(b"card 17 4386\n")
                device.stdin.flush()
    runs.notes = []
    thread = threading.Thread(target=shows, daemon=True)
    thread.start()
    out = done.stdout.read()
    status = done.wait(timeout=120)
    thread.join(5)
    return out, status


def cut_off(program, script, words, is_pulled):
    """A test that nobody answers is ended by Ctrl-C, or its port is pulled: the status isn't 0, and what it says last tells why."""
    end, port = pty.openpty()
    tty.setraw(port)
    name = os.ttyname(port)
    done = subprocess.Popen([*PORT, name, "9600", *(str(script) if word == "SCRIPT" else word for word in words), "--osdp", program], stdout=subprocess.PIPE, stderr=subprocess.PIPE, text=True)
    while done.poll() is None and name not in map(owner.link_of, Path(f"/proc/{done.pid}/fd").iterdir()):
        time.sleep(0.05)
    time.sleep(1)
    if is_pulled:
        os.close(end)
    else:
        done.send_signal(signal.SIGINT)
    out, said = done.communicate(timeout=30)
    os.close(port)
    wanted = (3, f"osdp-port: {name} is gone: {LEFT}") if is_pulled else (1, f"osdp-port: stopped: {LEFT}")
    if (done.returncode, said.splitlines()[-1]) != wanted or "broken 0" not in out:
        tell(f"{' '.join(words)}, {'pulled' if is_pulled else 'stopped'}: status {done.returncode}", said, out)
    if not is_pulled:
        os.close(end)


def late(program):
    """Of a packet to device 5 the bytes of device 6 come first, then noise, and 150 ms after the packet the answer: so late it is."""
    end, port = pty.openpty()
    tty.setraw(port)
    script = Path(tempfile.mkdtemp()) / "late"
    script.write_text("device 5\ncheck sum\nsend POLL\nexpect ACK within 100\nexpect ACK within 400\n")
    done = subprocess.Popen([*PORT, os.ttyname(port), "9600", "test", "script", str(script), "--osdp", program], stdout=subprocess.PIPE, stderr=subprocess.PIPE, text=True)
    while bytes.fromhex("53050700006041") not in os.read(end, 4096):
        pass
    begun = time.monotonic()
    for moment, said in ((0.01, "538607000040E0"), (0.07, "FF"), (0.15, "538507000040E1")):
        time.sleep(max(0.0, begun + moment - time.monotonic()))
        os.write(end, bytes.fromhex(said))
    out, said = done.communicate(timeout=30)
    os.close(end)
    os.close(port)
    told = re.fullmatch(r"line 4 broken: expect ACK within 100\n  at \d+ ms sent 53050700006041\n  read 538507000040E1 after (\d+) ms\nline 5 ok: expect ACK within 400\nok 1 broken 1 unclear 0\n", out)
    if not told or not 110 <= int(told[1]) <= 350:
        tell("an answer after another device's bytes", out, said)


def packet(dice):
    """A packet of one of two devices, or of the panel, with a right check or a wrong one."""
    check = dice.choice(("sum", "crc"))
    body = bytes([dice.choice((0x40, 0x53, 0x50))]) + dice.choice((b"", dice.randbytes(9), testing.packet(5, 0, b"\x40", "sum", True)))
    made = testing.packet(dice.choice((5, 6)), dice.randrange(4), body, check, dice.randrange(3) > 0)
    at = dice.randrange(len(made))
    return made if dice.randrange(4) else made[:at] + bytes([made[at] ^ 0x5A]) + made[at + 1:]


def places(program):
    """What the script takes for the answer in what was heard is what the program takes for it: noise, cut packets and packets of others stand among them."""
    dice, lines, wanted = random.Random(11), ["device 5", "check sum"], []
    for number in range(PLACES):
        heard = b"".join(dice.choice((packet, lambda d: d.randbytes(2), lambda d: packet(d)[:5], lambda d: b"\x53\x85\x20\x00"))(dice) for _ in range(dice.randrange(1, 6)))
        lines += ["reopen", "send POLL", *3 * [f"heard {number} 9 {heard.hex().upper()}"], "expect silence"]
        at = scripts.answer_at(heard, 5)
        size = 0 if at is None else int.from_bytes(heard[at + 2:at + 4], "little")
        wanted.append("none" if at is None else heard[at:at + size].hex().upper())
    out = subprocess.run([program, "test", "script"], input="\n".join(lines) + "\n", capture_output=True, text=True, timeout=60).stdout
    told = [each[0] or "none" for each in re.findall(r"line \d+ (?:ok: expect silence|broken: expect silence\n  at \d+ ms sent \w+\n  read (\w+)) ?()", out)]
    if told != wanted or not 0 < wanted.count("none") < PLACES:
        tell(f"another answer, in {sum(a != b for a, b in zip(told, wanted))} of {len(told)} and {PLACES}")


def nobody(program):
    """A test of a device that isn't there ends soon, and isn't well."""
    end, port = pty.openpty()
    tty.setraw(port)
    done = subprocess.run([*PORT, os.ttyname(port), "9600", "test", "device", "5", "--osdp", program], capture_output=True, text=True, timeout=120)
    said = done.stderr.splitlines()
    if done.returncode != 1 or said[-2:] != [f"osdp-port: device 5 doesn't answer: osdp-port {os.ttyname(port)} 9600 find", f"osdp-port: stopped: {LEFT}"]:
        tell(f"nobody: status {done.returncode}", done.stdout, *said)
    os.close(end)
    os.close(port)


def main():
    program = str(Path(sys.argv[1]).resolve())
    for end in (end for pair in ENDS for end in pair):
        tty.setraw(end)
    threading.Thread(target=carry, daemon=True).start()
    device = subprocess.Popen([*PORT, os.ttyname(ENDS[1][1]), "9600", "reader", "5", *IDENTITY, "--osdp", program], stdin=subprocess.PIPE, stdout=subprocess.DEVNULL, stderr=subprocess.DEVNULL)
    work = Path(tempfile.mkdtemp())
    try:
        time.sleep(1)
        out, status = runs(program, SITE, device, work / "trace")
        report = (TOP / "examples/site.report").read_text()
        if (out, status) != (report, 0):
            tell(f"status {status}, another report", out, *runs.notes)
        again = subprocess.run([program, "test", "script"], stdin=open(work / "trace"), capture_output=True, text=True)
        verdicts = "".join(line + "\n" for line in again.stdout.splitlines() if line.split()[0] not in ("send", "wait"))
        if (verdicts, again.returncode) != (report, 0):
            tell("another report of its trace", verdicts, again.stderr)
        (work / "bad").write_text(BAD)
        time.sleep(0.3)
        before = carry.count
        out, status = runs(program, work / "bad", device, work / "trace")
        wanted = [f"osdp-port: {work / 'bad'}: {each}" for each in WRONG]
        if (out, status, runs.notes, carry.count) != ("", 2, wanted, before):
            tell(f"a bad script: status {status}, {carry.count - before} bytes", out, *runs.notes)
        (work / "windows").write_text(FROM_WINDOWS, newline="")
        out, status = runs(program, work / "windows", device, work / "trace")
        if (out, status) != ("line 4 ok: expect PDID\nok 1 broken 0 unclear 0\n", 0):
            tell(f"a script with another system's lines: status {status}", out, *runs.notes)
    finally:
        device.kill()
    (work / "waits").write_text("device 5\nwait 60000\nsend ID 0\nexpect PDID\n")
    for words in CUT_OFF:
        for is_pulled in (False, True):
            cut_off(program, work / "waits", words, is_pulled)
    nobody(program)
    late(program)
    places(program)
    for words, why in WORDS:
        done = subprocess.run([*PORT, "/dev/null", "9600", *words], capture_output=True, text=True)
        if done.returncode != 2 or not done.stderr.startswith(f"osdp-port: {why}"):
            tell(" ".join(words), done.stderr)
    print(f"acceptance: {report.splitlines()[-1]}, {len(WRONG)} bad lines, {2 * len(CUT_OFF)} tests cut off, {PLACES} answers found, {faults} faults")
    return 1 if faults else 0


if __name__ == "__main__":
    sys.exit(main())
