"""`osdp monitor --json`: each line is an object of JSON that docs/monitor.schema.json takes, and the objects say what the lines of text say, word for word.
Takes the path of the program.

The inputs are those of the rows of tests/rows/ that call `monitor`, and the captures of examples/. Python's json reads each line back. From the objects the lines
of text are written anew, by the manual's section on objects, and must be those that the program prints without the option. So must the status be."""
import json
import subprocess
import sys
from pathlib import Path

import jsonschema

import rows

TOP = Path(__file__).resolve().parent.parent
PROGRAM = str(Path(sys.argv[1]).resolve())
FORM = jsonschema.Draft202012Validator(json.loads((TOP / "docs/monitor.schema.json").read_text()))
HEAD = "device  asked  polls repeats  answered  busy  nak  events  opened  moved  judged  forgot  accused"
ROOMS = {"asked": 6, "polls": 6, "repeats": 7, "answered": 9, "busy": 5, "nak": 4, "events": 7, "opened": 7, "moved": 6, "judged": 7, "forgot": 7, "accused": 8}
COUNTS = "runs packets skipped refused judged accused".split()
faults = objects = 0


def tell(what, wanted, got):
    global faults
    faults += 1
    print(f"objects: {what}\nwanted: {wanted}\nis: {got}")


def line_of(told, is_timed):
    """The line of text that an object stands for."""
    kind = told["kind"]
    if kind in ("told", "item"):
        stamp = f"{told['stamp'] or '-'} " if is_timed else ""
        basis = f" ({told['basis']})" if told.get("basis") else ""
        party = f"{told['party']} {told['address']}: " if kind == "told" else ""
        times = f" (it took {told['took']} ms, the panel waited {told['waited']} ms)" if "took" in told else ""
        if kind == "told" and told["text"].removesuffix(times).endswith(")"):
            tell("the times of a late answer as numbers", told["text"], times)
        return f"{stamp}{told['run']}:{told['place']} {party}{told['text']}{basis}"
    if kind in ("expected", "seen"):
        return f"     {kind:<8} {told['packet']}"
    if kind in ("device", "window"):
        address = f"+{told['address']}" if kind == "window" else f"{told['address']}"
        return f"{address:<6}" + "".join(f" {told[name]:>{room}}" for name, room in ROOMS.items())
    if kind in ("line", "window_line"):
        return ("+" if kind == "window_line" else "") + " ".join(f"{name} {told[name]}" for name in COUNTS)
    if kind == "times":
        return f"times: {told['address']} answered {told['answers']} in {told['least']} to {told['most']} ms, half below {told['half_below']}, 95 of 100 below {told['most_below']}"
    if kind == "late":
        return f"times: {told['address']} answered {told['answers']} late, after {told['took']} ms at most: the panel waits {told['waited']} ms"
    if kind == "online":
        return f"times: {told['address']} online since {told['since']}, last answer at {told['last']}"
    if kind == "offline":
        since = f" since {told['last']}" if told["last"] else ""
        return f"times: {told['address']} offline{since}, {told['unanswered']} packets without an answer"
    if kind == "restarts":
        often = f" {told['restarts']} times, every {told['every']} s" if told["restarts"] > 1 else f" at {told['last']}"
        return f"times: {told['address']} restarted{often}"
    return f"diagnosis: {told['text']}" if kind == "diagnosis" else told["text"]


def run(words, data):
    done = subprocess.run([PROGRAM, *words], input=data, capture_output=True, cwd=TOP, timeout=60)
    return done.stdout.decode(errors="replace"), done.stderr, done.returncode


def compare(what, words, data):
    global objects
    plain, errors, status = run(words, data)
    if status == 2 and not plain:
        return  # bad words
    text, json_errors, json_status = run([words[0], "--json", *words[1:]], data)
    if (json_errors, json_status) != (errors, status):
        tell(f"{what}: status", (errors, status), (json_errors, json_status))
    lines = []
    for line in text.split("\n")[:-1]:
        if line.startswith("# "):
            lines.append(line)  # the name of one of several files
            continue
        told = json.loads(line)
        fault = next(FORM.iter_errors(told), None)
        if fault:
            tell(f"{what}: the form of a line", fault.message, line)
        lines.append(line_of(told, {"--times", "--clock"} & set(words) and "--raw" not in words))  # raw bytes have no stamps
        objects += 1
    wanted = [line for line in plain.split("\n")[:-1] if line not in (HEAD, HEAD.replace("device", "window"))]
    if lines != wanted:
        tell(what, "\n".join(wanted), "\n".join(lines))


inputs = 0
for file in ("monitor", "answer_times", "forms"):
    for row in rows.rows_of(TOP / f"tests/rows/{file}.txt"):
        for words in row.words:
            if words[0] == "monitor" and "--json" not in words:
                compare(row.place, words, row.input)
                inputs += 1
for capture in sorted((TOP / "examples").glob("*.hex")):
    for options in ([], ["--packets"], ["--talk"], ["--times"], ["--packets", "--times"], ["--packets", "--clock"]):
        compare(f"{capture.name} {options}", ["monitor", *options], capture.read_bytes())
        inputs += 1
# words that JSON writes otherwise: quotes, backslashes, and a stamp that is no text
said = b'"a" \\ b'
quoted = bytes([0x53, 5, 13 + len(said), 0, 1, 0x6B, 0, 1, 0, 1, 1, len(said)]) + said
quoted += bytes([-sum(quoted) & 255])
compare("quotes", ["monitor", "--packets"], quoted.hex().encode() + b"\n")
for stamp in (b'1.5 "x" in', b"1.5 \\ in", b"1.5 \xff\xfe in", "1.5 \u00e4\u20ac in".encode(), b"1.5 \x01\x1f\x7f in"):
    compare(f"a stamp {stamp}", ["monitor", "--packets", "--times"], b"# " + stamp + b"\n53050700016040\n")
inputs += 6
print(f"objects: {objects} objects of {inputs} inputs read back, {faults} faults")
sys.exit(1 if faults or objects < 300 else 0)
