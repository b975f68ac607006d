#!/usr/bin/env python3
"""Clicks on the page of demo/ in Chromium without a window: `demo.py PROGRAM PAGE [PICTURE]`.

- Of each schedule here each step is clicked. The page then has written down the same schedule, and its lists are the account that `osdp sim` gives of it.
- Some hundred clicks by chance, on whatever may be clicked, with a POLL between two orders: the lists are the account of the schedule that the page has written down.
- The monitor on the page tells of each line what `osdp monitor` prints of it. It accuses nobody where nothing is lost alone on its way to one end.
- It runs by itself, and stops.
- Power is pulled: what the page tells is what the rules say, and no order is done twice.
- The page fetches nothing, and no script of it has failed.

With PICTURE it leaves a picture of the page there."""
import html
import json
import re
import subprocess
import sys
import tempfile
from pathlib import Path

NAMES = ("issued", "taken", "settled", "unsettled", "queued", "reported")
OPENING = "wait 50\n" * 8 + "to-reader deliver\nto-controller deliver\nwait 50\nto-reader deliver\nto-controller deliver\n"
SCHEDULES = {
    "an order, whose answer is lost": "issue 1 OUT 0:2:0\n" + OPENING + "wait 50\nto-reader deliver\nto-controller drop\n" + "wait 50\n" * 4 + "to-reader deliver\nto-controller deliver\n",
    "a card, whose answer is damaged, and a key": (
        "queue 1 RAW 0 0 26 12345640\nqueue 2 KEYPAD 0 31\n" + OPENING + "wait 50\nto-reader deliver\nto-controller damage\n" + "wait 50\n" * 4
        + "to-reader deliver\nto-controller deliver\nwait 50\nto-reader deliver\nto-controller deliver\n"),
    "an order that comes twice, to a reader that was busy": (
        "issue 2 OUT 0:2:0\nbusy 2 on\n" + OPENING + "wait 50\nto-reader deliver\nto-controller deliver\nbusy 2 off\n"
        + "wait 50\nto-reader repeat\nto-reader deliver\nto-controller deliver\nto-controller deliver\n" * 3),
    "a reader that doesn't answer": (
        "issue 1 OUT 0:2:0\n" + OPENING + ("wait 50\nto-reader drop\n" + "wait 50\n" * 3) * 3 + "wait 50\n" * 2 + "to-reader deliver\nto-controller deliver\n"),
}
CLICKS = """
<script>
window.addEventListener("error", (event) => { document.body.dataset.failed = event.message; });
document.addEventListener("line-ready", () => {
  const click = (words) => {
    const element = document.querySelector(words);
    if (!element || element.disabled) { throw new Error("nothing to click: " + words); }
    element.click();
  };
  const lane = (name) => { const item = document.querySelector("#" + name + " .packet"); if (!item) { throw new Error("no packet: " + name); } item.click(); };
  const chance = (() => { let seed = SEED; return (most) => { seed = (seed * 1103515245 + 12345) % 2147483648; return Math.floor(seed / 65536) % most; }; })();
  // Between two orders of a session the panel asks for events, and the panel of a simulated line doesn't. So an order comes when none of its reader is ahead, and so many clicks
  // after the last one has ended that a POLL has been answered since.
  const count = (name, which) => Number(document.querySelector(`[data-count=${name}][data-which="${which}"]`).firstChild.textContent);
  const ended = [0, 0], since = [25, 25];
  const may_order = (which) => {
    const now = count("settled", which) + count("unsettled", which);
    since[which] = now === ended[which] ? since[which] + 1 : 0;
    ended[which] = now;
    return count("issued", which) === now && since[which] >= 25;
  };
  const random = () => {
    const orders = [may_order(0), may_order(1)];
    const front = ["to-reader", "to-controller"].filter((name) => document.querySelector("#" + name + " .packet"));
    const kind = chance(20);
    if (kind < 2) {
      const which = chance(2), does = ["card", "key", "relay"][chance(3)];
      click(does === "relay" && !orders[which] ? "#step" : `#reader-${which + 1} [data-does=${does}]`);
    }
    else if (kind < 3 && chance(3) === 0) { click("#reader-" + (1 + chance(2)) + " [data-does=busy]"); }
    else if (front.length && kind < 8) { lane(front[chance(front.length)]); click("#menu [data-what=" + ["drop", "damage", "repeat", "deliver"][chance(4)] + "]"); }
    else { click("#step"); }
  };
  try {
    for (const step of STEPS) {
      if (step === "random") { random(); } else if (step.lane) { lane(step.lane); click("#menu [data-what=" + step.what + "]"); } else { click(step); }
    }
  } catch (error) { document.body.dataset.failed = error.message; }
});
</script>
"""
faults = []


def tell(what, wanted, got):
    if wanted != got:
        faults.append(f"{what}: {got!r}, and not {wanted!r}")


def clicks(schedule):
    """What is clicked for each step of a schedule."""
    for step in schedule.split("\n")[:-1]:
        words = step.split()
        if words[0] in ("to-reader", "to-controller"):
            yield {"lane": words[0], "what": words[1]}
        elif words[0] == "wait":
            yield "#step"
        elif words[0] == "power":
            yield "#panel .power" if words[1] == "panel" else f"#reader-{words[1]} [data-does=power]"
        else:
            does = {"issue": "relay", "busy": "busy"}.get(words[0]) or {"RAW": "card", "KEYPAD": "key"}[words[2]]
            yield f"#reader-{words[1]} [data-does={does}]"


def chromium(folder, page, *words):
    """What Chromium prints of a page."""
    done = subprocess.run(["chromium", "--headless", "--no-sandbox", "--disable-gpu", "--disable-dev-shm-usage", f"--user-data-dir={folder}/profile", *words, f"file://{page}"],
                          capture_output=True, text=True, timeout=120)
    return done.stdout


class Clicked:
    """The page once these were clicked."""

    def __init__(self, folder, page, steps, seed=1):
        text = page.read_text().replace("<body>", "<body>" + CLICKS.replace("STEPS", json.dumps(list(steps))).replace("SEED", str(seed)))
        copy = Path(folder) / "clicked.html"
        copy.write_text(text)
        self.text = chromium(folder, copy, "--virtual-time-budget=5000", "--dump-dom")
        self.copy = copy
        self.failed = html.unescape((re.search(r'data-failed="([^"]*)"', self.text) or ["", "" if 'data-ready="yes"' in self.text else "it isn't ready"])[1])
        self.said, self.schedule, self.capture, self.heard = (html.unescape((re.search(rf'<pre id="{name}">(.*?)</pre>', self.text, re.S) or ["", ""])[1]) for name in ("said", "schedule", "capture", "heard"))
        self.counts = {(name, int(which)): int(count) for name, which, count in re.findall(r'data-count="(\w+)" data-which="(\d)">(\d+)', self.text)}

    def account(self):
        return [" ".join([f"reader {which + 1}", *(f"{name} {self.counts.get((name, which))}" for name in NAMES)]) for which in (0, 1)]


def account(program, schedule):
    """The first line of each reader's account, as `osdp sim` gives it."""
    done = subprocess.run([program, "sim"], input=schedule, capture_output=True, text=True)
    if done.returncode:
        faults.append(f"osdp sim: {done.stderr.strip()}, of {schedule.splitlines()[-3:]}")
    return [line for line in done.stdout.splitlines() if line.startswith("reader ")]


def judge_words(program, what, clicked):
    """The monitor's words on the page are those that the program prints of the line: how many lines they have before the table."""
    done = subprocess.run([program, "monitor"], input="".join(f"{line}\n" for line in clicked.capture.splitlines()), capture_output=True, text=True)
    tell(f"{what}: the monitor's words", done.stdout, clicked.heard)
    return clicked.heard.partition("device  asked")[0].count("\n")


def judge_schedules(program, folder, page):
    for name, schedule in SCHEDULES.items():
        clicked = Clicked(folder, page, clicks(schedule))
        tell(f"{name}: failed", "", clicked.failed)
        wanted = ["check sum", "reader 5 16", "reader 6 16", *schedule.splitlines()]
        tell(f"{name}: the schedule", wanted, [re.sub(r" damage .*", " damage", line) for line in clicked.schedule.splitlines()])
        tell(f"{name}: the account", account(program, clicked.schedule + "\n"), clicked.account())
        judge_words(program, name, clicked)


def judge_chance(program, folder, page):
    happened = dict.fromkeys(NAMES, 0)
    for seed in (1, 2, 3):
        clicked = Clicked(folder, page, ["random"] * 1200, seed)
        tell(f"chance {seed}: failed", "", clicked.failed)
        wanted = account(program, clicked.schedule + "\n")
        tell(f"chance {seed}: the account", wanted, clicked.account())
        told = judge_words(program, f"chance {seed}", clicked)
        print(f"demo: {len(clicked.schedule.splitlines())} steps by chance: {'; '.join(wanted)}; the monitor tells {told} lines")
        tell(f"chance {seed}: the monitor tells something", True, told > 10)
        for (name, _), count in clicked.counts.items():
            happened[name] += count
    tell("what never happens by chance", [], [name for name, count in happened.items() if count == 0])


def judge_power(program, folder, page):
    opened = "\n".join(clicked_opening()) + "\n"
    reader = Clicked(folder, page, [*clicks(opened + "issue 1 OUT 0:2:0\npower 1\npower 1\n"), *["#step"] * 120])
    tell("a reader without power: failed", "", reader.failed)
    for told in ("reader 1 loses power", "reader 1 is lost, number-refused; in doubt: OUT 0:2:0"):
        if told not in reader.said:
            faults.append(f"a reader without power: it doesn't tell {told!r}: {reader.said}")
    tell("a reader that restarts opens again", 2, reader.said.count("panel: reader 1 is there"))
    tell("its order", [0, 0, 1], [reader.counts[name, 0] for name in ("taken", "settled", "unsettled")])
    panel = Clicked(folder, page, [*clicks(opened + "issue 2 OUT 0:2:0\n"), *["#step"] * 20, *clicks("power panel\npower panel\n"), *["#step"] * 60])
    tell("a panel without power: failed", "", panel.failed)
    tell("a panel that restarts opens again", [2, 2], [panel.said.count(f"panel: reader {which} is there") for which in (1, 2)])
    tell("no order is done twice", (1, 1), (panel.counts["taken", 1], panel.counts["settled", 1]))
    tell("no schedule", True, panel.schedule.startswith("power was pulled"))
    tell("restarts are told", [True, True], [judge_words(program, "power", each) > 2 for each in (reader, panel)])


def clicked_opening():
    """Both sessions open, by steps."""
    return ["wait 50"] * 13


def judge_run(folder, page):
    """The page runs by itself once that is clicked, and stops where it is clicked again."""
    tell("it runs", True, "panel: reader 1 is there" in Clicked(folder, page, ["#run"]).said)
    tell("it stops", "", Clicked(folder, page, ["#run", "#run"]).said)


def judge_heard(program, folder, page):
    """A quiet line with orders, cards and a busy reader: the monitor counts them, and accuses nobody."""
    begun = "issue 1 OUT 0:2:0\nissue 2 OUT 0:2:0\nqueue 1 RAW 0 0 26 12345640\nbusy 2 on\n"
    heard = Clicked(folder, page, [*clicks(begun), *["#step"] * 60, *clicks("busy 2 off\n"), *["#step"] * 60])
    done = subprocess.run([program, "monitor"], input=heard.capture + "\n", capture_output=True, text=True)
    tell("the monitor's status", (0, ""), (done.returncode, done.stderr))
    judge_words(program, "a quiet line", heard)
    table = {cells[0]: cells for cells in map(str.split, done.stdout.splitlines()) if len(cells) == 13}
    tell("events and openings that it has heard", [("1", "1"), ("0", "1")], [(table[each][7], table[each][8]) for each in ("5", "6")])


def judge_alone(page):
    text = page.read_text()
    found = re.findall(r"(?:src|href)=|fetch\(|XMLHttpRequest|import\(|https?://", text)
    tell("what the page fetches", [], found)


def main():
    program, page = sys.argv[1], Path(sys.argv[2]).resolve()
    judge_alone(page)
    with tempfile.TemporaryDirectory() as folder:
        judge_schedules(program, folder, page)
        judge_chance(program, folder, page)
        judge_power(program, folder, page)
        judge_heard(program, folder, page)
        judge_run(folder, page)
        if len(sys.argv) > 3:
            steps = clicks(SCHEDULES["a card, whose answer is damaged, and a key"] + "issue 2 OUT 0:2:0\n")
            lost = clicks("issue 1 OUT 0:2:0\nwait 50\nto-reader deliver\nto-controller drop\n")
            clicked = Clicked(folder, page, [*steps, *["#step"] * 3, *lost, *["#step"] * 4, *clicks("queue 2 RAW 0 0 26 12345680\n")])
            chromium(folder, clicked.copy, f"--screenshot={Path(sys.argv[3]).resolve()}", "--window-size=1240,1070", "--hide-scrollbars", "--virtual-time-budget=5000")
    print(f"demo: {len(faults)} faults", *faults, sep="\n")
    return 1 if faults else 0


if __name__ == "__main__":
    sys.exit(main())
