#!/usr/bin/env python3
"""What tests/release.sh looks at by Python: `release.py PROGRAM`.

- The completions for bash and zsh offer, after each command, the options and settings of its help, and no others; and so of osdp-port and osdp-report. Both
  run in their own shell. That of osdp-port is what tools/completion makes of its words.
- `./install` proves crates side by side, each after all that it stands on; it says how far it is, and of one that isn't proved; no other is begun then.
  `rt` is a stand-in for this."""
import contextlib
import io
import re
import runpy
import subprocess
import sys
import time
from pathlib import Path

TOP = Path(__file__).resolve().parent.parent
PROGRAM = sys.argv[1]
OF_PORT = {"monitor": "all address every live json", "show": "all address", "panel": "all keep new until trace size osdpcap", "reader": "all keep new late trace size osdpcap",
           "find": "set-address set-rate", "test": "trace may go-on sum tap", "trace": "size osdpcap", "page": "trace demo listen alone", "serve": "new config metrics check"}  # the options of each command, as the manual has them
COMMANDS = ("show", "monitor", "check", "make", "sim", "panel", "reader", "plan", "test", "help")
faults = []


def tell(what, wanted, got):
    if wanted != got:
        faults.append(f"{what}: {got!r}, and not {wanted!r}")


def help_of(command):
    return subprocess.run([PROGRAM, "help", command], capture_output=True, text=True).stdout


def wanted_after(command):
    """The words that a command's help names."""
    rows = help_of(command).split("\n\n")[2] if command != "help" else ""
    if command == "test":
        return set(re.findall(r"^  (--[\w-]+|[a-z]+) ", rows, re.M))
    if command in ("show", "monitor", "check"):
        return {*re.findall(r"^  (--[\w-]+)", rows, re.M), "--hex"}  # which the manual page names
    if command in ("panel", "reader", "plan"):
        return set(re.findall(r"^  ([a-z-]+) ", rows, re.M))
    return {"make": {"sum", "crc"}, "sim": set(), "help": set(COMMANDS) - {"help"}}[command]


def bash(*words):
    """What bash offers for the last of these words, files apart."""
    quoted = " ".join(f"'{word}'" for word in words)
    function = {"osdp": "_osdp", "osdp-port": "_osdp_port", "osdp-report": "_osdp_report"}[words[0]]
    script = f"source {TOP}/release/osdp.bash; COMP_WORDS=({quoted}); COMP_CWORD=$((${{#COMP_WORDS[@]}} - 1)); {function}; printf '%s\\n' \"${{COMPREPLY[@]}}\""
    return set(subprocess.run(["bash", "-c", script], capture_output=True, text=True, cwd="/proc/self/fdinfo").stdout.split())


def zsh(*words):
    """What zsh offers for the last of these words, files apart. `compadd` is a stand-in that prints what begins with the last word, as zsh picks it."""
    quoted = " ".join(f"'{word}'" for word in words)
    script = f"""_files() {{ }}; compadd() {{ [[ $1 != -- ]] || shift; for word in "$@"; do [[ $word != "$words[CURRENT]"* ]] || print -r -- $word; done }}
        service={words[0]}; words=({quoted}); CURRENT=$#words; source {TOP}/release/_osdp"""
    return set(subprocess.run(["zsh", "-f", "-c", script], capture_output=True, text=True).stdout.split())


def judge_completion(shell):
    """What a shell offers is what the helps name."""
    offered = {"bash": bash, "zsh": zsh}[shell]
    top = set(re.findall(r"^  ([a-z]+) ", subprocess.run([PROGRAM, "help"], capture_output=True, text=True).stdout, re.M))
    tell(f"{shell}: osdp", top | {"--help", "-h", "--version"}, offered("osdp", ""))
    tell(f"{shell}: osdp sh", {"show"}, offered("osdp", "sh"))
    for command in COMMANDS:
        beginning = "--" if command in ("show", "monitor", "check") else ""
        tell(f"{shell}: osdp {command}", wanted_after(command), {word for word in offered("osdp", command, beginning) if not word.isdigit()})
    text = subprocess.run([TOP / "port/osdp-port", "--help"], capture_output=True, text=True).stdout
    tell(f"{shell}: osdp-port --", set(re.findall(r"(?:^  |, )(--[\w-]+)", text, re.M)), offered("osdp-port", "--"))
    tell(f"{shell}: osdp-port PORT RATE", set(re.findall(r"^  ([a-z]+) ", text, re.M)), offered("osdp-port", "/dev/ttyS9", "9600", ""))
    for command, options in OF_PORT.items():
        wanted = {*(f"--{option}" for option in options.split()), "--plain", "--osdp"}
        tell(f"{shell}: the options of osdp-port {command}", wanted, offered("osdp-port", "/dev/ttyS9", "9600", command, "--"))
    tell(f"{shell}: osdp-port PORT RATE test", {"device", "panel", "script"}, offered("osdp-port", "/dev/ttyS9", "9600", "test", ""))
    tell(f"{shell}: osdp-port help", set(OF_PORT), offered("osdp-port", "help", ""))
    tell(f"{shell}: osdp-port --address", set(), offered("osdp-port", "--address", ""))
    tell(f"{shell}: osdp-port PORT", {"9600", "19200", "38400", "57600", "115200", "230400"}, offered("osdp-port", "/dev/ttyS9", ""))
    text = subprocess.run([TOP / "port/osdp-report", "--help"], capture_output=True, text=True).stdout
    tell(f"{shell}: osdp-report --", set(re.findall(r"^  (--[\w-]+)", text, re.M)), offered("osdp-report", "--"))


def prove(crates, wrong=None, wait=0.0):
    """What `./install` does with these crates, where one of them isn't proved: in which order it began and ended, and what it says."""
    it, events = runpy.run_path(str(TOP / "install")), []
    space = it["prove_side_by_side"].__globals__

    def stands_in(crate):
        events.append(("begins", crate))
        time.sleep(wait)
        if crate == wrong:
            raise space["Failed"](f"{crate} is not proved")
        events.append(("ends", crate))

    space["prove"], space["TELLS"] = stands_in, 0.02
    out, errors = io.StringIO(), io.StringIO()
    with contextlib.redirect_stdout(out), contextlib.redirect_stderr(errors):
        try:
            it["prove_side_by_side"](set(crates), crates, 2, time.monotonic())
            ended = None
        except SystemExit as end:
            ended = end.code
    return events, ended, out.getvalue(), errors.getvalue()


def judge_proving():
    crates = {"low": [], "codec": ["low"], "machine": ["codec"], "tool": ["machine"], "library": ["machine"], "words": ["low"]}
    events, ended, out, _ = prove(crates, wait=0.05)
    tell("the end", None, ended)
    tell("proved", set(crates), {crate for what, crate in events if what == "ends"})
    for crate, used in crates.items():
        for one in used:
            if events.index(("ends", one)) > events.index(("begins", crate)):
                faults.append(f"{crate} begins before {one} has ended")
    both = [events.index((what, crate)) for what in ("begins", "ends") for crate in ("tool", "library")]
    if max(both[:2]) > min(both[2:]):
        faults.append(f"program and library are not proved side by side: {events}")
    if not re.search(r"^\d of 6, at work: [a-z, ]+, 0 min$", out, re.M) or not re.search(r"^6 of 6 \w+ 0 min$", out, re.M):
        faults.append(f"it does not say how far it is: {out}")
    most = running = 0
    for what, _ in events:
        running += 1 if what == "begins" else -1
        most = max(most, running)
    tell("at a time", 2, most)
    events, ended, out, errors = prove(crates, wrong="machine")
    tell("the end, with one that isn't proved", 1, ended)
    tell("begun after it", set(), {crate for _, crate in events} & {"tool", "library"})
    if "machine is not proved" not in errors or "nothing was put in place" not in errors:
        faults.append(f"it does not say what isn't proved: {errors}")


if __name__ == "__main__":
    judge_completion("bash"), judge_completion("zsh"), judge_proving()
    done = subprocess.run([TOP / "tools/completion"], capture_output=True, text=True)
    tell("the completions are made of the words of osdp-port", (0, ""), (done.returncode, done.stdout + done.stderr))
    print(f"release: {len(faults)} faults", *faults, sep="\n")
    sys.exit(1 if faults else 0)
