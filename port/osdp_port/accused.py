"""What `osdp monitor` says of the scenarios of `test device`: where it accuses the device.

The scenarios are one capture, in their order: what was sent is a run, and what was heard of it another. The
tester sends wrong packets on purpose, so what the monitor says of the panel's end isn't told. Rules of our
profile alone are left out."""
import re
import subprocess

EXCHANGES = ("asks", "opens")


def captured(lines):
    """The runs of the lines for `osdp test`, as digits, and for each the number of its rule."""
    runs, rules = [], []
    for words in (line.split() for line in lines):
        if words[:1] and words[0] in EXCHANGES:
            for digits in (words[3], words[5]):
                if digits != "none":
                    runs.append(digits)
                    rules.append(int(words[1]))
    return runs, rules


def accused(osdp, address, lines):
    """For each rule in whose scenario the monitor accuses the device: the lines that say so."""
    runs, rules = captured(lines)
    done = subprocess.run(
        [*osdp, "monitor", "--standard"],
        input="".join(f"{run}\n" for run in runs),
        capture_output=True,
        text=True,
        check=False,
    )
    said, rule = {}, None
    for line in done.stdout.splitlines():
        told = re.fullmatch(rf"(\d+):\d+ reader {address}: (.*)", line)
        if told:
            rule = rules[int(told[1]) - 1]
            said.setdefault(rule, []).append(f"the monitor accuses the device: {told[2]}")
        elif rule is not None and line.startswith(" "):
            said[rule].append(" ".join(line.split()))
        else:
            rule = None
    return said
