#!/usr/bin/env python3
"""How many exchanges, repeats, packets and so on for a second: `bench/machines.py [SECONDS [ROUNDS]]`, 0.5 and 3 if left out.

It runs `osdp_bench` and the yardstick in turn, each for some SECONDS, and prints for each kind of work how often it is done for a
second of processor time by both, the best of the rounds, the ratio, and the ratio that is wanted, if any. Both print how often the work came out as it should: each time."""
import os
import subprocess
import sys
import tempfile

HERE = os.path.dirname(os.path.abspath(__file__))
PROGRAM = os.path.join(HERE, "..", "crates", "osdp_bench", "out", "osdp_bench")
# Each kind of work, with the ratio that is wanted.
WANTED = {
    "poll": 1.2, "out": 1.0, "turn": None, "poll_heard": None, "out_heard": 1.0, "repeat": 1.0, "ignored": None, "idle": 1.0,
    "encode": None, "encode_to": 0.9, "framer_sum": 0.7, "framer_crc": 0.9, "crc": 0.9, "session_poll": 1.0, "session_out": 1.0,
}


def run(words, kind, count):
    with tempfile.TemporaryFile() as given:
        child = subprocess.Popen([*words, kind, str(count)], stdout=given)
        _, status, used = os.wait4(child.pid, 0)
        child.returncode = os.waitstatus_to_exitcode(status)
        given.seek(0)
        done = given.read().decode().strip()
    if child.returncode != 0 or done != str(count):
        sys.exit(f"{words[0]} {kind} {count}: status {child.returncode}, it printed {done}")
    return used.ru_utime + used.ru_stime


def count_for(words, kind, seconds):
    count = 1000
    while True:
        spent = run(words, kind, count)
        if spent >= seconds / 4 or count >= 10**10:
            return max(1000, int(count * seconds / max(spent, 0.001)))
        count *= 4


def main():
    seconds = float(sys.argv[1]) if len(sys.argv) > 1 else 0.5
    rounds = int(sys.argv[2]) if len(sys.argv) > 2 else 3
    if not os.access(PROGRAM, os.X_OK):
        sys.exit(f"no program at {PROGRAM}: run `rt run` in crates/osdp_bench first")
    with tempfile.TemporaryDirectory() as folder:
        manifest = os.path.join(HERE, "yardstick", "Cargo.toml")
        subprocess.run(["cargo", "build", "--quiet", "--release", "--offline", "--manifest-path", manifest, "--target-dir", folder], check=True)
        sides = [[PROGRAM], [os.path.join(folder, "release", "yardstick"), "machines"]]
        print(f"{'work':12} {'osdp':>12} {'yardstick':>12} {'ratio':>6} {'wanted':>6}")
        for kind, wanted in WANTED.items():
            counts = [count_for(side, kind, seconds) for side in sides]
            best = [0.0, 0.0]
            for _ in range(rounds):
                for place, side in enumerate(sides):
                    best[place] = max(best[place], counts[place] / run(side, kind, counts[place]))
            print(f"{kind:12} {best[0]:12.0f} {best[1]:12.0f} {best[0] / best[1]:6.2f} {wanted or '':>6}", flush=True)


main()
