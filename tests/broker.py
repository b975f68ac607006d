"""A broker, two lines and their services, of which nothing stays: `broker.py OSDP [--seed N] [--orders N] [--cards N] [--longest S] [--wrong RULE | --rules]`.

Each line has three devices of ours on a pseudo terminal (`broker_line.py`). A sender gives orders by keys and repeats each message until it has the outcome; cards are held to the
devices. Meanwhile broker, services, their `osdp panel`, lines, devices and terminals are killed, stopped for 3 to S seconds, or taken away, at random by the seed; and the disks of the
stores are full, or for 3 to S seconds no sync of one ends, or none may be written (`broker_faults.py`).

At the end: each key that was accepted has one outcome, and another one never moved a relay; no relay moved twice for a key, nor after its time; what was settled was done, and what
expired, was refused or forgotten wasn't; no event is missing but the last ones of a device that lost power; only a marked one comes twice; numbers have no gap.

With --wrong a rule of the service is left out (`broker_wrong.py`), and what breaks that is tried: then that has to be found. With --rules the same is tried with all rules, and
nothing is found. Prints the counts, and each fault; the status is 1 where there is one."""
import argparse
import json
import os
import random
import re
import socket
import subprocess
import sys
import tempfile
import time
from collections import Counter, defaultdict
from pathlib import Path

import jsonschema

from broker_faults import Disk, faults_of
from broker_programs import DEVICES, LINES, Client, Key, Process, moment

TOP = Path(__file__).resolve().parent.parent
sys.dont_write_bytecode = True
FORM = jsonschema.Draft202012Validator(json.loads((TOP / "docs/broker.schema.json").read_text()))
# a fault by which it is found that a rule is left out
FOUND = {"dedupe": "^the relay of .* moved [2-9] times$", "expiry": "^the relay of .* after its time$", "store": "^the relay of .* moved [2-9] times$",
         "moment": "^the relay of .* after its time$"}
TRIES = 4  # so often a disk stops: that is seen where the order goes out in the turn that stores it, so most times of four, and not always
AGAIN = 15.0  # for so many seconds it is looked whether a relay moves once more
OVERLAP = 0.003  # how likely something fails at a look though something is not online yet
OLDEST = 30  # from which age on a card is late, in seconds
DEVICE_LATE = 1000  # so late our devices may act, in milliseconds
SETTLES = 60.0  # so many seconds all has to come to its end once nothing fails any more
END_OF_KEY = 4000  # so many milliseconds after its time a key that isn't known stays so


class Building:
    """All of it."""

    def __init__(self, words, work):
        self.words, self.work, self.random = words, work, random.Random(words.seed)
        self.faults, self.keys, self.wrong, self.shown = [], {}, {}, 0
        self.events, self.rejected, self.did = defaultdict(dict), Counter(), Counter()
        self.online, self.is_at_end = {}, False
        self.twice = self.marked_count = self.thrown = self.told = 0
        self.latest = -10 ** 9  # how late a relay moved after its time, at most, in milliseconds
        self.port = self.free_port()
        (work / "broker.conf").write_text(f"listener {self.port} 127.0.0.1\nallow_anonymous true\npersistence true\npersistence_location {work}/\nautosave_interval 1\n"
                                          "max_queued_messages 100000\n")
        self.broker = Process(lambda: self.starts("broker", ["mosquitto", "-c", work / "broker.conf"]))
        self.line, self.service, self.disk = {}, {}, {}
        for name in LINES:
            self.prepares(name)
        self.client = Client(self.port)

    @staticmethod
    def free_port():
        with socket.socket() as found:
            found.bind(("127.0.0.1", 0))
            return found.getsockname()[1]

    def starts(self, name, words, **more):
        with open(self.work / f"{name}.log", "ab") as log:
            return subprocess.Popen([str(word) for word in words], stdout=log, stderr=log, **{"stdin": subprocess.DEVNULL, **more})

    def prepares(self, name):
        """The configuration, the store and the programs of a line."""
        folder, work = self.work / name, self.work
        folder.mkdir()
        self.disk[name] = Disk(folder)
        names = "\n".join(f"door-{at + 1} = {5 + at}" for at in range(DEVICES))
        (work / f"{name}.toml").write_text(f"version = 1\nline = \"{name}\"\nport = \"{work}/{name}.port\"\nstore = \"{folder}/store\"\n[devices]\n{names}\n[broker]\nport = {self.port}\n"
                                           f"[events]\noldest = {OLDEST}\n")
        script = TOP / "tests/broker_wrong.py" if self.words.wrong else TOP / "port/osdp-port"
        program = ["/usr/bin/python3", "-B", script, *([self.words.wrong] if self.words.wrong else []), "--osdp", self.words.osdp, "--config", work / f"{name}.toml", "serve"]
        subprocess.run([str(word) for word in [*program, "--new"]], check=True, stdout=subprocess.DEVNULL)
        more = {**os.environ, "LD_PRELOAD": str(work / "kills.so"), **self.disk[name].environment()}
        self.line[name] = Process(lambda: self.starts(f"{name}.line", ["/usr/bin/python3", "-B", TOP / "tests/broker_line.py", self.words.osdp, work / f"{name}.port", work / f"{name}.did",
                                                                       DEVICE_LATE, 5], stdin=subprocess.PIPE))
        self.service[name] = Process(lambda: self.starts(f"{name}.service", program, env=more))

    def all_programs(self):
        return [self.broker, *self.line.values(), *self.service.values()]

    def says(self, line, *words):
        """Hands the devices of a line a line."""
        process = self.line[line].process
        try:
            process.stdin.write((" ".join(map(str, words)) + "\n").encode())
            process.stdin.flush()
        except (AttributeError, OSError):
            pass  # it isn't there

    # what fails

    def fails(self):
        """Something fails, at random."""
        line, pause = self.random.choice(LINES), self.random.randint(200, 2000)
        stop = self.random.randint(3000, 1000 * self.words.longest)
        kinds = faults_of(self, line, pause, stop)
        names = self.words.kinds.split(",") if self.words.kinds else list(kinds)
        # what a broker that is stopped finds in its sockets is new to it: an order that names no pulse would be late
        name = self.random.choice([each for each in names if not self.words.by_expiry or each != "stops broker"])
        self.did[name] += 1
        kinds[name]()

    def looks(self):
        for each in self.all_programs():
            each.looks()
        for each in self.disk.values():
            each.looks()
        self.client.looks()
        for topic, payload, at in self.client.taken():
            self.hears(topic, payload, at)

    def heals(self):
        """Nothing fails any more."""
        for each in self.all_programs():
            each.goes_on()
        for each in self.disk.values():
            each.heals()

    # the sender

    def orders(self, line, device, seconds):
        """A new key."""
        key = Key(len(self.keys), line, device, seconds, moment())
        self.keys[key.key] = key
        return key

    def sends(self, key):
        """Sends a key's message once more, or asks for the outcome where its time is over."""
        left, pulse = (key.time - moment()) // 1000, self.client.pulses.get(key.line)
        key.at = moment() + self.random.randint(300, 2000)
        if left >= 1 and pulse:
            for _ in range(self.random.choice((1, 1, 2))):
                key.sends += 1
                named = {} if self.words.by_expiry else {"pulse": pulse, "within": left}
                self.client.publishes(f"{key.topic}/order", {"key": key.key, "command": key.command, **named}, left)
        elif left < 0:
            self.client.publishes(f"{key.topic}/ask", {"key": key.key})

    def sends_wrong(self):
        """Sends what is no order."""
        number = 400000 + len(self.wrong)
        fields, line, device = {"key": f"wrong-{number}", "command": f"OUT {number % 8}:5:{1 + number // 8}"}, self.random.choice(LINES), 1 + self.random.randrange(DEVICES)
        self.wrong[fields["command"]] = fields["key"]
        topic, kind = f"osdp/{line}/door-{device}/order", len(self.wrong) % 4
        if kind == 0:
            self.client.publishes(topic, fields)
        elif kind == 1:
            self.client.publishes(topic, fields, 20, retain=True)
        elif kind == 2 and self.keys:
            key = self.random.choice(list(self.keys.values()))
            if key.was_known or key.outcomes:  # else it could come first
                self.client.publishes(f"{key.topic}/order", {**fields, "key": key.key}, 20)
        else:
            self.client.publishes(topic, {**fields, "command": "move 9; rm -rf /\n"}, 20)

    def cards(self, line, device):
        """A card that no other is like."""
        self.shown += 1
        self.says(line, "card", device, f"{self.shown:08X}")

    # what comes

    def hears(self, topic, payload, at):
        message = json.loads(payload)
        _, line, *rest = topic.split("/")
        for fault in FORM.iter_errors({"topic": rest[-1], "payload": message}):
            self.faults.append(f"the schema refuses {topic} {message}: {fault.message}")
            break
        if rest[-1] == "outcome":
            self.hears_outcome(message)
        elif rest[-1] == "event":
            self.hears_event(line, message)
        elif rest[-1] == "presence":
            self.online[line] = sum(each["online"] for each in message.get("devices", {}).values())
        elif rest[-1] == "rejected":
            self.rejected[message["why"].split(" of the events")[0][:40]] += 1
            key = self.keys.get(message.get("key"))
            if key and message["why"] == "the key isn't known" and moment() > key.time + END_OF_KEY:
                key.is_unknown = True

    def hears_outcome(self, message):
        key = self.keys.get(message["key"])
        if key is None:
            self.faults.append(f"an outcome of no key: {message}")
            return
        key.outcomes[json.dumps(message, sort_keys=True)] = message

    def hears_event(self, line, message):
        place, number = (line, message["address"]), message["number"]
        shape = {name: value for name, value in message.items() if name not in ("late", "age")}
        self.asks(message["late"] or message["age"] <= OLDEST, f"an old card is told as new: {message}")
        before = self.events[place].setdefault(number, shape)
        if before != shape:
            self.faults.append(f"the event {place} {number} has two forms: {before} and {shape}")

    def asks_for_gaps(self):
        """Asks for the events that are missing before the last one, and for the one after it."""
        for line in LINES:
            for device in range(DEVICES):
                found = self.events[line, 5 + device]
                last = max(found, default=0)
                first = next((number for number in range(1, last + 1) if number not in found), last + 1)
                if first <= last or self.is_at_end:
                    self.client.publishes(f"osdp/{line}/door-{device + 1}/ask", {"events": {"from": first, "to": min(max(last, first) + 20, first + 900)}})

    # the day

    def begins(self):
        """Waits until the devices are online."""
        self.asks(self.waits(self.are_online, SETTLES), "the devices don't come online")

    def again(self, key):
        """Sends a key's message once more though its outcome is there."""
        key.more, before = 1, self.acted()
        self.waits(lambda: key.more < 1, SETTLES)
        self.waits(lambda: self.acted() > before, AGAIN)

    def acted(self):
        """How often the relays of a line have moved."""
        return sum(words[0] == "acted" for words in self.log("north"))

    def dedupe(self):
        """A message comes again once its order is done."""
        key = self.orders("north", 0, 90)
        self.waits(key.is_over, SETTLES)
        self.again(key)

    def expiry(self):
        """A device is away for longer than its order has time."""
        self.line["north"].stops(10 ** 6)
        self.waits(lambda: self.online.get("north") == 0, SETTLES)
        key = self.orders("north", 0, 12)
        self.waits(lambda: moment() > key.time + 4 * DEVICE_LATE, SETTLES)
        self.line["north"].goes_on()
        self.waits(lambda: self.are_online() and key.is_over(), SETTLES)
        self.waits(lambda: False, 3)

    def store(self):
        """The service is killed once it has told an outcome, and the message comes again."""
        key = self.orders("north", 0, 90)
        self.waits(key.is_over, SETTLES)
        self.service["north"].kills(0)
        self.online["north"] = 0
        self.waits(self.are_online, SETTLES)
        self.again(key)

    def moment(self):
        """A disk stops as an order is stored, for longer than the order has time, and for less than a device waits for its panel."""
        for _ in range(TRIES):
            self.disk["north"].fails("stopped", 10 ** 6)
            key = self.orders("north", 0, 5)
            self.waits(lambda: moment() > key.time + DEVICE_LATE + 500, SETTLES)
            self.disk["north"].heals()
            self.waits(key.is_over, SETTLES)
            self.waits(self.are_online, SETTLES)

    def tries_rules(self, *rules):
        """What breaks a rule that is left out."""
        self.begins()
        for rule in rules:
            {"dedupe": self.dedupe, "expiry": self.expiry, "store": self.store, "moment": self.moment}[rule]()
        return True

    def goes(self):
        """Orders and cards, while all fails, and until each has its end. Whether all came to its end."""
        words = self.words
        self.begins()
        next_order = next_card = next_wrong = next_gap = moment()
        next_fault = moment() + 2000
        while len(self.keys) < words.orders or self.shown < words.cards:
            now = moment()
            self.looks()
            if now >= next_order and len(self.keys) < words.orders:
                self.orders(self.random.choice(LINES), self.random.randrange(DEVICES), self.random.randint(5, 15))
                next_order = now + self.random.randint(0, 2 * words.pause)
            if now >= next_card and self.shown < words.cards:
                self.cards(self.random.choice(LINES), self.random.randrange(DEVICES))
                next_card = now + self.random.randint(0, 2 * words.pause)
            if now >= next_wrong:
                self.sends_wrong()
                next_wrong = now + 8 * words.pause
            if now >= next_fault and (self.are_online() or self.random.random() < OVERLAP):
                self.fails()
                next_fault = now + self.random.randint(500, words.faults)
            if now >= next_gap:
                self.asks_for_gaps()
                next_gap = now + 5000
            for key in [key for key in self.keys.values() if key.is_to_be_sent(now)]:
                self.sends(key)
            time.sleep(0.01)
        return self.comes_to_end()

    def are_online(self):
        """Whether all devices are online, as their services have told it since the last look."""
        return self.client.is_there and all(self.online.get(line) == DEVICES for line in LINES)

    def waits(self, until, seconds):
        """Waits until something holds, while nothing fails. Whether it does."""
        end = time.monotonic() + seconds
        while not until() and time.monotonic() < end:
            self.looks()
            for key in [key for key in self.keys.values() if key.is_to_be_sent(moment())]:
                self.sends(key)
            time.sleep(0.02)
        return until()

    def goes_on_well(self):
        """Once nothing fails any more each device does an order, and tells a card."""
        last = [self.orders(line, device, 50) for line in LINES for device in range(DEVICES)]
        for line in LINES:
            for device in range(DEVICES):
                self.cards(line, device)
        self.asks(self.waits(lambda: all(each.is_over() for each in last), SETTLES), "orders at the end have no outcome")
        for key in last:
            said = [message["outcome"] for message in key.outcomes.values()]
            self.asks(said == ["settled"], f"{key.key} at the end is {said}")

    def comes_to_end(self):
        """Nothing fails any more, and all comes to its end. Whether it does."""
        self.heals()
        self.asks(self.waits(self.are_online, SETTLES), "the devices don't come back")
        self.goes_on_well()
        self.is_at_end, next_gap, quiet = True, 0, moment()
        end = time.monotonic() + SETTLES + self.words.longest + 40
        count = 0
        while time.monotonic() < end:
            self.looks()
            now = moment()
            for key in [key for key in self.keys.values() if key.is_to_be_sent(now)]:
                self.sends(key)
            if now >= next_gap:
                self.asks_for_gaps()
                next_gap = now + 2000
            if sum(map(len, self.events.values())) != count:
                count, quiet = sum(map(len, self.events.values())), now
            if all(key.is_over() for key in self.keys.values()) and now > quiet + 6000 and self.have_come():
                return True
            time.sleep(0.02)
        return False

    def ends(self):
        self.client.ends()
        for each in self.all_programs():
            each.goes_on()
            each.kills(0)

    # what is asked of it

    def asks(self, holds, what):
        if not holds:
            self.faults.append(what)

    def log(self, line):
        """What the devices of a line did."""
        path = self.work / f"{line}.did"
        return [each.split(" ", 3) for each in path.read_text().splitlines()] if path.exists() else []

    def judges(self):
        by_place = {(key.line, 5 + key.device, key.command): key for key in self.keys.values()}
        acted, moments = Counter(), {}
        for line in LINES:
            for kind, address, at, *text in self.log(line):
                if kind != "acted":
                    continue
                self.asks(text[0] not in self.wrong, f"a relay moved for what is no order: {text[0]}")
                key = by_place.get((line, int(address), text[0]))
                self.asks(key or text[0] in self.wrong, f"a relay moved for nothing: {line} {address} {text}")
                if key:
                    acted[key.key] += 1
                    moments[key.key] = int(at)
        for key in self.keys.values():
            self.judges_key(key, acted[key.key], moments.get(key.key))
        for line in LINES:
            for device in range(DEVICES):
                self.judges_events(line, 5 + device)

    def judges_key(self, key, acted, at):
        self.asks(len(key.outcomes) <= 1, f"{key.key} has several outcomes: {list(key.outcomes.values())}")
        self.asks(key.is_over(), f"{key.key} has no outcome")
        self.asks(acted <= 1, f"the relay of {key.key} moved {acted} times")
        self.latest = max(self.latest, self.latest if at is None else at - key.time)
        self.asks(at is None or at <= key.time + DEVICE_LATE, f"the relay of {key.key} moved {(at or 0) - key.time} ms after its time")
        for message in key.outcomes.values():
            least, most = {"settled": (1, 1), "in doubt": (0, 1)}.get(message["outcome"], (0, 0))
            self.asks(least <= acted <= most, f"{key.key} is {message['outcome']}, and its relay moved {acted} times")
        self.asks(key.outcomes or acted == 0, f"{key.key} isn't known, and its relay moved")

    def runs(self, line, address):
        """The cards that each run of a device has taken."""
        runs = []
        for words in self.log(line):
            if words[0] == "begun" and int(words[1]) == address:
                runs.append([])
            if words[0] == "shown" and int(words[1]) == address:
                runs[-1].append(words[3])
        return runs

    def have_come(self):
        """Whether each card of the devices as they are now has come."""
        return all({message["card"] for message in self.events[line, 5 + at].values()} >= set(self.runs(line, 5 + at)[-1]) for line in LINES for at in range(DEVICES))

    def judges_events(self, line, address):
        found = self.events[line, address]
        asked = sorted(found)
        self.asks(asked == list(range(1, len(asked) + 1)), f"the events of {line} {address} have a gap: {asked}")
        came, seen = [], set()
        for number in asked:
            message = found[number]
            self.asks(message["card"] not in seen or message["marked"], f"the event {line} {address} {number} comes twice and isn't marked")
            self.twice += message["card"] in seen
            self.marked_count += message["marked"]
            if message["card"] not in seen:
                came.append(message["card"])
            seen.add(message["card"])
        self.judges_runs(line, address, came, seen)

    def judges_runs(self, line, address, came, seen):
        """Cards come in their order. Of each run of a device all come, but the last ones of one that lost power."""
        runs = self.runs(line, address)
        order = [card for run in runs for card in run if card in seen]
        self.asks(order == came, f"the cards of {line} {address} come in another order: {came}")
        for at, run in enumerate(runs):
            missing = [card for card in run if card not in seen]
            self.told += len(run) - len(missing)
            self.thrown += len(missing)
            is_tail = run[len(run) - len(missing):] == missing
            self.asks(not missing or at < len(runs) - 1 and is_tail, f"cards of {line} {address} are missing: {missing} of {run}")


def main():
    parser = argparse.ArgumentParser()
    parser.add_argument("osdp")
    for name, value in (("--seed", 1), ("--orders", 120), ("--cards", 120), ("--longest", 5), ("--pause", 250), ("--faults", 2500)):
        parser.add_argument(name, type=int, default=value)
    parser.add_argument("--wrong", choices=list(FOUND))
    parser.add_argument("--rules", action="store_true", help="what breaks rules that are left out, and nothing else")
    parser.add_argument("--by-expiry", action="store_true", help="orders name no pulse, and the broker isn't stopped")
    parser.add_argument("--kinds", help="what fails, as kills service,stops line")
    parser.add_argument("--keep", help="a folder for what is left")
    words = parser.parse_args()
    words.osdp = str(Path(words.osdp).resolve())
    with tempfile.TemporaryDirectory(dir=words.keep) as folder:
        if words.keep:
            folder = tempfile.mkdtemp(dir=words.keep)
        work = Path(folder)
        subprocess.run(["cc", "-O1", "-shared", "-fPIC", "-o", work / "kills.so", TOP / "tests/kills.c", "-ldl"], check=True)
        building = Building(words, work)
        began = time.monotonic()
        try:
            if words.wrong:
                building.tries_rules(words.wrong)
            else:
                building.asks(building.tries_rules(*FOUND) if words.rules else building.goes(), "not all came to its end")
        finally:
            building.ends()
        building.judges()
    return tells(building, words, time.monotonic() - began)


def tells(building, words, seconds):
    outcomes = Counter(next(iter(key.outcomes.values()))["outcome"] if key.outcomes else "not known" for key in building.keys.values())
    print(f"seed {words.seed}, {seconds:.0f} s: {len(building.keys)} keys in {sum(key.sends for key in building.keys.values())} messages: "
          + ", ".join(f"{name} {count}" for name, count in outcomes.most_common()))
    print(f"{building.told} cards came, {building.thrown} were thrown away by {building.did['restarts']} restarts of devices and {building.did['kills line']} of lines, "
          f"{building.marked_count} marked, {building.twice} twice; rejected {dict(building.rejected)}")
    print(f"the last relay moved {-building.latest} ms before its time was over")
    print("failed: " + ", ".join(f"{name} {count}" for name, count in sorted(building.did.items())))
    if words.wrong:
        found = [fault for fault in building.faults if re.search(FOUND[words.wrong], fault)]
        print(f"without {words.wrong}: {len(found)} faults, as {found[:2]}" if found else f"broker: without {words.wrong} nothing is found; {building.faults[:5]}")
        return 0 if found else 1
    for fault in building.faults[:20]:
        print(f"broker: {fault}")
    return 1 if building.faults else 0


if __name__ == "__main__":
    sys.exit(main())
