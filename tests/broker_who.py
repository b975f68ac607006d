"""Who may what, and the rest of a line's service: `broker_who.py OSDP`. A broker with TLS, passwords and the ACL of release/service; a line with three devices of ours.

A wrong password and a wrong certificate are told; who may not order moves nothing; a second store gets no line that is served; states wanted hold after a device's restart; cards are
hashed; an outcome and events are had by asking; systemd is told; SIGTERM says goodbye, and forgets what waits. Prints each fault."""
import json
import os
import re
import socket
import ssl
import subprocess
import sys
import tempfile
import threading
import time
from pathlib import Path

from paho.mqtt import client as mqtt
from paho.mqtt.packettypes import PacketTypes
from paho.mqtt.properties import Properties

import broker

TOP = broker.TOP
USERS = {"osdp-north": "one", "doors": "two", "record": "three"}
faults = []


def asks(holds, what):
    if not holds:
        faults.append(what)
        print(f"broker_who: {what}", flush=True)


def waits(until, seconds=40.0):
    end = time.monotonic() + seconds
    while not until() and time.monotonic() < end:
        time.sleep(0.05)
    return until()


def certified(work):
    """A certificate of a broker here, one that is no broker's, and passwords."""
    def makes(name, subject):
        subprocess.run(["openssl", "req", "-x509", "-newkey", "ec", "-pkeyopt", "ec_paramgen_curve:P-256", "-nodes", "-keyout", work / f"{name}.key", "-out", work / f"{name}.pem",
                        "-days", "2", "-subj", f"/CN={subject}", "-addext", f"subjectAltName=DNS:{subject}"], check=True, capture_output=True)
    makes("broker", "localhost"), makes("other", "localhost")
    (work / "passwords").touch(0o600)
    for user, password in USERS.items():
        subprocess.run(["mosquitto_passwd", "-b", work / "passwords", user, password], check=True, capture_output=True)
        (work / user).write_text(f"{password}\n")
    for path in (work / "broker.key", work / "passwords"):
        path.chmod(0o644)  # mosquitto runs as a user of its own where root starts it


class User:
    """A program of a user at the broker."""

    def __init__(self, port, work, user):
        self.messages, self.lock, self.is_there = [], threading.Lock(), False
        self.client = mqtt.Client("", protocol=mqtt.MQTTv5)
        self.client.username_pw_set(user, USERS[user])
        self.client.tls_set(str(work / "broker.pem"))
        self.client.on_connect, self.client.on_message = self.connected, self.came
        self.client.connect("localhost", port, 10)
        self.client.loop_start()

    def connected(self, client, *_):
        client.subscribe("osdp/#", 1)
        self.is_there = True

    def came(self, _, __, message):
        with self.lock:
            self.messages.append((message.topic, message.retain, message.payload))

    def publishes(self, topic, payload, expiry=None, retain=False):
        more = Properties(PacketTypes.PUBLISH)
        if expiry:
            more.MessageExpiryInterval = expiry
        self.client.publish(f"osdp/north/{topic}", json.dumps({"version": 1, **payload}) if payload is not None else b"", 1, retain, more)

    def heard(self, end, **fields):
        """The payloads with these fields of topics that end so."""
        with self.lock:
            found = [json.loads(payload) for topic, _, payload in self.messages if topic.endswith(end) and payload]
        return [each for each in found if all(each.get(name) == value for name, value in fields.items())]

    def ends(self):
        self.client.disconnect()
        self.client.loop_stop()


class Place:
    """The line, the broker and the service of it."""

    def __init__(self, osdp, work):
        self.osdp, self.work, self.port, self.started = osdp, work, broker.Building.free_port(), []
        certified(work)
        (work / "acl").write_text((TOP / "release/service/acl").read_text())
        (work / "mosquitto.conf").write_text(f"listener {self.port} 127.0.0.1\ncafile {work}/broker.pem\ncertfile {work}/broker.pem\nkeyfile {work}/broker.key\nallow_anonymous false\n"
                                             f"password_file {work}/passwords\nacl_file {work}/acl\n")
        self.broker = self.starts(["mosquitto", "-c", work / "mosquitto.conf"], "broker")
        self.line = self.starts(["/usr/bin/python3", "-B", TOP / "tests/broker_line.py", osdp, work / "port", work / "did", 1000, 5], "line", stdin=subprocess.PIPE)
        waits((work / "port").is_symlink)
        (work / "card.key").write_text("secret\n")
        self.configures("north", "osdp-north")

    def starts(self, words, name, **more):
        with open(self.work / f"{name}.log", "ab") as log:
            started = subprocess.Popen([str(word) for word in words], stdout=log, stderr=log, **{"stdin": subprocess.DEVNULL, **more})
        self.started.append(started)
        return started

    def configures(self, name, user, ca="broker.pem", password="osdp-north"):
        work = self.work
        (work / f"{name}.toml").write_text(
            f"version = 1\nline = \"north\"\nport = \"{work}/port\"\nstore = \"{work}/{name}.store\"\n[devices]\ndoor-1 = 5\ndoor-2 = 6\ndoor-3 = 7\n[broker]\nhost = \"localhost\"\n"
            f"port = {self.port}\nca = \"{work}/{ca}\"\nuser = \"{user}\"\npassword_file = \"{work}/{password}\"\n[events]\ncards = \"hashed\"\ncard_key_file = \"{work}/card.key\"\n")

    def words(self, name):
        return ["/usr/bin/python3", "-B", TOP / "port/osdp-port", "--plain", "--osdp", self.osdp, "--config", self.work / f"{name}.toml", "serve"]

    def makes_store(self, name):
        done = subprocess.run([str(word) for word in [*self.words(name), "--new"]], capture_output=True, text=True)
        asks(done.returncode == 0, f"no store is made: {done.stderr}")

    def serves(self, name, **more):
        return self.starts([*self.words(name), "--metrics", self.work / f"{name}.prom"], name, **more)

    def says(self, text):
        self.line.stdin.write(f"{text}\n".encode())
        self.line.stdin.flush()

    def log(self, name):
        return (self.work / f"{name}.log").read_text()

    def acted(self, text, address=5):
        path = self.work / "did"
        return sum(line.startswith(f"acted {address} ") and line.endswith(f" {text}") for line in path.read_text().splitlines())

    def ends(self):
        for process in self.started:
            process.kill()
            process.wait()


def ended(process, seconds=40.0):
    try:
        return process.wait(seconds)
    except subprocess.TimeoutExpired:
        process.kill()
        return None


def checks(place):
    """What `serve --check` says before there is a store, and after that."""
    done = subprocess.run([str(word) for word in [*place.words("north"), "--check"]], capture_output=True, text=True)
    asks(done.returncode == 3 and "there is no store at" in done.stderr, f"without a store it is {done}")
    place.makes_store("north")
    done = subprocess.run([str(word) for word in [*place.words("north"), "--check"]], capture_output=True, text=True)
    asks(done.returncode == 0 and done.stdout.startswith("ready: line north at "), f"it isn't ready: {done}")


def refuses(place):
    """A wrong password and a wrong certificate are told, and nothing else is."""
    (place.work / "wrong").write_text("wrong\n")
    for name, given, wanted in (("password", {"password": "wrong"}, "it refuses the service: "), ("certificate", {"ca": "other.pem"}, "certificate verify failed")):
        place.configures(name, "osdp-north", **given)
        place.makes_store(name)
        service = place.serves(name)
        asks(waits(lambda: wanted in place.log(name)), f"of a wrong {name} it says {place.log(name)!r}")
        service.terminate()
        asks(ended(service) == 0, f"with a wrong {name} it ends otherwise")
        asks(place.log(name).count("no broker at") == 1, f"a wrong {name} is told again and again")


def orders(place, doors, record):
    """Who may order does, and who may not doesn't."""
    asks(waits(lambda: doors.heard("/presence", online=True) and all(each["online"] for each in doors.heard("/presence", online=True)[-1]["devices"].values())), "the devices don't come online")
    record.publishes("door-1/order", {"key": "no-1", "command": "OUT 1:5:9"}, 10)
    doors.publishes("door-1/order", {"key": "yes-1", "command": "OUT 1:5:7"}, 10)
    asks(waits(lambda: doors.heard("/outcome", key="yes-1", outcome="settled", answer="ACK", number=1, address=5)), f"no outcome: {place.log('north')}")
    asks(place.acted("OUT 1:5:7") == 1 and place.acted("OUT 1:5:9") == 0, "who may not order does, or who may doesn't")
    doors.publishes("door-1/order", {"key": "yes-2", "command": "OUT 9:5:7"}, 10)
    asks(waits(lambda: doors.heard("/outcome", key="yes-2", outcome="refused")), "an order that its device refuses has no outcome")
    why = doors.heard("/outcome", key="yes-2")[0].get("why", "") if doors.heard("/outcome", key="yes-2") else ""
    asks(why.startswith("NAK 9"), f"it is refused since {why}")
    doors.publishes("door-1/order", {"key": "yes-3", "command": "OUT 1:5:x"}, 10)
    asks(waits(lambda: doors.heard("/outcome", key="yes-3", outcome="refused")), "an order that osdp doesn't read has no outcome")
    before = len(doors.heard("/outcome", key="yes-1"))
    record.publishes("door-1/ask", {"key": "yes-1"})
    asks(waits(lambda: len(doors.heard("/outcome", key="yes-1")) > before), "an outcome can't be asked for")
    record.publishes("door-2/ask", {"key": "yes-1"})
    asks(waits(lambda: doors.heard("door-2/rejected", key="yes-1", why="the key isn't known")), "the key of another device is told")


def cards(place, doors, record):
    """A card is sent as its hash alone, and isn't in the log; it can be asked for, and is late then."""
    place.says("card 1 0000ABCD")
    said = subprocess.run(["openssl", "dgst", "-sha256", "-hmac", "secret"], input=b"32:0000ABCD", capture_output=True, check=True).stdout.split()[-1].decode()
    asks(waits(lambda: doors.heard("door-2/event", hash=said, number=1, late=False, kind="card")), f"no card: {doors.heard('/event')}")
    asks(not any(b"ABCD" in payload for _, __, payload in doors.messages) and "ABCD" not in place.log("north"), "a hashed card is told whole")
    record.publishes("door-2/ask", {"events": {"from": 1, "to": 9}})
    asks(waits(lambda: doors.heard("door-2/event", hash=said, number=1, late=True)), "a card can't be asked for")
    record.publishes("door-2/ask", {"events": {"from": 7, "to": 3}})
    asks(waits(lambda: doors.heard("door-2/rejected")), "a wrong question isn't told")


def states(place, doors):
    """States wanted hold, and hold again after the device's restart."""
    doors.publishes("door-3/wanted", {"states": ["on output 2", "led red"]}, retain=True)
    asks(waits(lambda: place.acted("OUT 2:2:0", 7) == 1), "a state that is wanted isn't set")
    place.says("restart 2")
    asks(waits(lambda: place.acted("OUT 2:2:0", 7) == 2, 30), "a state that is wanted isn't set again")
    doors.publishes("door-3/wanted", None, retain=True)


def metrics(place):
    """Each metric has its help and its kind, and the counts of each device grow."""
    path = place.work / "north.prom"
    text = path.read_text() if path.exists() else ""
    names = re.findall(r"^# TYPE (\w+) (?:counter|gauge)$", text, re.M)
    asks(len(names) == 7 and all(f"# HELP {name} " in text for name in names), f"metrics: {text}")
    asks(all(re.match(r"# |\w+\{line=\"north\"(,device=\"door-[123]\")?\} \d+$", line) for line in text.splitlines()), f"metrics that are none: {text}")
    asks(waits(lambda: re.search(r"^osdp_packets_total\{line=\"north\",device=\"door-2\"\} [1-9]\d+$", path.read_text(), re.M), 30), "no packets are counted")


def is_alone(place, doors, service):
    """A second store doesn't get the line while it is served."""
    place.configures("second", "osdp-north")
    other = place.work / "other.port"
    line = place.starts(["/usr/bin/python3", "-B", TOP / "tests/broker_line.py", place.osdp, other, place.work / "other.did", 1000, 5], "other.line", stdin=subprocess.PIPE)
    waits(other.is_symlink)
    path = place.work / "second.toml"
    path.write_text(path.read_text().replace(f"{place.work}/port", str(other)))
    place.makes_store("second")
    second = place.serves("second")
    asks(ended(second) == 3 and "is served by another store" in place.log("second"), f"a second store serves the line: {place.log('second')}")
    third = place.serves("north")
    asks(ended(third) == 3 and "another program has the store" in place.log("north"), "a second service has the store")
    asks(waits(lambda: doors.heard("/presence")[-1]["online"] is True), "the end of a second service is told as that of the first")
    asks(service.poll() is None, "the first service ends")
    line.kill()
    line.wait()


def comes_after(place, doors):
    """A line whose service has left no will is taken once no pulse has come for a while, and one that is taken is left by the one that had it."""
    owner = "0123456789abcdef"
    with_rights = User(place.port, place.work, "osdp-north")
    with_rights.publishes("presence", {"online": True, "line": "north", "owner": owner, "devices": {}}, retain=True)
    waits(lambda: doors.heard("/presence", owner=owner))
    service, began = place.serves("north"), time.monotonic()
    asks(not waits(lambda: doors.heard("/presence")[-1]["owner"] != owner, 15), "a line is taken at once that another store serves")
    asks(waits(lambda: doors.heard("/presence")[-1]["owner"] != owner and doors.heard("/presence")[-1]["devices"]["door-1"]["online"], 25), f"a line that nobody serves is not taken: {place.log('north')}")
    asks(time.monotonic() > began + 19, "it is taken too early")
    with_rights.publishes("pulse", {"owner": owner, "pulse": "0:1"})
    asks(ended(service) == 3 and f"is served by another store: {owner}" in place.log("north"), "a service goes on whose line another one has")
    with_rights.ends()


def goodbye(place, doors, service):
    """SIGTERM ends it. What waits is forgotten, and the presence says so."""
    place.line.send_signal(19)  # SIGSTOP: the device answers nothing
    time.sleep(6)
    doors.publishes("door-1/order", {"key": "waits-1", "command": "OUT 1:5:8"}, 100)
    asks(waits(lambda: not doors.heard("/presence")[-1].get("devices", {"door-1": {"online": True}})["door-1"]["online"]), "a device that is gone is told as there")
    time.sleep(1)
    service.terminate()
    asks(ended(service) == 0, "SIGTERM doesn't end it well")
    asks(waits(lambda: doors.heard("/outcome", key="waits-1", outcome="forgotten")), "what waits isn't forgotten")
    asks(waits(lambda: doors.heard("/presence")[-1]["online"] is False), "it doesn't say goodbye")
    place.line.send_signal(18)


def main():
    osdp = str(Path(sys.argv[1]).resolve())
    with tempfile.TemporaryDirectory() as folder, socket.socket(socket.AF_UNIX, socket.SOCK_DGRAM) as manager:
        work = Path(folder)
        work.chmod(0o755)
        manager.bind(str(work / "notify"))
        manager.settimeout(60)
        place = Place(osdp, work)
        try:
            checks(place)
            asks(waits(lambda: is_listening(place.port)), f"no broker: {place.log('broker')}")
            refuses(place)
            service = place.serves("north", env={**os.environ, "NOTIFY_SOCKET": str(work / "notify")})
            asks(manager.recv(99) == b"READY=1" and manager.recv(99) == b"WATCHDOG=1", "systemd isn't told that it is ready")
            doors, record = User(place.port, work, "doors"), User(place.port, work, "record")
            orders(place, doors, record), cards(place, doors, record), states(place, doors), metrics(place), is_alone(place, doors, service)
            goodbye(place, doors, service), comes_after(place, doors)
            asks("Traceback" not in place.log("north"), place.log("north"))
            doors.ends(), record.ends()
        finally:
            place.ends()
    print(f"who may what: {len(faults)} faults")
    return 1 if faults else 0


def is_listening(port):
    try:
        with socket.create_connection(("localhost", port), 1):
            return True
    except (OSError, ssl.SSLError):
        return False


if __name__ == "__main__":
    sys.exit(main())
