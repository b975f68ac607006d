"""Programs beside a broker, for `broker.py`: one that is killed, stopped and started again, one that is at the other side of the broker, and an order of that."""
import json
import signal
import threading
import time

from paho.mqtt import client as mqtt
from paho.mqtt.packettypes import PacketTypes
from paho.mqtt.properties import Properties

LINES, DEVICES = ("north", "south"), 3


def moment():
    return int(time.clock_gettime(time.CLOCK_BOOTTIME) * 1000)


class Process:
    """A program that is killed, stopped and started again."""

    def __init__(self, starts):
        self.starts, self.process, self.back_at, self.stopped_until, self.starts_count = starts, None, 0, None, 0

    def looks(self):
        """Starts it where it is to be there, and lets it go on where it has stood still for long enough."""
        if self.process is not None and self.process.poll() is not None:
            self.process = None
            self.back_at = max(self.back_at, moment() + 400)
        if self.process is None and moment() >= self.back_at:
            self.process, self.stopped_until = self.starts(), None
            self.starts_count += 1
        if self.stopped_until is not None and moment() >= self.stopped_until:
            self.goes_on()

    def kills(self, pause):
        self.back_at = moment() + pause
        if self.process:
            self.process.kill()
            self.process.wait()
            self.process = None
        self.stopped_until = None

    def ends(self):
        """Ends it as a service manager does. It says goodbye, and is started again."""
        if self.process and self.stopped_until is None:
            self.process.send_signal(signal.SIGTERM)

    def stops(self, pause):
        if self.process and self.stopped_until is None:
            self.process.send_signal(signal.SIGSTOP)
            self.stopped_until = moment() + pause

    def goes_on(self):
        if self.process and self.stopped_until is not None:
            self.process.send_signal(signal.SIGCONT)
        self.stopped_until = None


class Client:
    """A program at the other side of the broker. Each connection has a client of its own: so no library sends a message once more whose time has gone on."""

    def __init__(self, port):
        self.port, self.client, self.is_there, self.made = port, None, False, 0
        self.messages, self.lock, self.pulses = [], threading.Lock(), {}

    def looks(self):
        if self.client is None or not self.is_there and moment() > self.made + 3000:
            self.ends()
            self.made = moment()
            self.client = mqtt.Client("", protocol=mqtt.MQTTv5)
            self.client.on_connect, self.client.on_disconnect, self.client.on_message = self.connected, self.gone, self.came
            self.client.connect_async("127.0.0.1", self.port, 10)
            self.client.loop_start()

    def ends(self):
        if self.client:
            self.client.on_disconnect = self.client.on_connect = None
            self.client.disconnect()
            self.client.loop_stop()
            self.client = None

    def connected(self, client, *_):
        client.subscribe([(f"osdp/+/+/{name}", 1) for name in ("outcome", "event", "rejected")] + [("osdp/+/pulse", 1), ("osdp/+/presence", 1), ("osdp/+/figures", 1)])
        self.is_there = True

    def gone(self, *_):
        self.is_there = False

    def came(self, _, __, message):
        if message.topic.endswith("/pulse"):
            self.pulses[message.topic.split("/")[1]] = json.loads(message.payload)["pulse"]
        with self.lock:
            self.messages.append((message.topic, bytes(message.payload), moment()))

    def taken(self):
        with self.lock:
            found, self.messages = self.messages, []
        return found

    def publishes(self, topic, fields, expiry=None, retain=False):
        if not self.is_there:
            return
        more = Properties(PacketTypes.PUBLISH)
        if expiry is not None:
            more.MessageExpiryInterval = expiry
        try:
            self.client.publish(topic, json.dumps({"version": 1, **fields}), qos=1, retain=retain, properties=more)
        except (OSError, ValueError):
            pass  # the connection has gone


class Key:
    """An order of the sender: a relay that moves for a time that no other order has."""

    def __init__(self, number, line, device, seconds, at):
        self.key, self.line, self.device = f"key-{number}", line, device
        self.command = f"OUT {number % 8}:5:{1 + number // 8}"
        self.time, self.at = moment() + 1000 * seconds, at
        self.outcomes, self.is_unknown, self.was_known, self.sends = {}, False, False, 0
        self.more = number % 3  # how often it is sent once more although its outcome is there

    @property
    def topic(self):
        return f"osdp/{self.line}/door-{self.device + 1}"

    def is_over(self):
        return bool(self.outcomes) or self.is_unknown

    def is_to_be_sent(self, now):
        """Whether its message is due."""
        if now < self.at:
            return False
        if not self.is_over():
            return True
        self.more -= 1
        return self.more >= 0 and now < self.time
