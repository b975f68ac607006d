"""The connection to the broker, by paho: what comes is handed on in the panel's own turns, and what is
published or acknowledged goes out after these were stored.

A connection is begun by a thread of its own, since the line can't wait for it. Each has a client of its own:
what the broker didn't confirm is published anew."""
import os
import threading
from typing import NamedTuple

from paho.mqtt import client as mqtt
from paho.mqtt.packettypes import PacketTypes
from paho.mqtt.properties import Properties
from paho.mqtt.subscribeoptions import SubscribeOptions

from ..faults import Stop, shown
from ..store import StoreError
from .settings import first_line

KEEP_ALIVE = 10  # seconds
PULSE = 1000  # so many milliseconds lie between two pulses
OLDEST = 5000  # a message may lie this many milliseconds behind a pulse
SILENT = 6000  # a broker that confirms no pulse for so long is dropped, in milliseconds
ANSWERS = 2500  # .. and for so long it is given no outcome and no event, which would lie there
LONGEST = 5000  # milliseconds between two attempts, at most
LARGEST = 16384  # bytes of a packet that the broker may send
MOST = 50  # messages that are read in a turn
IN_FLIGHT = 20  # messages that the broker hasn't confirmed, at most, as brokers allow that


class Subscription(NamedTuple):
    """A topic that is heard; whether what is retained there is wanted; and what of it waits: nothing with a QoS of 0."""

    topic: str
    keeps: bool
    qos: int = 1

    def options(self):
        keeps = 0 if self.keeps else 2
        return SubscribeOptions(qos=self.qos, noLocal=self.qos == 0, retainAsPublished=True, retainHandling=keeps)


class Dropped(Exception):
    """What lay in the socket is too old: the connection ends, and nothing of it is acknowledged."""


def properties(kind, **values):
    found = Properties(kind)
    for name, value in values.items():
        setattr(found, name, value)
    return found


class Broker:
    """The broker. `hears` has `connected()`, `disconnected()` and `message(topic, payload, retain, expiry,
    fresh)`, where `fresh` is a moment after which the broker has sent it."""

    def __init__(self, settings, owner, will, subscriptions, clock, say, hears):
        self.settings, self.clock, self.say, self.hears = settings, clock, say, hears
        self.name, self.will, self.subscriptions = f"osdp-{settings.line}-{owner}", will, subscriptions
        self.pulse = None  # gives the topic and the payload of a pulse, and whether it is retained
        self.client = self.attempt = None
        self.is_open = False
        self.fresh = self.pulsed = self.tries_at = 0
        self.again = PULSE
        self.confirmed, self.pulses = {}, {}
        self.wakes, self.woken = os.pipe()
        self.told_why = None

    # the connection

    def made(self):
        """A client that isn't connected yet."""
        client = mqtt.Client(self.name, protocol=mqtt.MQTTv5)
        client.on_socket_register_write = lambda *_: None  # so nothing goes out before `writes`
        client.on_connect, client.on_disconnect = self.on_connect, self.on_disconnect
        client.on_message, client.on_publish = self.on_message, self.on_publish
        topic, payload = self.will
        client.will_set(topic, payload, qos=1, retain=True)
        client.max_inflight_messages_set(IN_FLIGHT)
        values = self.settings
        if values.broker_user:
            password = first_line(values.broker_password_file) if values.broker_password_file else None
            client.username_pw_set(values.broker_user, password)
        if values.broker_ca:
            client.tls_set(values.broker_ca, values.broker_certificate or None, values.broker_key or None)
        return client

    def connects(self, client):
        """Connects, in a thread of its own, and wakes the service."""
        why = None
        try:
            more = properties(
                PacketTypes.CONNECT, SessionExpiryInterval=self.settings.orders_keys, MaximumPacketSize=LARGEST
            )
            client.connect(
                self.settings.broker_host, self.settings.broker_port, KEEP_ALIVE, clean_start=False,
                properties=more,
            )
        except Exception as error:  # of the system, of TLS, or of a name
            why = f"{type(error).__name__}: {error}" if not isinstance(error, OSError) else str(error)
        self.attempt = (client, why)
        os.write(self.woken, b"x")

    def looks(self):
        """Begins a connection where none is there and one is due, and takes over one that was begun."""
        now = self.clock()
        if self.client is None and self.attempt is None and now >= self.tries_at:
            self.attempt = ()
            try:
                client = self.made()
            except Exception as error:
                self.attempt = (None, str(error))
            else:
                threading.Thread(target=self.connects, args=(client,), daemon=True).start()
        if self.attempt:
            (client, why), self.attempt = self.attempt, None
            if why is not None:
                self.fails(why)
                return
            self.client, self.is_open = client, False
            self.fresh = self.pulsed = now  # CONNECT goes out after this moment
            self.confirmed, self.pulses = {}, {}

    def fails(self, why):
        """An attempt, or the connection, has failed."""
        self.client, was_open, self.is_open = None, self.is_open, False
        self.tries_at, self.again = self.clock() + self.again, min(2 * self.again, LONGEST)
        if was_open:
            self.hears.disconnected()
        if was_open or why != self.told_why:
            self.say(f"no broker at {self.settings.broker_host}:{self.settings.broker_port}: {shown(why)}")
        self.told_why = why

    def drops(self, why):
        """Ends the connection without a word to the broker: all that isn't acknowledged it sends again."""
        client, self.client = self.client, None
        if client is not None:
            client.on_disconnect = None
            if client.socket() is not None:
                client.socket().close()
            self.fails(why)

    def on_connect(self, client, _, flags, code, *__):
        if code.value >= 128:
            self.drops(f"it refuses the service: {code}")
            return
        client.subscribe([(each.topic, each.options()) for each in self.subscriptions])
        self.is_open, self.again, self.told_why = True, PULSE, None
        self.say(f"broker {self.settings.broker_host}:{self.settings.broker_port}")
        self.sends_pulse()
        self.hears.connected()

    def on_disconnect(self, client, _, code, *__):
        if client is self.client:
            self.fails(f"the connection has ended: {code}")

    # what comes

    def on_message(self, _, __, message):
        """Hands on a message. It is acknowledged after this, and that goes out once the turn is stored."""
        now = self.clock()
        if now - self.fresh > OLDEST:
            raise Dropped(f"{now - self.fresh} ms lie between a pulse and a message")
        try:
            topic = message.topic
        except UnicodeDecodeError:
            return
        expiry = getattr(message.properties, "MessageExpiryInterval", None)
        self.hears.message(topic, message.payload, bool(message.retain), expiry, self.fresh)

    def reads(self, is_ready):
        """Reads what has come."""
        for _ in range(MOST):
            if self.client is None or not is_ready():
                return
            try:
                self.client.loop_read()
            except Dropped as dropped:
                self.drops(str(dropped))
            except (Stop, StoreError):
                raise
            except Exception as error:  # a broker that sends what is no packet of MQTT
                self.drops(f"{type(error).__name__}: {error}")

    # what goes out

    def publishes(self, topic, payload, told=None, retain=False, expiry=None):
        """Publishes a message. `told` is called once the broker has it."""
        if self.client is None:
            return
        more = properties(PacketTypes.PUBLISH, **({"MessageExpiryInterval": expiry} if expiry else {}))
        info = self.client.publish(topic, payload, qos=1, retain=retain, properties=more)
        if told:
            self.confirmed[info.mid] = told

    def sends_pulse(self):
        """A message of the service to itself: what comes after its confirmation was sent after this moment."""
        self.pulsed = self.clock()
        topic, payload, is_retained = self.pulse()
        info = self.client.publish(topic, payload, qos=1, retain=is_retained)
        self.pulses[info.mid] = self.pulsed

    def on_publish(self, _, __, mid):
        self.fresh = max(self.fresh, self.pulses.pop(mid, 0))
        told = self.confirmed.pop(mid, None)
        if told:
            told()

    def writes(self):
        """Writes what is to go out, and looks after the connection. The turn is stored."""
        if self.client is None:
            return
        now = self.clock()
        if now - self.fresh > SILENT:
            self.drops("it confirms nothing")
            return
        if self.is_open and now >= self.pulsed + PULSE:
            self.sends_pulse()
        client = self.client
        client.loop_misc()
        if self.client is client and client.want_write():
            client.loop_write()

    def is_answering(self):
        """Whether it has confirmed a pulse lately."""
        return self.is_open and self.clock() - self.fresh <= ANSWERS

    def number(self):
        """The descriptor to wait on; none where there is none."""
        sock = self.client.socket() if self.client else None
        return sock.fileno() if sock is not None and sock.fileno() >= 0 else None

    def has_read(self):
        """Whether decrypted bytes wait that no descriptor tells of."""
        sock = self.client.socket() if self.client else None
        return bool(sock is not None and hasattr(sock, "pending") and sock.pending())

    def wants_write(self):
        return self.client is not None and self.client.want_write()

    def ends(self):
        """Says goodbye: the will isn't sent then, so whoever ends tells that before."""
        client, self.client = self.client, None
        if client is not None and client.socket() is not None:
            client.on_disconnect = None
            client.disconnect()
            client.loop_write()
