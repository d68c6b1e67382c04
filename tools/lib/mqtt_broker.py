"""Connections to a broker, by paho, one after another, each with a last will; what is published keeps its order, and
where too much waits, the newest stays.

Nothing that a broker sends ends the tool: packets that are none end the connection, messages that mean nothing are
passed over, and the log says so.
"""
import collections
import select
import socket
import struct
import time

from lib.mqtt_words import Tally
from lib.shown import told
from lib.words import Ended

ABSENT = ("MQTT needs Debian's package python3-paho-mqtt, which serves /usr/bin/python3: "
          "apt-get install python3-paho-mqtt, then /usr/bin/python3 tools/mqtt.py ..")
AGAIN, KEEPALIVE, MOST_WAITING, MOST_IN_FLIGHT = 1.0, 15, 20000, 500
CLOSED, NO_MQTT = "closed the connection", "sent what is no MQTT"
# Seconds in which packets are taken, and in which what waits is published, in one step.
STEP = 0.02


def library():
    try:
        import paho.mqtt.client as mqtt
        return mqtt
    except ImportError:
        raise Ended(ABSENT, 4) from None


class Waiting:
    """What waits to be published, in its order; where it is too much, the newest of each topic."""

    def __init__(self):
        self.queue, self.most = collections.deque(), MOST_WAITING

    def put(self, topic, given, retained):
        self.queue.append((topic, given, retained))
        if len(self.queue) > self.most:
            self.queue = collections.deque({it[0]: it for it in self.queue}.values())
            self.most = max(MOST_WAITING, 2 * len(self.queue))

    def clear(self):
        self.queue.clear()


class Broker:
    """`on_ready()` is called when a connection is there, `on_message(topic, payload, retained)` for what comes. `will` is
    a topic and its last message. The state goes first; values and results go in turn, so that neither waits for all of
    the other."""

    def __init__(self, host, port, will, topics, say, user="", password="", authority=""):
        self.mqtt, self.host, self.port, self.will, self.topics, self.say = library(), host, port, will, topics, say
        self.user, self.password, self.authority = user, password, authority
        self.client, self.ready, self.tried, self.flying, self.said, self.heard = None, False, 0.0, 0, None, 0.0
        self.came, self.refusal, self.turn = [], None, False
        self.state, self.values, self.results = Waiting(), Waiting(), collections.deque(maxlen=MOST_WAITING)
        self.tally = Tally(say, f"messages of the broker {host}:{port} passed over")
        self.on_ready = self.on_message = None

    def made(self):
        versions = getattr(self.mqtt, "CallbackAPIVersion", None)
        more = {"callback_api_version": versions.VERSION1} if versions else {}
        client = self.mqtt.Client(clean_session=True, **more)
        client.max_inflight_messages_set(0)
        client.will_set(*self.will, qos=1, retain=True)
        if self.user:
            client.username_pw_set(self.user, self.password or None)
        if self.authority:
            client.tls_set(self.authority)
        client.on_connect = self.connected
        client.on_message = lambda _client, _, it: self.came.append(it)
        client.on_publish = lambda *_: self.acknowledged()
        return client

    def acknowledged(self):
        self.flying, self.heard = max(self.flying - 1, 0), time.monotonic()

    def connected(self, client, _user, _flags, code, *_):
        if code:
            self.refusal = f"refuses: {self.mqtt.connack_string(code)}"
            return
        if self.ready:
            return
        self.ready, self.said, self.flying = True, None, 0
        self.say(f"connected with the broker {self.host}:{self.port}")
        for topic in self.topics:
            client.subscribe(topic, qos=1)
        for waiting in (self.state, self.values, self.results):
            waiting.clear()
        self.on_ready()

    def tell(self, why):
        if self.said != why:
            self.said = why
            self.say(f"the broker {self.host}:{self.port} {why}; it is tried again each second")

    def lost(self, why):
        client, self.client, self.ready, self.refusal = self.client, None, False, None
        sock = client and client.socket()
        if sock:
            sock.close()
        self.tell(why)

    def connect(self):
        """A new connection, where a second has passed: nothing of an earlier one goes over it."""
        if time.monotonic() < self.tried + AGAIN:
            return
        self.tried = time.monotonic()
        try:
            socket.create_connection((self.host, self.port), 1).close()
            client = self.made()
            client.connect(self.host, self.port, KEEPALIVE)
            self.client = client
        except (OSError, ValueError) as fault:
            self.tell(f"can't be reached: {getattr(fault, 'strerror', None) or fault}")

    def sockets(self):
        """What is to be waited for: the socket, where there is one."""
        return [self.client.socket()] if self.client and self.client.socket() else []

    def step(self):
        """Takes some of what has come, and publishes some of what waits."""
        self.tally.tell()
        why = self.guarded(self.taken) or self.refusal or self.guarded(self.published)
        if why:
            self.lost(why)

    def guarded(self, act):
        """What is wrong with the connection: the library raises what it may for packets that are none."""
        try:
            return act() if self.client else None
        except (OSError, ValueError, ArithmeticError, LookupError, TypeError, AttributeError, struct.error) as fault:
            return f"{NO_MQTT} ({type(fault).__name__}: {told(str(fault))})"

    def taken(self):
        sock = self.client.socket()
        if sock is None:
            return CLOSED
        readable, writable, _ = select.select([sock], [sock] if self.client.want_write() else [], [], 0)
        until = time.monotonic() + STEP
        while time.monotonic() < until:
            if not readable and not getattr(sock, "pending", lambda: 0)():
                break
            failed = self.client.loop_read()
            self.hand_on()
            if failed or self.refusal or self.client.socket() is not sock:
                return self.refusal or (NO_MQTT if failed == self.mqtt.MQTT_ERR_PROTOCOL else CLOSED)
            readable = select.select([sock], [], [], 0)[0]
        failed = (writable and self.client.loop_write()) or self.client.loop_misc()
        return CLOSED if failed else None

    def hand_on(self):
        """Gives what came to whom it is for."""
        came, self.came = self.came, []
        for it in came:
            try:
                topic = it.topic
            except UnicodeDecodeError:
                self.tally.add("a topic that is no UTF-8")
                continue
            if any(mark in topic for mark in "+#\0"):
                self.tally.add("a topic with a wildcard or a NUL, which no message can have")
            else:
                self.on_message(topic, it.payload, it.retain)

    def published(self):
        until = time.monotonic() + STEP
        while self.ready and self.flying < MOST_IN_FLIGHT and not self.client.want_write() and time.monotonic() < until:
            one = self.following()
            if one is None:
                return None
            topic, given, retained = one
            if not self.flying:
                self.heard = time.monotonic()
            self.flying += 1
            self.client.publish(topic, given() if callable(given) else given, qos=1, retain=retained)
        stuck = self.flying >= MOST_IN_FLIGHT and time.monotonic() > self.heard + KEEPALIVE
        return f"acknowledged nothing for {KEEPALIVE} seconds" if stuck else None

    def following(self):
        self.turn = not self.turn
        others = (self.values.queue, self.results)
        for queue in (self.state.queue, *(others if self.turn else reversed(others))):
            if queue:
                return queue.popleft()
        return None

    def put_state(self, given):
        if self.ready:
            self.state.put(self.will[0], given, True)

    def put(self, topic, given):
        """Publishes a value, retained: bytes, or what a function gives when its turn comes."""
        if self.ready:
            self.values.put(topic, given, True)

    def put_result(self, topic, given):
        if self.ready:
            self.results.append((topic, given, False))

    def has_more(self):
        return bool(self.state.queue or self.values.queue or self.results or self.flying)

    def end(self, seconds):
        """Publishes what waits, at most so long, and goes in peace: with a last will only where something was not taken."""
        until = time.monotonic() + seconds
        while self.client and self.ready and self.has_more() and time.monotonic() < until:
            self.step()
            select.select(self.sockets(), [], [], 0.01)
        if self.client and not self.state.queue and not self.flying:
            self.guarded(self.client.disconnect)
        elif self.client:
            self.say(f"the broker {self.host}:{self.port} did not take all that waited")
            self.lost(self.said)
