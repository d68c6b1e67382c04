#!/usr/bin/env python3
"""Values of a plant on an MQTT broker, and values from the broker set in the plant. For whoever has dashboards,
Node-RED or Home Assistant on a broker.

    /usr/bin/python3 tools/mqtt.py 'Main.*' --to 127.0.0.1:48898 --netid 5.1.2.3.1.1 --me 192.168.0.9.1.1 --broker 127.0.0.1:1883

publishes each of these names, parts (`Main.axis[2].pos`) and patterns (`'GVL.*'`) under PLANT/PORT/NAME: JSON with
value, type and time, retained, where it changes, or with `--period S` each S seconds. PLANT is the NetId of the
server, or what `--plant` says; PORT is its AMS port (`--port`, 851). `--netid` is its NetId (the address of HOST with
.1.1 behind it), `--me` the own one, a route of the server. `--cycle C` is how often the server looks for changes, in
100 ns (1000000, a tenth of a second). An enumeration is published by the name of its value, where the server tells
the names or `--description FILE`, the description that the server was started with, has them.

With `--set` what is published to PLANT/PORT/NAME/set is written, with the rights of the route: at most 500 values a
second. Of a name the newest waits, and at most 1,000 names do. PLANT/PORT/NAME/set/result has what became of each
message: `done`, `refused` with the reason, or `not known`.

PLANT/PORT itself says who is there, retained: `online` with the number of `names`, `server gone`, or `offline`, the
last will. After the loss of either side it goes on, with all values. `--user U --password-file F` and `--ca FILE`
(TLS) are for the broker. `--seconds N` ends it by itself.

It needs Debian's package python3-paho-mqtt, which serves /usr/bin/python3.

The status is 0, or 1 wrong words, 4 a file or the library is missing.
"""
import contextlib
import os
import select
import signal
import sys
import time

sys.path.insert(0, os.path.dirname(os.path.abspath(__file__)))
from lib.files import read_plant, read_text  # noqa: E402
from lib.flow_session import Session  # noqa: E402
from lib.flow_words import link_of, many_words, say  # noqa: E402
from lib.link import host_of  # noqa: E402
from lib.mqtt_broker import Broker  # noqa: E402
from lib.mqtt_sets import Sets  # noqa: E402
from lib.mqtt_words import in_words, level, line, value_line  # noqa: E402
from lib.shown import told  # noqa: E402
from lib.type_texts import lower  # noqa: E402
from lib.words import Ended, number, run  # noqa: E402

WAIT, AGAIN, LAST_WORDS = 0.05, 1.0, 0.5
MQTT_PORT = 1883


class Stopped(Exception):
    """The tool is to end while it waits for a peer."""


class Stop:
    """Ctrl-C and `kill`: seen between two steps, and at once where a peer is waited for."""

    def __init__(self):
        self.is_asked, self.waits = False, False
        for one in (signal.SIGTERM, signal.SIGINT):
            signal.signal(one, self.asked)

    def asked(self, *_):
        self.is_asked = True
        if self.waits:
            raise Stopped

    @contextlib.contextmanager
    def waiting(self):
        self.waits = True
        try:
            if self.is_asked:
                raise Stopped
            yield
        finally:
            self.waits = False


class Bridge:
    """A sink of a session, and what a broker's messages mean to it. `values` are the newest of each topic: what is known of
    the name, a moment and bytes."""
    frames = False

    def __init__(self, link, port, words, mode, cycle, head):
        self.link, self.port, self.words, self.mode, self.cycle, self.head = link, port, words, mode, cycle, head
        self.session, self.values, self.names, self.said, self.tried, self.broker = None, {}, {}, {}, 0.0, None
        self.state, self.shown, self.described = ("server gone", "not asked yet"), None, None
        self.sets = Sets(lambda topic, given: self.broker.put_result(f"{topic}/set/result", given), say)

    # What a session tells.

    def begin(self, knowns):
        topics = [f"{self.head}/{level(in_words(known, self.described).name)}" for known in knowns]
        self.names.update(zip(topics, (lower(known.name) for known in knowns)))
        return topics

    def take(self, ns, pairs):
        for item, data in pairs:
            self.values[item.own] = item.known, ns, data
            self.broker.put(item.own, lambda known=item.known, ns=ns, data=data: value_line(known, ns, data))

    def ended(self, item, why):
        """What is described no more has no value: its retained message goes."""
        self.values.pop(item.own, None)
        self.names.pop(item.own, None)
        self.broker.put(item.own, b"")

    def missing(self, words):
        said = ", ".join(word.said() for word in words[:5]) + (" .." if len(words) > 5 else "")
        self.tell("missing", tuple(words), f"not there now: {said}" if words else None)

    def refused(self, known, why):
        self.tell(known.name, why, f"{told(known.name)} is not published: {why}")

    def tell(self, about, what, text):
        if self.said.get(about) != what:
            self.said[about] = what
            if text:
                say(text)

    # The server.

    def show(self):
        """Publishes who is there, where that is not what was published last."""
        given = self.state_line()
        if given != self.shown:
            self.shown = given
            self.broker.put_state(given)

    def state_line(self):
        state, why = self.state
        names = len(self.session.items) if self.session and state == "online" else 0
        return line(state=state, server=f"{self.link[1]}:{self.port}", names=names, **({"why": why} if why else {}))

    def serve(self):
        """One step of the server's side."""
        if self.session:
            self.session.step(0)
            self.sets.write(self.port, self.item_of, self.link[3])
        elif time.monotonic() >= self.tried + AGAIN:
            self.tried, before = time.monotonic(), dict(self.names)
            self.names = {}
            self.session = Session(self.link, self.port, self.words, self.mode, self.cycle, self)
            try:
                self.session.open()
            except Ended:
                self.names = {**before, **self.names}
                raise
            for topic in before.keys() - self.names.keys():
                self.values.pop(topic, None)
                self.broker.put(topic, b"")
            self.tell("link", None, None)
            say(f"publishing {len(self.session.items)} names under {self.head}")
            self.state = "online", ""

    def item_of(self, topic):
        return self.session.items.get(self.names.get(topic))

    def lost(self, why):
        if self.session:
            self.session.close()
        self.session, self.state = None, ("server gone", why)
        self.sets.lost(why)
        self.sets.refuse_all("the server is gone")
        self.tell("link", why, f"{why}; it is tried again each second")

    # The broker.

    def ready(self):
        """A new connection with the broker: who is there, and all values, as they are now."""
        self.shown = None
        self.show()
        for topic, (known, ns, data) in self.values.items():
            self.broker.put(topic, lambda known=known, ns=ns, data=data: value_line(known, ns, data))

    def message(self, topic, payload, retained):
        """A message to PLANT/PORT/NAME/set."""
        own = topic[:-len("/set")]
        if not self.broker.topics or not topic.endswith("/set") or not own.startswith(self.head + "/"):
            return
        self.sets.take(own, payload, retained)
        if not self.session:
            self.sets.refuse_all("the server is gone")

    def step(self, stop):
        select.select([*(self.session.streams if self.session else []), *self.broker.sockets()], [], [], WAIT)
        with stop.waiting():
            if not self.broker.client:
                self.broker.connect()
        self.broker.step()
        try:
            with stop.waiting():
                self.serve()
        except Ended as why:
            self.lost(why.why)
        self.show()

    def run(self, stop, end):
        self.broker.on_ready, self.broker.on_message = self.ready, self.message
        with contextlib.suppress(Stopped):
            while not stop.is_asked and (end is None or time.monotonic() < end):
                self.step(stop)
        for tally in (self.sets.tally, self.broker.tally):
            tally.tell(last=True)
        self.sets.lost("the bridge was ended before the answer came")
        self.sets.refuse_all("the bridge was ended")
        if self.session:
            self.session.close()
        self.session, self.state = None, ("offline", "ended")
        self.show()
        self.broker.end(LAST_WORDS)


def broker_of(text):
    host, port = host_of(text if ":" in text else f"{text}:{MQTT_PORT}")
    return host, port


def main(words):
    names, options = many_words(words, __doc__, {
        "to": None, "me": None, "netid": "", "port": "851", "broker": None, "plant": "", "period": "", "cycle": "1000000",
        "set": False, "user": "", "password-file": "", "ca": "", "seconds": "", "description": ""})
    link, port = link_of(options), number(options["port"], "--port", 1, 65535)
    host, broker_port = broker_of(options["broker"])
    period = number(options["period"], "--period", 1, 400) if options["period"] else 0
    seconds = number(options["seconds"], "--seconds", 1, 10 ** 9) if options["seconds"] else None
    cycle = period * 10 ** 7 if period else number(options["cycle"], "--cycle", 0, 2 ** 32 - 1)
    head = f"{level(options['plant'] or link[1])}/{port}"
    password = read_text(options["password-file"]).strip("\n") if options["password-file"] else ""
    if options["ca"]:
        read_text(options["ca"])
    bridge = Bridge(link, port, names, "cycle" if period else "change", cycle, head)
    bridge.described = read_plant(options["description"]).port(port) if options["description"] else None
    will = line(state="offline", server=f"{link[1]}:{port}", names=0, why="the connection with the broker failed")
    bridge.broker = Broker(host, broker_port, (head, will), [f"{head}/+/set"] if options["set"] else [], say,
                           options["user"], password, options["ca"])
    bridge.run(Stop(), None if seconds is None else time.monotonic() + seconds)
    return 0


if __name__ == "__main__":
    run(main)
