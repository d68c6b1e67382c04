"""Brokers that send more than can be written, and what is no message; servers that hang: mqtt.py goes on, says so,
and ends when it is to."""
import concurrent.futures
import json
import random
import socket
import struct
import threading
import time

from tries.fake_broker import PUBLISH, Broker, packet, text
from tries.fake_plant import FakePlant
from tries.fake_server import Fake
from tries.running import see

# (a machine with other work to do stops a process for a second)
FLOOD, WITHIN = 20000, 3.0


def publish(topic, payload=b"1", flags=0):
    return packet(PUBLISH, text(topic) + payload, flags)


def packets(head):
    """What a broker sends that is none, or means nothing: bytes, and whether the connection outlives them."""
    yield publish(head + b"/GVL.+/set"), True
    yield publish(head + b"/#"), True
    yield publish(head + b"/\xff\xfe/set"), True
    yield publish(head + b"/a\0b/set"), True
    yield publish(head + b"/GVL.a/set", b"\xff\xfe\0"), True
    yield publish(head + b"/GVL.a/set", b'"\\ud800"'), True
    yield publish(head + b"/GVL.a/set", b'{"value": [[[]]]}'), True
    yield packet(4, b"\x77\x77"), True
    yield publish(b""), False
    yield packet(PUBLISH, b"\xff"), False
    yield packet(PUBLISH, b"\xff\xff" + b"short"), False
    yield packet(PUBLISH, b"", 2), False
    yield packet(PUBLISH, text(head + b"/GVL.a/set"), 6), False
    yield packet(2, b""), False
    yield packet(9, b""), False
    yield b"\x30\xff\xff\xff\xff\xff\xff", False
    yield b"\xf0\0", False
    yield b"\0\0", False
    yield b"HTTP/1.1 400 Bad Request\r\n\r\n", False


def any_bytes(bridge_of, size):
    """Each of these, and random bytes: the bridge says what it thinks of them, or nothing, and publishes on."""
    chance = random.Random(size.seed)
    random_ones = [(chance.randbytes(chance.randrange(1, 60)), False) for _ in range(size.of(200, 2))]
    given = [*packets(b"rig/851"), *random_ones]
    with concurrent.futures.ThreadPoolExecutor(4) as pool:
        told = "".join(pool.map(lambda part: survives(bridge_of, given[part::4]), range(4)))
    for part in ("no UTF-8", "which no message can have", "what is no MQTT"):
        see(part in told, f"no line tells of {part!r}: {told[-500:]}")
    return len(given)


def survives(bridge_of, given):
    with FakePlant({"GVL.a": "DINT"}, still=True) as plant, Broker() as broker:
        bridge = bridge_of(plant, broker)
        bridge.state("online")
        for number, (piece, lives) in enumerate(given, 1):
            connections = broker.count
            broker.raw(piece)
            plant.values["GVL.a"] = struct.pack("<i", number)
            bridge.until(lambda: broker.clients, f"a connection behind {piece[:20]}")
            bridge.value("GVL.a", number)
            see(not lives or broker.count == connections, f"{piece} ended the connection")
        see(bridge.end() == 0 and not plant.written, f"what is no value was written: {plant.written}")
        return bridge.errors


class Results:
    """The results of sets that a broker heard, from a place on."""

    def __init__(self, broker, at):
        self.broker, self.at, self.found = broker, at, []

    def count(self):
        some = self.broker.heard[self.at:]
        self.at += len(some)
        self.found += [given for topic, given, _ in some if topic.endswith("/set/result")]
        return len(self.found)


def flood(bridge_of, size):
    """More sets than are written: values go out meanwhile, each set has one result, the newest of a name is written, and
    the end comes soon."""
    names = {f"GVL.v{k}": "DINT" for k in range(1500)}
    count = size.of(FLOOD, 4000)
    with FakePlant({**names, "GVL.counts": "DINT"}, still=True) as plant, Broker() as broker:
        bridge = bridge_of(plant, broker)
        bridge.state("online")
        bridge.value("GVL.v1499", 0)
        seen, heard = watched(plant, broker), len(broker.heard)
        for number in range(count):
            broker.publish(f"rig/851/GVL.v{number % 1500 if number % 4 else 0}/set", b"%d" % (number + 1))
        came = Results(broker, heard)
        bridge.until(lambda: came.count() >= count, "a result of each set")
        longest = seen()
        said, words = [json.loads(it) for it in came.found], {}
        for it in said:
            words[it["result"]] = words.get(it["result"], 0) + 1
        see(len(said) == count and set(words) == {"done", "refused"}, f"{count} sets had these results: {words}")
        whys = {it["why"] for it in said if it["result"] == "refused"}
        for part in ("newer value", "names wait"):
            see(any(part in why for why in whys), f"why sets are refused: {whys}")
        newest = plant.values["GVL.v0"]
        see(newest == struct.pack("<i", count - 3), f"the newest set of a name is {newest.hex()}")
        see(longest < WITHIN, f"no value went out for {longest:.2f} s")
        for number in range(count // 4):
            broker.publish(f"rig/851/GVL.v{number % 1500}/set", b"1")
        began = time.monotonic()
        see(bridge.end() == 0, "the status")
        took = time.monotonic() - began
        see(took < WITHIN, f"it ended {took:.2f} s behind SIGTERM")
        bridge.state("offline", False)
        see("came faster than they are written" in bridge.errors, f"the log: {bridge.errors[-500:]}")
    return (f"{count:,} sets, {words['done']:,} of them written, values at most {longest:.2f} s apart, "
            f"the end in {took:.2f} s")


def watched(plant, broker):
    """Changes a value each few ms; the function that is given ends that, and tells the longest time between two of its
    values at the broker."""
    stopped, moments = threading.Event(), [time.monotonic()]

    def change():
        number = 0
        while not stopped.wait(0.05):
            number += 1
            plant.values["GVL.counts"] = struct.pack("<i", number)

    def look():
        at = 0
        while not stopped.wait(0.01):
            some, at = broker.heard[at:], at + len(broker.heard[at:])
            if any(topic == "rig/851/GVL.counts" for topic, _, _ in some):
                moments.append(time.monotonic())
    threads = [threading.Thread(target=it, daemon=True) for it in (change, look)]
    for it in threads:
        it.start()

    def longest():
        stopped.set()
        for it in threads:
            it.join()
        return max(after - one for one, after in zip(moments, moments[1:] + [time.monotonic()]))
    return longest


def hangs(bridge_of):
    """A server, and a broker, that take the connection and say nothing: SIGTERM ends the bridge all the same."""
    with Fake(lambda frame: b"") as server, Broker() as broker, FakePlant({"GVL.a": "DINT"}) as plant, \
            socket.create_server(("127.0.0.1", 0)) as door:
        silent = door.getsockname()[1]
        for what, peer, port in (("a server", server, broker.port), ("a broker", plant, silent)):
            broker.port = port
            bridge = bridge_of(peer, broker)
            bridge.until(lambda: broker.clients or port == silent and bridge.errors, f"{what} that hangs")
            time.sleep(0.3)
            began = time.monotonic()
            see(bridge.end() == 0, f"the status over {what} that hangs")
            took = time.monotonic() - began
            see(took < WITHIN, f"over {what} that hangs it ended {took:.2f} s behind SIGTERM")
