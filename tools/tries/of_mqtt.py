"""mqtt.py over a broker and a server in this process, which both go and come again; the texts of values; and what is said where the library is absent."""
import json
import os
import signal
import struct
import subprocess
import sys
import threading
import time

from lib.flow_names import Known
from lib.flow_values import shape_by_id
from lib.mqtt_words import bytes_of, level, value_line
from lib.values import NoValue
from tries import mqtt_hostile
from tries.fake_broker import Broker
from tries.fake_plant import FakePlant
from tries.running import ME, NET, TOOLS, Served, Wrong, refused, see

HEAD, PLANT = "rig/851", os.path.join(TOOLS, "tries", "page_plant.toml")
# A type id, a size, a text that is sent, and the bytes that it means; and texts that are refused.
TAKEN = ((3, 4, b"-7", struct.pack("<i", -7)), (33, 1, b"true", b"\1"), (33, 1, b"TRUE", b"\1"), (5, 8, b"1.5", struct.pack("<d", 1.5)),
         (4, 4, b'"Infinity"', struct.pack("<f", float("inf"))), (30, 4, '"ü"'.encode(), b"\xfc\0\0\0"), (30, 4, b"'ab'", b"ab\0\0"),
         (21, 8, b'{"value": 18446744073709551615}', b"\xff" * 8), (65, 3, b"16#010203", b"\1\2\3"))
REFUSED = ((3, 4, b"2147483648"), (3, 4, b"1.5"), (3, 4, b"true"), (33, 1, b"1"), (5, 8, b'"x"'), (4, 4, b"1e300"), (30, 4, b'"abcd"'), (2, 2, b"null"),
           (30, 4, b'"a\\u0000"'), (30, 4, b"5"), (3, 4, b"\xff"), (3, 4, b""), (65, 3, b"[1,2,3]"), (3, 4, b"[" * 40000), (3, 4, b"1" * 70000),
           (3, 4, b'{"valeu": 5}'), (3, 4, b"NaN"))


def interpreter():
    """A Python that has the library: this one, or Debian's; None where neither has."""
    for path in (sys.executable, "/usr/bin/python3"):
        if os.path.exists(path) and not subprocess.run([path, "-c", "import paho.mqtt.client"], capture_output=True, timeout=60).returncode:
            return path
    return None


def known(type_id, size, kind="T"):
    return Known("x", b"x", kind, type_id, size, shape_by_id(type_id, size))


def words_of_values():
    """What is published of bytes, and which bytes a text means: each way, and what is refused."""
    for type_id, size, given, data in TAKEN:
        came = bytes_of(known(type_id, size), given)
        see(came == data, f"{given} as type {type_id}: {came.hex()} in place of {data.hex()}")
    for type_id, size, given in REFUSED:
        try:
            raise Wrong(f"{given[:40]} is bytes of type {type_id}: {bytes_of(known(type_id, size), given).hex()}")
        except NoValue:
            pass
    it = json.loads(value_line(known(4, 4, "REAL"), 1795965389478964000, struct.pack("<f", float("nan"))))
    see(it == {"value": "NaN", "type": "REAL", "time": "2026-11-29T15:16:29.4789640Z"}, f"a NaN is published as {it}")
    levels = {"Main.axis[2].pos": "Main.axis[2].pos", "a/b+c#d%": "a%2Fb%2Bc%23d%25", "$SYS": "%24SYS", "": "%"}
    see([level(name) for name in levels] == list(levels.values()), "names as levels of topics")


class Bridge:
    started = []

    def __init__(self, python, plant, broker, *words):
        self.process = subprocess.Popen([python, os.path.join(TOOLS, "mqtt.py"), "*", "--to", plant.to, "--netid", NET, "--me", ME, "--set", "--cycle", "0",
                                         "--broker", f"127.0.0.1:{broker.port}", "--plant", "rig", *words], stdout=subprocess.DEVNULL, stderr=subprocess.PIPE)
        self.broker, self.errors = broker, ""
        self.started.append(self.process)
        threading.Thread(target=self.read, daemon=True).start()

    def read(self):
        for line in self.process.stderr:
            self.errors += line.decode()

    def until(self, holds, what, lives=True, seconds=30):
        end = time.monotonic() + seconds
        while not holds() and time.monotonic() < end and (not lives or self.process.poll() is None):
            time.sleep(0.02)
        see(holds(), f"{what}: not within {seconds} s; the topics: {self.broker.retained}")

    def value(self, name, value):
        self.until(lambda: json.loads(self.broker.retained.get(f"{HEAD}/{name}", b"{}")).get("value") == value, f"{name} is {value}")

    def state(self, word, lives=True):
        self.until(lambda: json.loads(self.broker.retained.get(HEAD, b"{}")).get("state") == word, f"the state is {word}", lives)

    def result(self, name, given, retain=False):
        """What becomes of a value that is sent to a name."""
        before = len(self.broker.heard)
        self.broker.publish(f"{HEAD}/{name}/set", given, retain)
        wanted = f"{HEAD}/{name}/set/result"
        self.until(lambda: any(topic == wanted for topic, _, _ in self.broker.heard[before:]), f"a result of {name} := {given}")
        return next((json.loads(it), kept) for topic, it, kept in self.broker.heard[before:] if topic == wanted)

    def end(self, how=signal.SIGTERM):
        self.process.send_signal(how)
        self.process.wait(30)
        see("Traceback" not in self.errors, self.errors[-300:])
        return self.process.returncode


def sets(bridge, plant):
    came = bridge.result("GVL.a", b"7")
    see(came == ({"result": "done", "value": 7}, False), f"a set: {came}")
    bridge.value("GVL.a", 7)
    see(plant.written == [("GVL.a", b"\7\0\0\0")], f"written: {plant.written}")
    came = bridge.result("GVL.limit", b"7")[0]
    see(came == {"result": "refused", "code": "0x704", "why": "reading or writing not permitted"}, f"a set that the server refuses: {came}")
    see("whole number" in bridge.result("GVL.a", b'"x"')[0]["why"], "a set of a text")
    see("no such name" in bridge.result("GVL.none", b"7")[0]["why"], "a set of a name that is none")
    see(bridge.result("GVL.a", b"9", True)[0] == {"result": "done", "value": 9}, "a set that the broker keeps, as it comes")
    see(len(plant.written) == 2, f"refused sets were written: {plant.written}")


def over(python):
    names = {"GVL.a": "DINT", "GVL.limit": "INT", "GVL.b": "LREAL", "odd/name+#": "BOOL"}
    with FakePlant(names, still=True) as plant, Broker() as broker:
        bridge = Bridge(python, plant, broker)
        for name, value in (("GVL.a", 0), ("GVL.b", 0.0), ("odd%2Fname%2B%23", False)):
            bridge.value(name, value)
        bridge.state("online")
        see(json.loads(broker.retained[f"{HEAD}/GVL.b"])["type"] == "LREAL", "the type of a value")
        sets(bridge, plant)
        plant.go()
        bridge.state("server gone")
        see("server is gone" in bridge.result("GVL.a", b"8")[0]["why"], "a set while the server is gone")
        plant.values["GVL.b"] = struct.pack("<d", 2.5)
        plant.come()
        bridge.state("online")
        bridge.value("GVL.b", 2.5)
        broker.go()
        plant.values["GVL.a"] = struct.pack("<i", 11)
        broker.retained, before = {f"{HEAD}/GVL.a/set": b"9"}, len(broker.heard)
        broker.come()
        bridge.value("GVL.a", 11)
        bridge.value("GVL.b", 2.5)
        bridge.state("online")
        wanted = f"{HEAD}/GVL.a/set/result"
        bridge.until(lambda: any(topic == wanted and b"retained" in it for topic, it, _ in broker.heard[before:]), "a set that was kept is not set again")
        see(len(plant.written) == 2, f"a set that was kept was set again: {plant.written}")
        plant.describe({name: kind for name, kind in names.items() if name != "GVL.b"} | {"GVL.c": "DINT"})
        bridge.value("GVL.c", 0)
        bridge.until(lambda: f"{HEAD}/GVL.b" not in broker.retained, "the value of a name that is gone is gone")
        see(bridge.end() == 0, "the status of a bridge that is ended")
        bridge.state("offline", False)
        killed = Bridge(python, plant, broker)
        killed.state("online")
        killed.end(signal.SIGKILL)
        killed.until(lambda: "failed" in json.loads(broker.retained[HEAD]).get("why", ""), "the last will", False)


def people(python, program):
    """A REAL in its shortest form, enumerations by name, both ways and in structures; each `online` tells how many names there are."""
    with Served(program, PLANT) as server, Broker() as broker:
        bridge = Bridge(python, server, broker, "--description", PLANT)
        for name, value in (("Main.speed", 0.1), ("Main.mode", "Off"), ("Main.flow", "NaN")):
            bridge.value(name, value)
        bridge.until(lambda: f"{HEAD}/Main.axes" in broker.retained, "a structure")
        axes = json.loads(broker.retained[f"{HEAD}/Main.axes"])["value"]
        see(axes[0] == {"active": False, "mode": "Off", "pos": 0.0, "label": ""}, f"a structure: {axes[0]}")
        see(bridge.result("Main.mode", b'"auto"')[0] == {"result": "done", "value": "Auto"}, "a name of an enumeration, as JSON")
        see(bridge.result("Main.mode", b"Mode.Off")[0]["result"] == "done", "a name of an enumeration, as it stands")
        see(bridge.result("Main.mode", b"2")[0] == {"result": "done", "value": "Auto"}, "a number of an enumeration")
        bridge.value("Main.mode", "Auto")
        see("takes one of Off, " in bridge.result("Main.mode", b'"Aut"')[0]["why"], "a name that the enumeration has not")
        see(bridge.result("Main.speed", b"2.4")[0] == {"result": "done", "value": 2.4}, "a REAL")
        bridge.value("Main.speed", 2.4)
        states = [json.loads(it) for topic, it, _ in broker.heard if topic == HEAD]
        count = sum(topic.startswith(f"{HEAD}/") for topic in broker.retained)
        see({it["names"] for it in states if it["state"] == "online"} == {count}, f"of {count} names these states were told: {states}")
        bridge.end()
        see(json.loads(broker.retained[HEAD])["names"] == 0, "how many names behind the end")


def tried(program, size):
    words_of_values()
    refused(1, "--broker", "mqtt.py", "x", "--to", "127.0.0.1", "--me", ME)
    refused(1, "--period is a number", "mqtt.py", "x", "--to", "127.0.0.1", "--me", ME, "--broker", "h", "--period", "0")
    without = (f"import sys, runpy; sys.modules['paho'] = None; sys.argv = ['mqtt.py', 'x', '--to', '127.0.0.1', '--me', {ME!r}, '--broker', 'h']; "
               f"runpy.run_path({os.path.join(TOOLS, 'mqtt.py')!r}, run_name='__main__')")
    out = subprocess.run([sys.executable, "-c", without], capture_output=True, text=True, timeout=60)
    see(out.returncode == 4 and "python3-paho-mqtt" in out.stderr and len(out.stderr.splitlines()) == 1, f"without the library: {out.stderr}")
    python = interpreter()
    if python is None:
        return "texts of values, and words; the library paho is not here, so no broker was played (apt-get install python3-paho-mqtt)"
    try:
        over(python)
        people(python, program)
        count = mqtt_hostile.any_bytes(lambda plant, broker: Bridge(python, plant, broker), size)
        said = mqtt_hostile.flood(lambda plant, broker: Bridge(python, plant, broker), size)
        mqtt_hostile.hangs(lambda plant, broker: Bridge(python, plant, broker))
    finally:
        for process in Bridge.started:
            process.kill()
    return (f"values out and back over a broker and a server that went and came, a new description, refusals, birth and last will; {count} pieces of a broker "
            f"that lies; {said}")
