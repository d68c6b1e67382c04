#!/usr/bin/env python3
"""An hour of load on `adsd` over loopback: a store that is saved and a new description each second, with tools/page.py,
tools/history.py and tools/mqtt.py beside it.

    python3 bench/daemon_load.py PROGRAM [--minutes 61] [--profile strict|wide] [--asking 24] [--short]

PROGRAM is the built adsd; gcc builds the load (bench/serve_client.c). `--short` is 20 seconds, and less than a minute
in all. The plant has 100 symbols of four bytes for each of the connections that ask (`--asking`), all of them
persistent, and a block of 64 bytes. There are:

- connections with 32 requests in flight each, reads, writes, states and sums of own symbols, in the profile `wide` also
  reads of greater buffers by handle and sums that tell lengths. Each byte is compared with the model of the protocol
  (model/protocol.py), so a read must give what was written;
- eight connections with 512 notifications each of a symbol that changes at each tick: each tick must bring the next
  value, with a moment that rises;
- one that writes the block, all 64 bytes in one request, and reads it back, some twenty times a second;
- page.py, whose /values.json and /healthz are read each second; history.py, which records the block and the symbol of
  the ticks into SQLite; mqtt.py, which publishes the block's number to a broker in this process
  (tools/tries/fake_broker.py). Without Debian's python3-paho-mqtt there is no mqtt.py, as the last lines say.

Behind the load all is stopped, adsd last. Then each sample of the history must be one that was written, at one moment
number and bytes of one write, the ticks one behind the other; page and broker must have the last number; adsd must end
with 0, have told no fault in its log and its status file, and have answered each request; its store must have the last
values of all symbols; and a new start must serve the last block. The memory (VmRSS) of adsd, page, history and mqtt is
told each minute; where one grows by more than 16 MiB in the second half of an hour, the history by more than the 64 MiB
of its file that SQLite keeps in memory, it is a fault. The longest gaps and the ticks that were passed over are told.
Status 1 where anything differs.
"""
import argparse
import contextlib
import json
import os
import pathlib
import random
import re
import signal
import sqlite3
import struct
import subprocess
import sys
import tempfile
import threading
import time

HERE = os.path.dirname(os.path.abspath(__file__))
sys.dont_write_bytecode = True
sys.path[1:1] = [f"{sys.path[0]}/../{room}" for room in ("model", "tools", "tries")]
import adsd  # noqa: E402
import ams  # noqa: E402
import serve  # noqa: E402
import store  # noqa: E402
from adsd import reply  # noqa: E402
from ams import area, u32  # noqa: E402
from random_runs import toml_of  # noqa: E402
from tries.fake_broker import Broker  # noqa: E402
from tries.history_checks import of_sqlite, sound  # noqa: E402
from tries.of_mqtt import interpreter  # noqa: E402
from tries.paged import Page  # noqa: E402
from tries.running import Wrong  # noqa: E402
from under_test import Differs, expect, free_port  # noqa: E402

TOOLS = os.path.join(HERE, "..", "tools")
WATCHING, NOTES, BLOCK, SIZE, MOST_GROWN = 8, 512, serve.RAMP + 64, 64, 16384
MOST_OF_HISTORY = 65536    # SQLite keeps so many KiB of the file in memory
STRICT, WIDE = "rswhrhsWrhrwshrSWhrs", "rswhrhsWrhrwshrSWhrsHHT"
FAULTS = re.compile(r"store fault|not saved|lines lost|cannot be read|refused|shut \d|lost \d|no route|not allowed|no "
                    r"ADS|fits")


def description(asking, version):
    """The plant of bench/serve.py with persistent symbols and a block; the bytes that a symbol that nobody asks begins
    with are the version."""
    d = serve.plant(0, serve.OWN * asking)
    symbols = d["port"][0]["symbol"]
    for it in symbols[:-1]:
        it["persistent"] = True
    symbols.append({"name": "Own.count", "type": "UDINT", "area": "data", "offset": BLOCK, "persistent": True})
    symbols.append({"name": "Own.data", "type": f"ARRAY [1..{SIZE - 4}] OF BYTE", "area": "data", "offset": BLOCK + 4,
                    "persistent": True})
    symbols.append({"name": "Spare.version", "type": "UDINT", "area": "data", "offset": BLOCK + SIZE,
                    "initial": version.to_bytes(4, "little").hex()})
    return d


def block_of(number):
    """The block's bytes of a number; zeros at first."""
    return struct.pack("<I", number) + (random.Random(number).randbytes(SIZE - 4) if number else bytes(SIZE - 4))


def request(kind, first, r):
    """A request as bench/serve.py makes it, or one of the wide profile: a greater buffer by handle, or a sum of reads
    that tells lengths."""
    if kind == "H":
        return 2, u32(0xF005, 1 + r.randrange(serve.OWN), 1024)
    if kind == "T":
        places = [4 * (first + r.randrange(serve.OWN)) for _ in range(100)]
        return 9, u32(0xF084, 100, 1200, 1200) + b"".join(u32(0x4040, place, 4) for place in places)
    return serve.request(kind, first, r)


def plan_of_load(k, wide):
    r, first = random.Random(k), serve.OWN * k
    names = [f"v{first + i}".encode() for i in range(serve.OWN)]
    once = [(3, u32(0x4040, 4 * first, 4 * serve.OWN) + r.randbytes(4 * serve.OWN))]
    once += [(9, u32(0xF003, 0, 4, len(name)) + name) for name in names]
    return serve.plan(k, once, [request(kind, first, r) for kind in (WIDE if wide else STRICT) * 25], wide=wide)


def plan_of_notes(k, wide):
    add = ams.watched(0x4040, serve.RAMP, 2, 6 if wide else 4)
    return serve.plan(k, [(6, add)] * NOTES, [], 1, wide)


class Load(serve.Bench):
    """A daemon in a folder of its own, and loads of it, until the stack ends them."""

    def __init__(self, stack, program, profile, asking):
        self.stack, self.client, self.asking, self.program, self.profile, self.version = (
            stack, "./serve_client", asking, program, profile, 0)
        os.chdir(stack.enter_context(tempfile.TemporaryDirectory(prefix="daemon-load-")))
        for name in ("serve_client", "stolen"):
            serve.compile_c(name)
        self.describe()
        self.daemon = self.started()
        self.server = (str(self.daemon.port), self.daemon.process)

    def started(self):
        port = free_port()
        given = ["load.toml", "--listen", f"127.0.0.1:{port}", "--store", "kept", "--save-each", "1", "--status",
                 "status.prom", "--profile", self.profile]
        return adsd.Daemon(self.stack, self.program, given, bare=True, folder=os.getcwd(), port=port,
                           stderr=self.stack.enter_context(open("log", "ab")))

    def describe(self):
        """The next description takes the place of the one that is served."""
        self.version += 1
        pathlib.Path("load.new").write_text(toml_of(description(self.asking, self.version)))
        os.replace("load.new", "load.toml")

    def asked(self, link, number, command, payload):
        link.sendall(ams.request(command, number, payload))
        got = reply(link)
        expect(got is not None and got[0] == number and got[1][:4] == bytes(4),
               f"request {number} was answered by {got!r}")
        return got[1][4:]

    def read(self, place, size):
        with self.daemon.link() as link:
            return self.asked(link, 1, 2, area(0x4040, place, size))[4:]


class Writer(threading.Thread):
    """Writes the block and reads it back. `number` is the last that was written, `longest` the longest round trip in
    seconds."""

    def __init__(self, load):
        super().__init__(daemon=True)
        self.load, self.number, self.longest, self.fault, self.stops = load, 0, 0.0, None, threading.Event()

    def run(self):
        try:
            with self.load.daemon.link() as link:
                link.settimeout(60)
                while not self.stops.wait(0.04):
                    self.turn(link)
        except (OSError, Differs) as fault:
            self.fault = f"the writer: {fault}"

    def turn(self, link):
        given, began = block_of(self.number + 1), time.monotonic()
        self.number += 1
        link.sendall(ams.request(3, 1, area(0x4040, BLOCK,
                                            SIZE) + given) + ams.request(2, 2, area(0x4040, BLOCK, SIZE)))
        wrote, read = reply(link), reply(link)
        expect(wrote == (1, bytes(4)), f"the write of {self.number} was answered by {wrote!r}")
        expect(read == (2, u32(0, SIZE) + given), f"behind the write of {self.number} the block is {read!r}")
        self.longest = max(self.longest, time.monotonic() - began)


class Reader:
    """Reads of the page each second: what is shown is a number that was written, and none from before."""

    def __init__(self, page, writer):
        self.page, self.writer, self.shown, self.well, self.reads, self.whys = page, writer, 0, 0, 0, {}

    def look(self):
        self.reads += 1
        status, _, why = self.page.ask("/healthz")
        expect(status in (200, 503), f"/healthz has the status {status}")
        self.well += status == 200
        if status == 503:
            self.whys[why.decode().strip()[:120]] = self.whys.get(why.decode().strip()[:120], 0) + 1
        values = self.page.values()
        if (851, "Own.count") in values:
            number = values[851, "Own.count"]["value"]
            last = self.writer.number
            expect(self.shown <= number <= last, f"the page shows {number}, where it showed {self.shown} and {last} "
                   f"was written last")
            self.shown = number


class Heard:
    """What mqtt.py publishes of the block's number."""

    def __init__(self, broker, writer):
        self.broker, self.writer, self.last, self.count = broker, writer, 0, 0

    def look(self):
        with self.broker.lock:
            heard, self.broker.heard = self.broker.heard, []
        for topic, given, _ in heard:
            if topic == "load/851/Own.count" and given:
                number = json.loads(given)["value"]
                last = self.writer.number
                expect(self.last <= number <= last, f"the broker has {number}, where {self.last} was there and {last} "
                       f"was written last")
                self.last, self.count = number, self.count + 1


class Tools:
    """The page, the recorder and the bridge."""

    def __init__(self, load, writer):
        self.load, to = load, f"127.0.0.1:{load.daemon.port}"
        self.processes = {"adsd": load.daemon.process}
        self.page = load.stack.enter_context(Page("load.toml", to))
        self.processes["page"] = self.page.process
        words = ["--to", to, "--netid", serve.NET, "--me", serve.ME]
        self.tool("history", sys.executable, "history.py", "record", "Own.*", "ramp", *words, "--cycle", "0",
                  "--sqlite", "it.db")
        self.reader, self.heard, python = Reader(self.page, writer), None, interpreter()
        if python:
            self.heard = Heard(load.stack.enter_context(Broker()), writer)
            self.tool("mqtt", python, "mqtt.py", "Own.count", *words, "--cycle", "0", "--broker",
                      f"127.0.0.1:{self.heard.broker.port}", "--plant", "load")

    def tool(self, name, python, *words):
        err = self.load.stack.enter_context(open(f"{name}.err", "wb"))
        self.processes[name] = self.load.start([python, os.path.join(TOOLS, words[0]), *words[1:]], stderr=err)

    def look(self):
        self.reader.look()
        if self.heard:
            self.heard.look()
        for name, process in self.processes.items():
            expect(process.poll() is None, f"{name} ended with {process.poll()}")

    def memory(self):
        return {name: serve.resident(process) for name, process in self.processes.items()}

    def until(self, number):
        """Waits until page and broker have this number, and the recorder has written it."""
        until = time.monotonic() + 60
        while (self.reader.shown, self.heard.last if self.heard else number) != (number, number):
            expect(time.monotonic() < until, f"{number} was written last; the page shows {self.reader.shown}, the "
                   f"broker has {self.heard and self.heard.last}")
            time.sleep(0.2)
            self.look()
        time.sleep(2)

    def ended(self, name):
        """Ends a tool in peace; what it printed."""
        process = self.processes[name]
        process.send_signal(signal.SIGTERM)
        out, err = process.communicate(timeout=120)[0], pathlib.Path(f"{name}.err").read_text()
        expect(process.returncode == 0 and "Traceback" not in err,
               f"{name} ended with {process.returncode}: {err[-500:]}")
        return out.decode()


def history_is_sound(writer, printed):
    """The rows of the recorder: the ticks one behind another, and at each moment number and bytes of one write."""
    with contextlib.closing(sqlite3.connect("it.db")) as base:
        expect(base.execute("PRAGMA integrity_check").fetchone() == ("ok",), "the history's file is not whole")
    history, _ = of_sqlite("it.db")
    rows, gaps = sound(history, ())
    expect(printed == f"recorded {rows} samples\n", f"the recorder printed {printed!r}, and {rows} rows are there")
    ticks, numbers = history["ramp", "UINT"][0], history["Own.count", "UDINT"][0]
    datas = {ns: data for ns, _, data in history["Own.data", f"ARRAY [1..{SIZE - 4}] OF BYTE"][0]}
    holes = {end for samples, own in history.values() for _, end, _ in own}
    for (_, one, _), (ns, two, _) in zip(ticks, ticks[1:]):
        expect(two == (one + 1) % 1000 or ns in holes, f"of the ticks {two} was recorded behind {one}")
    values = [value for _, value, _ in numbers]
    expect(values == sorted(values), "the numbers fall")
    expect(values[-1] == writer.number, f"{values[-1]} was recorded last, and {writer.number} was written last")
    for ns, number, _ in numbers:
        expect(ns not in datas or datas[ns] == block_of(number)[4:],
               f"at {ns} stand the number {number} and the bytes of another write")
    whys = sorted({why for _, own in history.values() for *_, why in own})
    expect(not gaps, f"{gaps} gaps in the history, though the server was never gone: {'; '.join(whys)}")
    return (f"history: {rows:,} samples, {len(ticks):,} ticks one behind another, {len(numbers):,} numbers of "
            f"{writer.number:,} writes")


def store_has(load, area, block):
    """The store's file stands for these bytes."""
    standing = store.standing_of(pathlib.Path("kept").read_bytes())
    expect(standing is not None, "nothing stands in the store")
    held = {name.decode(): data for _, name, _, data in store.entries_of(standing[2])}
    wanted = {f"v{k}": area[4 * k:4 * k + 4] for k in range(serve.OWN * load.asking)} | {
        "Own.count": block[:4], "Own.data": block[4:]}
    wrong = [name for name in wanted.keys() | held.keys() if wanted.get(name) != held.get(name)]
    expect(not wrong, f"of {len(wrong)} symbols the store has other bytes than were there last, as of "
           f"{sorted(wrong)[:3]}")
    return f"store: {len(held):,} symbols as they were last, save number {standing[1]:,}"


def told_in(text, name):
    return float(re.search(rf"^{re.escape(name)} (\S+)$", text, re.M)[1])


def daemon_ends(load):
    """Stops the daemon, and looks at its summary, its log and its status file."""
    version = serve.version_of(load.server)
    out, _, status, took = load.daemon.stopped(signal.SIGTERM)
    summary = re.fullmatch(r"connections (\d+) requests (\d+) replies (\d+) samples (\d+) reloads (\d+) (\d+)\nsaved "
                           r"(\d+)\n", out)
    expect(status == 0 and summary is not None, f"adsd ended with {status} and printed {out!r}")
    _, requests, replies, samples, accepted, refused, saved = map(int, summary.groups())
    expect(requests == replies and refused == 0 and (1 + accepted) % 256 == version and accepted < load.version,
           f"adsd says {out!r}, its version is {version}")
    wrong = [line for line in pathlib.Path("log").read_text(errors="replace").splitlines() if FAULTS.search(line)]
    expect(not wrong, f"{len(wrong)} lines of the log tell a fault, the first {wrong[:1]}")
    text = pathlib.Path("status.prom").read_text()
    wanted = {"adsd_store_faults_total": 0, "adsd_description_read_faults_total": 0, "adsd_log_lines_lost_total": 0,
              "adsd_saves_total": saved,
              'adsd_reloads_total{outcome="accepted"}': accepted, "adsd_requests_total": requests,
              "adsd_samples_total": samples}
    for name, number in wanted.items():
        expect(told_in(text, name) == number, f"{name} is {told_in(text, name)}, and not {number}")
    missed, ticks, late = (told_in(text, f"adsd_{name}")
                           for name in ("ticks_missed_total", "ticks_total", "tick_late_seconds_max"))
    return (f"adsd: {requests:,} requests and replies, {samples:,} samples, {accepted:,} descriptions taken of "
            f"{load.version - 1:,}, {saved:,} saves (the last "
            f"took {1000 * told_in(text, 'adsd_last_save_seconds'):.0f} ms), stopped in {1000 * took:.0f} ms\n"
            f"ticks: {ticks:,.0f} took place, {missed:,.0f} were passed over ({100 * missed / (ticks + missed):.1f} "
            f"%), the latest {1000 * late:.0f} ms late; "
            f"{told_in(text, 'adsd_short_offers_total'):,.0f} short offers")


def next_start(load, writer):
    load.daemon = load.started()
    expect(load.read(BLOCK, SIZE) == block_of(writer.number), "the next start does not serve the last block")
    status = load.daemon.stopped(signal.SIGTERM)[2]
    expect(status == 0, f"the next run ended with {status}")
    return "the next start serves the last block"


def loaded(load, seconds, tools, writer):
    """The load, for so long; the memory each minute, and what the clients told."""
    wide, held, clients = load.profile == "wide", [], []
    for plan, count, depth in ((plan_of_load, load.asking, 32), (plan_of_notes, WATCHING, 0)):
        serve.plan_all(lambda k, plan=plan: plan(k, wide), count)
        clients.append(load.load(load.server, count, depth, seconds))
    watch, began, turn = load.start("./stolen", stdout=open("stolen.txt", "w")), time.monotonic(), 0
    while all(client.poll() is None for client in clients) and time.monotonic() - began < seconds and not writer.fault:
        turn += 1
        time.sleep(max(0.0, began + turn - time.monotonic()))
        load.describe()
        tools.look()
        if time.monotonic() - began >= min(60, seconds / 4) * len(held):
            held.append(tools.memory())
            print(f"{time.monotonic() - began:5.0f} s: "
                  f"{', '.join(f'{name} {kib:,}' for name, kib in held[-1].items())} KiB", flush=True)
    stolen = serve.stretches(pathlib.Path("stolen.txt")) if watch.poll() is None else []
    serve.tell_stolen(stolen, watch.poll() is None)
    for client, what in zip(clients, ("requests", "samples")):
        *gaps, (count, took, *_) = serve.told(load.server, client)
        print(f"{count:,.0f} {what}, {count / took:,.0f} a second")
    serve.tell_gaps(gaps, stolen)
    held.append(tools.memory())
    return held


def tell_memory(held, seconds):
    """How much each process grew; a fault where it is much in the second half of a long run."""
    for name in held[0]:
        first, middle, last = (held[at][name] for at in (0, len(held) // 2, -1))
        print(f"{name}: {first:,} KiB at first, {last:,} in the end, grown by {last - first:,}, of these "
              f"{last - middle:,} in the second half")
        most = MOST_OF_HISTORY if name == "history" else MOST_GROWN
        expect(seconds < 1800 or last - middle <= most, f"{name} grows")


def tried(stack, given):
    seconds = 20 if given.short else 60 * given.minutes
    load = Load(stack, os.path.abspath(given.program), given.profile, given.asking)
    writer = Writer(load)
    writer.start()
    tools = Tools(load, writer)
    held = loaded(load, seconds, tools, writer)
    writer.stops.set()
    writer.join(60)
    expect(not writer.fault, writer.fault)
    print(f"{writer.number:,} writes of the block, each read back; the longest of these took "
          f"{1000 * writer.longest:.0f} ms")
    tools.until(writer.number)
    tell_memory(held, seconds)
    print(f"page: {tools.reader.reads:,} looks, {tools.reader.well:,} of them well; "
          f"{tools.reader.whys or 'no other answer'}")
    print(f"mqtt: {tools.heard.count:,} messages of the number" if tools.heard
          else "no mqtt.py was tried: python3-paho-mqtt is not here")
    expect(tools.reader.well, "the page was never well")
    if tools.heard:
        tools.ended("mqtt")
    print(history_is_sound(writer, tools.ended("history")))
    area, block = load.read(0, 4 * serve.OWN * load.asking), load.read(BLOCK, SIZE)
    expect(block == block_of(writer.number), "the block is not what was written last")
    tools.page.end()
    print(daemon_ends(load))
    print(store_has(load, area, block))
    print(next_start(load, writer))


def main():
    it = argparse.ArgumentParser(description=__doc__, formatter_class=argparse.RawDescriptionHelpFormatter)
    it.add_argument("program")
    it.add_argument("--minutes", type=float, default=61)
    it.add_argument("--profile", choices=("strict", "wide"), default="wide")
    it.add_argument("--asking", type=int, default=24)
    it.add_argument("--short", action="store_true")
    given = it.parse_args()
    signal.signal(signal.SIGTERM, lambda *_: sys.exit("ended"))
    print(f"{os.cpu_count()} processors, load average {os.getloadavg()[0]:.1f}; profile {given.profile}\n", flush=True)
    with contextlib.ExitStack() as stack:
        try:
            tried(stack, given)
        except (Differs, Wrong, OSError, subprocess.SubprocessError) as why:
            print(f"WRONG: {why}")
            return 1
    return 0


if __name__ == "__main__":
    sys.exit(main())
