#!/usr/bin/env python3
"""What `ads serve` does in a second, and what that costs, beside a server of the same plant that is written by hand in
C (bench/serve_limit.c).

    python3 bench/serve.py PROGRAM [--quick] [--plot FILE.svg]
        requests: a table (Markdown), and a drawing of the mixture
    python3 bench/serve.py PROGRAM --notes [--quick]
        notifications: 512 on each of 64 connections, of a symbol that changes at each tick of 10 ms
    python3 bench/serve.py PROGRAM --minutes M
        the program's memory in M minutes of the mixture on 64 connections
    python3 bench/serve.py PROGRAM --minutes M --reloads
        the same with a reload each second, and of the 64 connections 16 with 512 notifications each; in the times
        between their frames, what the host kept of the processors (bench/stolen.c, by root)

PROGRAM is crates/ads/out/ads, which `rt run -- selftest ../../examples/state.script` in crates/ads builds; gcc builds
the C server and the load (bench/serve_client.c).

The plant has 6,400 symbols of four bytes. Each connection asks over loopback for 100 of its own. What it must be told
comes from model/protocol.py: a wrong byte, or five seconds of nothing (a minute with --minutes), ends the run with the
connection and the byte. Of 20 requests of the mixture 6 are reads by group, 5 reads by handle, 2 writes by group, 2
writes by handle, 4 states, and one a sum of 100 reads. Each figure is the median of five turns, in which both servers
come one after the other, and each ratio the median of the turns' ratios; with --quick of one short turn. Processor time
is that of all threads of the server. Other work on the machine spoils all figures, so its load average is told first.
"""
import argparse
import bisect
import contextlib
import itertools
import math
import os
import pathlib
import random
import signal
import statistics
import subprocess
import sys
import tempfile
import time

sys.dont_write_bytecode = True
sys.path[1:1] = [f"{sys.path[0]}/../{room}" for room in ("model", "tools", "tries")]
import ams  # noqa: E402
import protocol  # noqa: E402
from ams import u32  # noqa: E402
from random_runs import toml_of  # noqa: E402
from under_test import FOREVER, connected, free_port  # noqa: E402

HERE = os.path.dirname(os.path.abspath(__file__))
NET, ME = "5.1.2.3.1.1", "192.168.0.9.1.1"
SYMBOLS, OWN, CONNECTIONS, NOTES, WATCHING = 6400, 100, 64, 512, 16
RAMP = 4 * SYMBOLS
LOADS = {"read of 4 bytes": "r" * 500, "sum of 100 reads": "S" * 50, "mixture": "rswhrhsWrhrwshrSWhrs" * 25}


def plant(first, count):
    """A description with so many of the symbols."""
    symbols = [{"name": f"v{i}", "type": "DINT", "area": "data", "offset": 4 * i} for i in range(first, first + count)]
    symbols.append({"name": "ramp", "type": "UINT", "area": "data", "offset": RAMP, "signal": 0})
    port = {"port": 851, "name": "Bench", "major": 3, "minor": 1, "build": 1711, "data": 32768, "symbol": symbols}
    return {"schema": 1, "net": NET, "route": [{"net": ME, "rights": "write"}], "port": [port]}


def request_of(k, command, number, payload):
    """A request of connection k in its frame."""
    return ams.request(command, number, payload, source_port=ams.OWN_PORT + k)


def request(kind, first, r):
    """The command and the payload of a request to the symbols from the first on."""
    places = [4 * (first + r.randrange(OWN)) for _ in range(100 if kind == "S" else 1)]
    by_group, by_handle, given = u32(0x4040, places[0], 4), u32(0xF005, 1 + r.randrange(OWN), 4), r.randbytes(4)
    if kind == "S":
        return 9, u32(0xF080, 100, 800, 1200) + b"".join(u32(0x4040, place, 4) for place in places)
    return {"s": (4, b""), "r": (2, by_group), "h": (2, by_handle), "w": (3, by_group + given),
            "W": (3, by_handle + given)}[kind]


def plan(k, once, again, ticks=0, wide=False):
    """The plan of connection k (see serve_client.c). What is asked again and again is asked once before, so that each
    time finds what the last one left."""
    server, asks = protocol.Server(plant(OWN * k, OWN), [range(1000)], wide), []
    protocol.turn(server, ("open", 1), [])
    client = server.conns[1]
    for number, (command, payload) in enumerate(once + again + again):
        asks.append(request_of(k, command, number, payload))
        client.stream += asks[-1]
        server.take(client)
    for moment in range(ticks):
        asks.append(b"")
        server.tick(moment)
    begins = zip(*(itertools.accumulate(map(len, it), initial=0) for it in (asks, client.queue)))
    body = b"".join([u32(*it) for it in begins] + asks + client.queue)
    body += bytes(-len(body) % 4)
    return u32(12 + len(body), len(once + again), len(asks)) + body


def plan_of_load(k, kinds):
    r, first = random.Random(k), OWN * k
    names = [f"v{first + i}".encode() for i in range(OWN)]
    once = [(3, u32(0x4040, 4 * first, 4 * OWN) + r.randbytes(4 * OWN))] + [(9, u32(0xF003, 0, 4, len(
        name)) + name) for name in names]
    return plan(k, once, [request(kind, first, r) for kind in kinds])


def plan_all(plan_of, count=CONNECTIONS):
    pathlib.Path("plan").unlink(missing_ok=True)
    pathlib.Path("plan").write_bytes(b"".join(map(plan_of, range(count))))


def compile_c(name):
    subprocess.run(["gcc", "-O2", "-pthread", "-o", name, f"{HERE}/{name}.c"], check=True)


class Bench:
    """Both servers, the C server last, and loads of them; all in a folder of their own, until the stack ends them."""

    def __init__(self, stack, program, quick, command="serve", description=None):
        self.stack, self.quick, self.client = stack, quick, f"./{command}_client"
        os.chdir(stack.enter_context(tempfile.TemporaryDirectory()))
        for name in (f"{command}_limit", f"{command}_client"):
            compile_c(name)
        pathlib.Path("plant.toml").write_text(toml_of(description or plant(0, SYMBOLS)))
        self.servers = [self.serve([program, command, "plant.toml", "--events", FOREVER, "--listen"], "127.0.0.1:"),
                        self.serve([f"./{command}_limit"], "")]

    def start(self, command, stdout=subprocess.PIPE, **more):
        process = subprocess.Popen(command, stdout=stdout, **more)
        self.stack.callback(process.wait)
        self.stack.callback(process.kill)
        return process

    def serve(self, command, address):
        """The port and the process of a server whose last word is the address and a port."""
        port = str(free_port())
        process = self.start(command + [address + port])
        said = process.stdout.readline()
        if said != b"listening\n":
            sys.exit(f"{process.args} said {said!r}")
        return port, process

    def load(self, server, *numbers):
        port, process = server
        with open("plan", "rb") as it:
            return self.start([self.client, port, str(process.pid), *map(str, numbers)], stdin=it)

    def medians(self, *numbers):
        """Of both servers: replies a second, processor ns of each, the longest gap in ms. And the ratios of the first
        two to the C server's, each the median of what the turns gave."""
        turns = [self.turn(number, numbers) for number in range(1 if self.quick else 5)]
        ratios = [statistics.median(ads[it] / c[it] for ads, c in turns) for it in (0, 1)]
        return [[statistics.median(it) for it in zip(*rows)] for rows in zip(*turns)], ratios

    def turn(self, number, numbers):
        """The figures of both servers, loaded one after the other, the C server first each second time."""
        order = self.servers[:: -1 if number % 2 else 1]
        turn = [figures(server, self.load(server, *numbers)) for server in order]
        return turn[:: -1 if number % 2 else 1]


def told(server, client):
    """The numbers of each line that a load printed."""
    said = client.stdout.read().splitlines()
    if client.wait():
        sys.exit(f"{server[1].args[0]} under {' '.join(client.args)}: status {client.returncode}")
    return [[float(it) for it in line.split()] for line in said]


def figures(server, client):
    count, took, cost, *gap = told(server, client)[-1]
    return count / took, 1e9 * cost / max(count, 1), *(1e3 * it for it in gap)


def requests(bench, plot):
    print("| requests | connections | in flight on each | requests a second | C server | ratio | processor ns a "
          "request | C server |\n|---|---|---|---|---|---|---|---|")
    for name, kinds in LOADS.items():
        plan_all(lambda k: plan_of_load(k, kinds))
        lines = {(server, depth): [] for server in ("ads", "C") for depth in (32, 1)}
        for depth, count in itertools.product((32, 1), (64, 8, 1)):
            ((rate, cost, _), (c_rate, c_cost, _)), (ratio, _) = bench.medians(
                count, depth, 0.3 if bench.quick else 0.6)
            print(f"| {name} | {count} | {depth} | {rate:,.0f} | {c_rate:,.0f} | {ratio:.2f} | {cost:,.0f} | "
                  f"{c_cost:,.0f} |", flush=True)
            lines["ads", depth].append((count, rate))
            lines["C", depth].append((count, c_rate))
    if plot:
        pathlib.Path(plot).write_text(drawing(f"requests a second, {name}", lines))


def notes(bench):
    plan_all(lambda k: plan(k, [(6, ams.watched(0x4040, RAMP, 2, 4))] * NOTES, [], 1))
    rows, (_, ratio) = bench.medians(CONNECTIONS, 0, 1 if bench.quick else 4)
    print("| server | samples a second | longest gap between two frames, ms | processor ns a sample "
          "|\n|---|---|---|---|")
    for name, (rate, cost, gap) in zip(("ads", "C"), rows):
        print(f"| {name} | {rate:,.0f} | {gap:.1f} | {cost:.0f} |")
    print(f"\nAll there are: {100 * CONNECTIONS * NOTES:,} samples a second. Processor time: {ratio:.2f} times that of "
          f"the C server.")


def resident(process):
    """What a process holds of memory, in KiB."""
    return int(pathlib.Path(f"/proc/{process.pid}/status").read_text().partition("VmRSS:")[2].split()[0])


def memory(bench, minutes, reloads):
    """The mixture without end; with reloads on 48 connections, beside 16 that are told of the symbol that changes at
    each tick."""
    asking, server, held, version = CONNECTIONS - WATCHING if reloads else CONNECTIONS, bench.servers[0], [], 0
    plan_all(lambda k: plan_of_load(k, LOADS["mixture"]))
    clients = [bench.load(server, asking, 32, 60 * minutes + 2)]
    if reloads:
        plan_all(lambda k: plan(k, [(6, ams.watched(0x4040, RAMP, 2, 4))] * NOTES, [], 1))
        clients.append(bench.load(server, WATCHING, 0, 60 * minutes + 2))
        compile_c("stolen")
        watch = bench.start("./stolen", stdout=open("stolen.txt", "w"))
    began = time.monotonic()
    while all(client.poll() is None for client in clients) and time.monotonic() - began <= 60 * minutes:
        time.sleep(1)
        version += reloads
        if reloads:
            change_description(version)
        if time.monotonic() - began >= 30 * len(held):
            held.append(resident(server[1]))
            print(f"{time.monotonic() - began:5.0f} s: {held[-1]:,} KiB", flush=True)
    stolen = stretches(pathlib.Path("stolen.txt")) if reloads and watch.poll() is None else []
    if reloads:
        tell_stolen(stolen, watch.poll() is None)
    for client, what in zip(clients, ("requests", "samples")):
        *gaps, (count, took, *_) = told(server, client)
        print(f"{count:,.0f} {what}, {count / took:,.0f} a second")
    if reloads:
        tell_gaps(gaps, stolen)
        print(f"{version:,} descriptions were written; version in the end {version_of(server)}")
    print(f"grown by {held[-1] - held[0]} KiB, of these {held[-1] - held[len(held) // 2]} in the second half")


def stretches(file):
    """When no or not each processor could be used, one such stretch behind another."""
    joined = []
    for begin, end in sorted(tuple(map(float, line.split())) for line in file.read_text().splitlines()):
        if joined and begin <= joined[-1][1]:
            joined[-1][1] = max(end, joined[-1][1])
        else:
            joined.append([begin, end])
    return joined


def longest(times):
    """In ms."""
    return 1e3 * max((end - begin for begin, end in times), default=0)


def tell_stolen(stolen, watched):
    """What the host kept of the processors; in the last minute too, since a load that heard nothing may have ended
    there."""
    if not watched:
        print("whether the host kept processors is not known: only root may watch that")
        return
    last = [it for it in stolen if it[1] > time.monotonic() - 70]
    print(f"the host kept a processor {len(stolen):,} times, {sum(end - begin for begin, end in stolen):.1f} s in all, "
          f"at most {longest(stolen):.1f} ms (in the last minute {longest(last):.1f})")


def tell_gaps(gaps, stolen):
    """Of the times of more than 50 ms between two frames of a connection the longest, with and without what the host
    kept of each."""
    print(f"{len(gaps):,} times more than 50 ms between two frames of a connection, at most {longest(gaps):.1f} ms")
    ends = [end for _, end in stolen]
    left = []
    for begin, end in gaps:
        first = bisect.bisect(ends, begin)
        kept = itertools.takewhile(lambda it: it[0] < end, stolen[first:])
        left.append((end - begin - sum(min(end, to) - max(begin, since) for since, to in kept), end - begin))
    most, of = max(left, default=(0, 0))
    print(f"without what the host kept of each at most {1e3 * most:.1f} ms (of {1e3 * of:.1f})")


def change_description(version):
    """Another description takes the place of the one that is served: a symbol that nobody asks begins with other
    bytes."""
    description = plant(0, SYMBOLS)
    description["port"][0]["symbol"][SYMBOLS - 1]["initial"] = version.to_bytes(4, "little").hex()
    pathlib.Path("plant.new").write_text(toml_of(description))
    os.replace("plant.new", "plant.toml")


def version_of(server):
    """How often the description of a server was replaced, modulo 256, as its symbol version tells."""
    with connected(int(server[0])) as s:
        s.sendall(request_of(1, 2, 1, u32(0xF008, 0, 1)))
        return s.recv(100)[-1]


def drawing(title, lines):
    """An SVG of rates over connections; both axes are logarithmic."""
    rates = [rate for points in lines.values() for _, rate in points]
    marks = [digit * 10 ** power for power in range(9) for digit in (1, 2, 5)]
    low, high = max(it for it in marks if it <= min(rates)), min(it for it in marks if it >= max(rates))
    x = {1: 80, 8: 280, 64: 480}

    def y(rate):
        return round(310 - 270 * math.log(rate / low, high / low), 1)

    parts = ['<svg xmlns="http://www.w3.org/2000/svg" width="640" height="360" font-family="sans-serif" '
             'font-size="12">',
             f'<rect width="100%" height="100%" fill="white"/><text x="80" y="20">{title}</text><text x="280" y="350" '
             f'text-anchor="middle">connections</text>']
    parts += [f'<text x="{at}" y="330" text-anchor="middle">{count}</text>' for count, at in x.items()]
    for mark in marks[marks.index(low):marks.index(high) + 1]:
        parts.append(f'<line x1="80" x2="480" y1="{y(mark)}" y2="{y(mark)}" stroke="#ddd"/><text x="72" '
                     f'y="{y(mark) + 4}" text-anchor="end">{mark:,}</text>')
    label = 0
    for (server, depth), points in sorted(lines.items(), key=lambda it: -it[1][0][1]):
        label = max(label + 16, y(points[0][1]) + 4)
        style = (f'fill="none" stroke-width="2" stroke="{"#1f6f43" if server == "ads" else "#777"}" '
                 f'stroke-dasharray="{"5 4" if depth == 1 else "none"}"')
        parts.append(f'<polyline points="{" ".join(f"{x[count]},{y(rate)}" for count, rate in points)}" {style}/>')
        parts.append(f'<text x="490" y="{label:.1f}">{server}, {depth} in flight on each</text>')
    return "\n".join(parts + ["</svg>\n"])


def main():
    it = argparse.ArgumentParser(description=__doc__, formatter_class=argparse.RawDescriptionHelpFormatter)
    it.add_argument("program", type=os.path.abspath)
    it.add_argument("--quick", action="store_true")
    it.add_argument("--plot", type=os.path.abspath)
    it.add_argument("--notes", action="store_true")
    it.add_argument("--minutes", type=float)
    it.add_argument("--reloads", action="store_true")
    given = it.parse_args()
    signal.signal(signal.SIGTERM, lambda *_: sys.exit("ended"))
    print(f"{os.cpu_count()} processors, load average {os.getloadavg()[0]:.1f}\n")
    with contextlib.ExitStack() as stack:
        bench = Bench(stack, given.program, given.quick)
        if given.notes:
            notes(bench)
        elif given.minutes:
            memory(bench, given.minutes, given.reloads)
        else:
            requests(bench, given.plot)


if __name__ == "__main__":
    main()
