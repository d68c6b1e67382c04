#!/usr/bin/env python3
"""What `ads relay` passes on in a second, and what that costs, beside a router that is written by hand in C
(bench/relay_limit.c).

    python3 bench/relay.py PROGRAM [--quick]
        1, 8 and 32 pairs of an asker and a target over loopback, each asker with 32 requests in flight, and with one
    python3 bench/relay.py PROGRAM --script [--quick]     frames of a script, with 2 to 1,000 connections
    python3 bench/relay.py PROGRAM --instructions
        the same by callgrind: what a frame costs with its line of the script and of the log, on a machine as busy as it
        likes

PROGRAM is crates/ads/out/ads; gcc builds the C router and the load (bench/relay_client.c), which compares every byte
that it is told. Over loopback each figure is the median of five turns, in which both routers come one after the other,
and each ratio the median of the turns' ratios; with --quick of one short turn. With 32 pairs and 32 in flight the ratio
is to be at least 0.7. Of a script the time is the program's processor time, the least of five runs, less that of the
same script without the requests and responses; a frame is to cost with 1,000 connections at most 1.1 times what it
costs with 2. Other work on the machine spoils all figures.
"""
import argparse
import contextlib
import itertools
import os
import pathlib
import re
import subprocess
import sys
import tempfile

sys.dont_write_bytecode = True
sys.path[1:1] = [f"{sys.path[0]}/../{room}" for room in ("model", "tools", "tries")]
from ams import framed, net_of, u16, u32  # noqa: E402
from random_runs import toml_of  # noqa: E402
from serve import Bench  # noqa: E402
from timed import seconds_of  # noqa: E402

ROUTES = 1024


def net(k):
    return f"10.0.{k % 256}.{1 + k // 256}.1.1"


def described():
    port = {"port": 851, "name": "Bench", "major": 3, "minor": 1, "build": 1711}
    return {"schema": 1, "net": "5.1.2.3.1.1", "route": [{"net": net(k), "rights": "read"} for k in range(ROUTES)],
            "port": [port]}


def frame(target, source, flags, number):
    """A read of four bytes, or the response to one."""
    payload = u32(0x4040, 64, 4) if flags == 4 else u32(0, 4, 42)
    ends = [net_of(net(k)) + u16(851) for k in (target, source)]
    return framed(*ends, 2, flags, 0, number, payload).hex()


def loopback(bench):
    pathlib.Path("plan").touch()
    print("| pairs | in flight of each | frames a second | C router | ratio | processor ns a frame | C router "
          "|\n|---|---|---|---|---|---|---|")
    for depth, pairs in itertools.product((32, 1), (32, 8, 1)):
        ((rate, cost), (c_rate, c_cost)), (ratio, _) = bench.medians(pairs, depth, 0.3 if bench.quick else 2)
        print(f"| {pairs} | {depth} | {rate:,.0f} | {c_rate:,.0f} | {ratio:.2f} | {cost:,.0f} | {c_cost:,.0f} |",
              flush=True)


def script(connections, requests):
    """A script of so many connections, which own their NetIds, and of requests with their responses, each a piece, of
    one pair after another."""
    lines = [f"open {k + 1}\nbytes {k + 1} {frame(k ^ 1, k, 5, 0)}\n" for k in range(connections)]
    for number in range(requests):
        k = 2 * number % connections
        lines += [f"bytes {k + 1} {frame(k + 1, k, 4, number)}\nbytes {k + 2} {frame(k, k + 1, 5, number)}\n"]
    return "".join(lines)


def seconds(program, text, passed, times):
    """The least processor time of so many runs of a script, which passes so many frames on."""
    texts = {"plant.toml": toml_of(described()), "it.script": text}
    right = f" passed {passed} unknown 0"
    return seconds_of([program, "relay", *texts], texts, times, lambda status,
                      last: status == 0 and last.endswith(right))[0]


def scripted(program, quick):
    requests, times, first = (500, 1, None) if quick else (50000, 5, None)
    print("| connections | processor ns a frame | of that with 2 |\n|---|---|---|")
    for connections in (2, 10, 100, 1000):
        took = seconds(program, script(connections, requests), 2 * requests,
                       times) - seconds(program, script(connections, 0), 0, times)
        cost = 1e9 * took / (2 * requests)
        first = first or cost
        print(f"| {connections:,} | {cost:,.0f} | {cost / first:.2f} |", flush=True)


def collected(program, text):
    """The instructions of a run of a script."""
    pathlib.Path("it.script").write_text(text)
    words = ["valgrind", "--tool=callgrind", "--callgrind-out-file=/dev/null", program, "relay", "plant.toml",
             "it.script"]
    said = subprocess.run(words, stdout=subprocess.DEVNULL, stderr=subprocess.PIPE, check=True, text=True).stderr
    return int(re.search(r"Collected : (\d+)", said).group(1))


def counted(program):
    pathlib.Path("plant.toml").write_text(toml_of(described()))
    print("| connections | instructions a frame |\n|---|---|")
    for connections in (2, 8, 100):
        more, fewer = (collected(program, script(connections, requests)) for requests in (4000, 1000))
        print(f"| {connections:,} | {(more - fewer) / 6000:,.0f} |", flush=True)


def main():
    it = argparse.ArgumentParser(description=__doc__, formatter_class=argparse.RawDescriptionHelpFormatter)
    it.add_argument("program", type=os.path.abspath)
    it.add_argument("--quick", action="store_true")
    it.add_argument("--script", action="store_true")
    it.add_argument("--instructions", action="store_true")
    given = it.parse_args()
    print(f"{os.cpu_count()} processors, load average {os.getloadavg()[0]:.1f}\n")
    with contextlib.ExitStack() as stack:
        if given.script or given.instructions:
            os.chdir(stack.enter_context(tempfile.TemporaryDirectory()))
            if given.instructions:
                counted(given.program)
            else:
                scripted(given.program, given.quick)
        else:
            loopback(Bench(stack, given.program, given.quick, "relay", described()))


if __name__ == "__main__":
    main()
