#!/usr/bin/env python3
"""Time of `ads replay` per request, for many requests, many connections, and many frames that wait.

    python3 bench/replay.py [PROGRAM]      crates/ads/out/ads where it is absent

1,000, 10,000 and 100,000 reads of four bytes on one connection: the ratio of the time per request of the last to the
first is to be at most 1.3. With 100 and 1,000 further connections open beside the one that asks, and with 10,000
replies that wait for another connection, a request is to cost at most a tenth more.

Times are processor times of the program, the least of five runs, less that of the same run without the requests.
"""
import sys

sys.dont_write_bytecode = True
sys.path[1:1] = [f"{sys.path[0]}/../{room}" for room in ("model", "tries")]
from ams import area, request  # noqa: E402
from timed import program_of, seconds_of  # noqa: E402
from under_test import ADS, PLANT  # noqa: E402


def line_of(conn, number):
    return f"bytes {conn} {request(2, number, area(0x4040, 0, 4)).hex()}\n"


def main(words):
    program, failed = program_of(words, ADS), False

    def seconds(script):
        return seconds_of([program, "replay", PLANT, "it.script"], {"it.script": script})[0]

    def each(before, count):
        """Seconds of one request, where so many stand behind these lines."""
        return (seconds(before + "".join(line_of(1, n + 1) for n in range(count))) - seconds(before)) / count

    def told(what, value, base, most):
        nonlocal failed
        ratio = value / base
        failed = failed or ratio > most
        print(f"{what}: {value * 1e6:.2f} microseconds a request, ratio {ratio:.2f} (at most {most})")

    base = each("open 1\n", 1000)
    print(f"1,000 requests: {base * 1e6:.2f} microseconds a request")
    for count in (10_000, 100_000):
        told(f"{count:,} requests", each("open 1\n", count), base, 1.3)
    alone = each("open 1\n", 10_000)
    for others in (100, 1000):
        beside = "open 1\n" + "".join(f"open {n + 2}\n" for n in range(others))
        told(f"{others:,} connections beside", each(beside, 10_000), alone, 1.1)
    waiting = "open 1\nopen 2\nroom 2 0\n" + "".join(line_of(2, n + 1) for n in range(10_000))
    told("10,000 replies wait for another", each(waiting, 10_000), alone, 1.1)
    return 1 if failed else 0


if __name__ == "__main__":
    sys.exit(main(sys.argv[1:]))
