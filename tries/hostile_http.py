#!/usr/bin/env python3
"""Hostile peers of tools/page.py over HTTP, many times, and what its process holds behind each kind: descriptors,
threads, memory.

    python3 tries/hostile_http.py [PROGRAM] [--times N] [--short]

PROGRAM is crates/ads/out/ads where it is absent, whose `serve` is under the page. The single requests are those of
tools/tries/page_http.py, each with the answer that must come; `--times` (20) is how often they come, and how many
hundred connections each other kind has; `--short` is 1. Behind each kind /healthz must be answered within half a minute
and /values.json be right, and once all are gone there must be as many descriptors and threads as before; the memory is
told, and more than 32 MiB of growth behind the first round is a fault. The page may write nothing to standard error.
Status 1 where anything differs.
"""
import argparse
import contextlib
import os
import pathlib
import socket
import struct
import sys
import time

ROOT = pathlib.Path(__file__).resolve().parent.parent
sys.dont_write_bytecode = True
sys.path.insert(1, f"{sys.path[0]}/../tools")
import held  # noqa: E402
from tries import page_http  # noqa: E402
from tries.paged import PLANT, Page, Rig, Stream  # noqa: E402
from tries.running import Served, Wrong, see  # noqa: E402
from under_test import ADS  # noqa: E402

MOST_GROWN, TOGETHER = 32768, 50


def opened(page, small=False):
    s = socket.socket()
    if small:
        s.setsockopt(socket.SOL_SOCKET, socket.SO_RCVBUF, 2048)
    s.settimeout(60)
    s.connect(("127.0.0.1", page.port))
    return s


def reset(s):
    s.setsockopt(socket.SOL_SOCKET, socket.SO_LINGER, struct.pack("ii", 1, 0))
    s.close()


def asks(page, path):
    return f"GET {path} HTTP/1.1\r\nHost: 127.0.0.1:{page.port}\r\n\r\n".encode()


class Kinds:
    """Each is given the page, a client of the server that can change a value, and how many hundreds of connections are
    meant."""

    @staticmethod
    def requests_that_are_none(page, rig, times):
        for _ in range(times):
            page_http.of_requests(page)

    @staticmethod
    def closed_at_once(page, rig, times):
        for _ in range(100 * times):
            opened(page).close()

    @staticmethod
    def reset_in_a_head(page, rig, times):
        for k in range(100 * times):
            s = opened(page)
            s.sendall(asks(page, "/values.json")[:10 + k % 30])
            reset(s)

    @staticmethod
    def reset_in_a_body(page, rig, times):
        for _ in range(100 * times):
            s = opened(page)
            s.sendall(f"POST /write HTTP/1.1\r\nHost: 127.0.0.1:{page.port}\r\nContent-Length: "
                      f"300000\r\n\r\n".encode() + bytes(1000))
            reset(s)

    @staticmethod
    def many_requests_in_one_piece(page, rig, times):
        """A connection has one request: what stands behind it is passed over."""
        for _ in range(times):
            with opened(page) as s, contextlib.suppress(OSError):
                s.sendall(asks(page, "/healthz") * 1000)
                came = b""
                while piece := s.recv(65536):
                    came += piece
                see(came.count(b"HTTP/1.1 200 ") <= 1, f"{came.count(b'HTTP/1.1 200 ')} answers on one connection")

    @staticmethod
    def answers_that_nobody_reads(page, rig, times):
        """All values are asked for, and not taken."""
        for _ in range(times * 100 // TOGETHER):
            some = [opened(page, True) for _ in range(TOGETHER)]
            for s in some:
                s.sendall(asks(page, "/values.json"))
            see(page.is_well(), "with answers that nobody reads /healthz is not answered")
            for s in some:
                reset(s)

    @staticmethod
    def streams_that_are_left(page, rig, times):
        """Browsers that come and go while a value changes."""
        for turn in range(times * 100 // TOGETHER):
            some = [opened(page) for _ in range(TOGETHER)]
            for s in some:
                s.sendall(asks(page, "/events"))
            rig.put("Main.count", struct.pack("<i", 1000 + turn))
            with contextlib.suppress(OSError):
                some[0].recv(65536)
            for k, s in enumerate(some):
                (reset if k % 2 else socket.socket.close)(s)

    @staticmethod
    def streams_that_nobody_reads(page, rig, times):
        """More browsers than there may be, which take nothing while values change: one that reads gets each change."""
        held_open = [opened(page, True) for _ in range(40)]
        for s in held_open:
            s.sendall(asks(page, "/events"))
        with Stream(page) as stream:
            stream.next("table")
            for k in range(20 * times):
                rig.put("Main.table[7]", struct.pack("<i", k + 1))
                time.sleep(0.02)
            stream.next("values", lambda it: any(value == 20 * times for _, value in it["c"]))
        for s in held_open:
            reset(s)

    @staticmethod
    def silent_ones(page, rig, times):
        for _ in range(max(1, times // 10)):
            page_http.of_many(page)

    @staticmethod
    def slow_ones(page, rig, times):
        if times > 1:
            page_http.of_slow(page)


def kinds():
    return [(name.replace("_", " "), getattr(Kinds, name)) for name in vars(Kinds) if not name.startswith("_")]


def look(page, rig, what):
    """The page answers, and shows the value that was written last."""
    began = time.monotonic()
    page.until(page.is_well, f"behind {what} /healthz", 30)
    see(time.monotonic() - began < 30, f"behind {what} /healthz took {time.monotonic() - began:.1f} s")
    count = struct.unpack("<i", rig.bytes_of("Main.count"))[0]
    page.until(lambda: page.values()[851, "Main.count"]["value"] == count, f"behind {what} the value {count}", 30)


def tried(program, times):
    with Served(program, PLANT) as server, Page(PLANT, server.to, "--write", "Main.count") as page, Rig(server) as rig:
        page.until(page.is_well, "the server")
        page_http.of_requests(page)
        page_http.of_many(page)
        # (what so many streams take of memory at once, the process keeps)
        Kinds.streams_that_are_left(page, rig, times)
        time.sleep(7)    # those that say nothing are let go after five seconds
        look(page, rig, "a first round")
        before, wrong = held.counts(page.process.pid), 0
        print(f"before: {before[0]} descriptors, {before[1]} threads, {before[2]:,} KiB\n\n| peers | seconds | behind "
              f"them |\n|---|---|---|")
        for what, kind in kinds():
            began = time.monotonic()
            try:
                kind(page, rig, times)
                look(page, rig, what)
                said = ""
            except (Wrong, OSError) as why:
                said = f"WRONG: {why}; "
            took, left = time.monotonic() - began, held.left_over(page.process.pid, before, 40)
            wrong += bool(said) or left[:2] != (0, 0)
            print(f"| {what} | {took:.1f} | {said}{held.told(left)} |", flush=True)
        if left[2] > MOST_GROWN:
            print(f"the page grew by {left[2]:,} KiB")
            wrong += 1
        return wrong


def main():
    it = argparse.ArgumentParser(description=__doc__, formatter_class=argparse.RawDescriptionHelpFormatter)
    it.add_argument("program", nargs="?", default=ADS, type=os.path.abspath)
    it.add_argument("--times", type=int, default=20)
    it.add_argument("--short", action="store_true")
    given = it.parse_args()
    try:
        return 1 if tried(given.program, 1 if given.short else given.times) else 0
    except Wrong as why:
        print(f"WRONG: {why}")
        return 1


if __name__ == "__main__":
    sys.exit(main())
