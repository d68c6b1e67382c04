#!/usr/bin/env python3
"""How evenly `ads serve` gives the samples of a cycle, at rest and under load.

    python3 bench/beats.py [PROGRAM] [--seconds S]

PROGRAM is crates/ads/out/ads, which `rt run -- selftest ../../examples/state.script` in crates/ads builds. Four
connections have a notification in cycle mode each, of 10, 20, 50 and 100 ms. Under load 60 more ask for the state
without end, one request in flight on each, by two processes. Of each cycle one line: how many samples came in S seconds
(60 unless told), the mean gap between two, the longest gap, and how many beats of the cycle were missed, by the moments
of the samples. The program ends with 1 where the mean gap of the 10 ms cycle is above 10.5 ms (5 % above the cycle for
the others), or where a moment does not lie a whole number of cycles behind the last.

With --wall the system's wall clock is set for the program alone (tries/set_clocks.c, which gcc builds). For a server:
an hour forward, and then two hours back, while samples come; it prints how the moments follow. For a client: an hour
forward just before each answer comes, which must time nothing out; and two hours back while no answer comes, which must
end it after its five seconds all the same.
"""
import argparse
import os
import re
import selectors
import socket
import struct
import subprocess
import sys
import tempfile
import threading
import time

sys.dont_write_bytecode = True
sys.path[1:1] = [f"{sys.path[0]}/../{room}" for room in ("model", "tries")]
from ams import request, size_of_first, watched  # noqa: E402
from under_test import ADS, PLANT, Clocks, Program, connected, serve_words  # noqa: E402

CYCLES = (10, 20, 50, 100)
MS = 10_000
ASKING, PROCESSES = 60, 2


STATE = request(4, 1)


def served(program, **how):
    return Program(program, serve_words(PLANT), **how)


class Cycle:
    """A connection with one notification in cycle mode, and when its samples came."""

    def __init__(self, port, cycle):
        self.cycle, self.rest, self.came, self.moments = cycle, b"", [], []
        self.socket = connected(port)
        self.socket.sendall(request(6, 5, watched(0x4040, 64, 2, 3, cycle * MS)))

    def hear(self):
        self.rest += self.socket.recv(65536)
        now = time.monotonic()
        while size := size_of_first(self.rest):
            if self.rest[22:24] == b"\x08\x00":
                self.came.append(now)
                self.moments.append(struct.unpack_from("<Q", self.rest, 46)[0])
            self.rest = self.rest[size:]

    def line(self):
        """What is told of it, and whether it is as it must be."""
        count = len(self.came)
        if count < 2:
            return f"{self.cycle:5} ms  no samples", False
        mean = 1e3 * (self.came[-1] - self.came[0]) / (count - 1)
        longest = 1e3 * max(b - a for a, b in zip(self.came, self.came[1:]))
        steps = [b - a for a, b in zip(self.moments, self.moments[1:])]
        missed = sum(step // (self.cycle * MS) - 1 for step in steps)
        even = all(step > 0 and step % (10 * MS) == 0 for step in steps)
        return (f"{self.cycle:5} ms {count:9} {mean:11.3f} ms {longest:11.1f} ms {missed:8}"
                + ("" if even else "  moments off the beats"),
                even and mean <= 1.05 * self.cycle)


def listen(cycles, seconds):
    with selectors.DefaultSelector() as poll:
        for it in cycles:
            poll.register(it.socket, selectors.EVENT_READ, it)
        until = time.monotonic() + seconds
        while time.monotonic() < until:
            for key, _ in poll.select(0.1):
                key.data.hear()


def ask(port, count):
    """So many connections ask for the state without end."""
    with selectors.DefaultSelector() as poll:
        for _ in range(count):
            s = connected(port)
            poll.register(s, selectors.EVENT_READ)
            s.sendall(STATE)
        while True:
            for key, _ in poll.select():
                if not key.fileobj.recv(4096):
                    return
                key.fileobj.send(STATE)


def load(port):
    """The processes that ask."""
    children = []
    for _ in range(PROCESSES):
        child = os.fork()
        if child == 0:
            try:
                ask(port, ASKING // PROCESSES)
            finally:
                os._exit(0)
        children.append(child)
    return children


def measure(program, seconds, is_loaded):
    children = []
    try:
        with served(program) as server:
            cycles = [Cycle(server.port, cycle) for cycle in CYCLES]
            if is_loaded:
                children = load(server.port)
                time.sleep(1)
                for it in cycles:
                    it.socket.setblocking(False)
            listen(cycles, 1)
            for it in cycles:
                it.came, it.moments = [], []
            listen(cycles, seconds)
        how = f"under load of {ASKING} connections" if is_loaded else "at rest"
        print(f"{how}, load average {os.getloadavg()[0]:.1f}")
        print("   cycle   samples    mean gap    longest gap   missed")
        lines = [it.line() for it in cycles]
        for text, _ in lines:
            print(text, flush=True)
        return all(right for _, right in lines)
    finally:
        for child in children:
            os.kill(child, 9)
            os.waitpid(child, 0)


def wall(program):
    """The wall clock of a server alone, and then of clients alone, is set forward and back."""
    with tempfile.TemporaryDirectory() as folder:
        clocks = Clocks(folder)
        return all([wall_of_server(program, clocks), wall_of_clients(program, clocks)])


def wall_of_server(program, clocks):
    """The wall clock of the server is set while a cycle of 10 ms goes on."""
    right = True
    with served(program, env=clocks.env) as server:
        it = Cycle(server.port, 10)
        listen([it], 1)
        for name, seconds in (("an hour forward", 3600), ("two hours back", -3600)):
            clocks.set(seconds)
            it.came, it.moments = it.came[-1:], it.moments[-1:]
            listen([it], 10)
            right = told_of(it, name, seconds) and right
    return right


# What is asked while the client's clock is set, and what must be printed.
ASKED = ((["state"], "ads 5 device 0\n"), (["get", "Main.count"], "42\n"), (["set", "Main.count", "42"], "ok\n"),
         (["watch", "Main.count", "--mode", "cycle", "--cycle", "200000", "--count", "3"], "42\n42\n42\n"))


def wall_of_clients(program, clocks):
    """The wall clock of clients is set: before each piece that the server sends, and while it sends nothing."""
    right = True
    with served(program) as server:
        for words, wanted in ASKED:
            with between(server.port, lambda: clocks.set(clocks.wall + 3600)) as near:
                clocks.set(0)
                status, printed, took = ended(program, words, near, clocks.env)
            # (before each value that is watched stands its moment)
            good = (status, re.sub(r"(?m)^\d{17,} ", "", printed)) == (0, wanted)
            print(f"wall clock of {words[0]} an hour forward before each answer: status {status}, {took:.1f} s",
                  flush=True)
            right = right and good
    with socket.create_server(("127.0.0.1", 0)) as silent:
        clocks.set(0)
        later = threading.Timer(1, clocks.set, (-7200,))
        later.start()
        status, printed, took = ended(program, ["state"], silent.getsockname()[1], clocks.env)
        later.cancel()
    print(f"wall clock of state two hours back without an answer: status {status}, {took:.1f} s", flush=True)
    return right and status == 11 and 4.5 < took < 7


def ended(program, words, port, env):
    """The status of a client's command, what it printed, and how many seconds it took; no status where it takes 15."""
    began = time.monotonic()
    command = [program, *words, "--to", f"127.0.0.1:{port}", "--netid", "5.1.2.3.1.1", "--me", "192.168.0.9.1.1"]
    try:
        it = subprocess.run(command, env=env, stdout=subprocess.PIPE, text=True, timeout=15)
        return it.returncode, it.stdout, time.monotonic() - began
    except subprocess.TimeoutExpired:
        return None, "", time.monotonic() - began


class between:
    """A port that passes bytes to a server's port and back, and calls before each piece that goes back."""

    def __init__(self, port, call):
        self.port, self.call, self.door = port, call, socket.create_server(("127.0.0.1", 0))

    def __enter__(self):
        threading.Thread(target=self.serve, daemon=True).start()
        return self.door.getsockname()[1]

    def __exit__(self, *_):
        self.door.close()

    def serve(self):
        client, _ = self.door.accept()
        server = connected(self.port)
        threading.Thread(target=pass_on, args=(client, server, lambda: None), daemon=True).start()
        pass_on(server, client, self.call)


def pass_on(one, other, call):
    try:
        while piece := one.recv(65536):
            call()
            other.sendall(piece)
        other.shutdown(socket.SHUT_WR)
    except OSError:
        pass


def told_of(it, name, seconds):
    """Prints how the moments follow; whether samples came all the while, at moments that rise by whole beats."""
    if len(it.came) < 3:
        print(f"wall clock {name}: samples stall")
        return False
    off = it.moments[-1] / 1e7 - 11644473600 - time.time() - seconds
    steps = sorted(b - a for a, b in zip(it.moments, it.moments[1:]))
    longest = 1e3 * max(b - a for a, b in zip(it.came, it.came[1:]))
    print(f"wall clock {name}: {len(it.came)} samples in 10 s, longest gap {longest:.0f} ms, greatest step of a moment "
          f"{steps[-1] / 1e7:.2f} s, moments {off:+.2f} s off")
    return len(it.came) > 900 and steps[0] > 0 and all(step % (10 * MS) == 0 for step in steps)


def main():
    words = argparse.ArgumentParser(description=__doc__.splitlines()[0])
    words.add_argument("program", nargs="?", default=ADS)
    words.add_argument("--seconds", type=float, default=60)
    words.add_argument("--wall", action="store_true")
    told = words.parse_args()
    program = os.path.abspath(told.program)
    if told.wall:
        sys.exit(0 if wall(program) else 1)
    sys.exit(0 if all([measure(program, told.seconds, is_loaded) for is_loaded in (False, True)]) else 1)


if __name__ == "__main__":
    main()
