#!/usr/bin/env python3
"""A thousand connections that end in each way: what `ads serve` and `ads relay --listen`, or `adsd` in both profiles,
keep of them.

    python3 tries/endings.py [PROGRAM] [--count N]
    python3 tries/endings.py --adsd PROGRAM [--count N]

For each way N connections (1,000) come, 32 at a time, and end so. Behind them a good client asks, and must be told each
byte; the process must have as many descriptors and threads as before the first, and what it holds of memory is told
before and behind. The program ends with 1 where anything is left over or a client is told otherwise.
"""
import os
import socket
import sys
import tempfile
import time

sys.dont_write_bytecode = True
sys.path.insert(1, f"{sys.path[0]}/../model")
import held  # noqa: E402
from ams import NET, OWN_PORT, PORT, area, framed, net_of, request, response, u16, u32, watched  # noqa: E402
from under_test import ADS, PLANT, Program, daemon_words, reset, serve_words, taken, until_end  # noqa: E402

TOGETHER = 32
STATE, STATE_TOLD = request(4, 1), response(4, 1, u32(0) + u16(5) + u16(0))
LONG, NOTES = request(2, 1, area(0x4040, 0, 100)), request(6, 1, watched(0x4040, 60, 2, 3, 100000))


def of_server(k):
    return STATE, STATE_TOLD


def of_relay(k):
    """A request to a NetId that nobody owns, and the relay's own answer. A relay has one connection for each NetId."""
    own, nobody = net_of(f"192.168.0.{k}.1.1") + u16(OWN_PORT), NET + u16(PORT)
    return framed(nobody, own, 4, 4, 0, 1, b""), framed(own, nobody, 4, 5, 7, 1, b"")


def routes():
    """A description with a route for each of the connections of a relay, and one for the good client."""
    nets = "".join(f'[[route]]\nnet = "192.168.0.{k}.1.1"\nrights = "write"\n' for k in range(TOGETHER + 1))
    port = '[[port]]\nport = 851\nname = "A"\nmajor = 1\nminor = 1\nbuild = 1\ndata = 8\n'
    return f'schema = 1\nnet = "5.1.2.3.1.1"\n{nets}{port}'


def exactly(s, want):
    got = taken(s, len(want))
    if got != want:
        raise ValueError(f"told {got.hex()} in place of {want.hex()}")


class Ways:
    """Each takes a connection to its end, and is given what to ask and what must be told."""

    @staticmethod
    def closed_at_once(s, ask, want):
        s.close()

    @staticmethod
    def closed_behind_its_replies(s, ask, want):
        s.sendall(ask * 3)
        exactly(s, want * 3)
        s.close()

    @staticmethod
    def closed_before_its_replies(s, ask, want):
        s.sendall(ask * 3)
        s.close()

    @staticmethod
    def reset_in_mid_frame(s, ask, want):
        s.sendall(ask + ask[:10])
        reset(s)

    @staticmethod
    def reset_at_once(s, ask, want):
        reset(s)

    @staticmethod
    def stream_ended_in_mid_frame(s, ask, want):
        s.sendall(ask * 2 + ask[:20])
        s.shutdown(socket.SHUT_WR)
        exactly(s, want * 2)
        until_end(s)
        s.close()

    @staticmethod
    def broken_frame(s, ask, want):
        s.sendall(ask + b"\x01\x00" + ask[2:])
        exactly(s, want)
        until_end(s)
        s.close()

    @staticmethod
    def unknown_source(s, ask, want):
        s.sendall(ask[:14] + bytes([9] * 6) + ask[20:])
        s.settimeout(0.2)
        try:
            s.recv(100)
        except TimeoutError:
            pass
        s.close()

    @staticmethod
    def reset_while_replies_wait(s, ask, want):
        s.sendall(ask * 500)
        reset(s)

    @staticmethod
    def half_of_it_read(s, ask, want):
        s.sendall(ask * 50)
        exactly(s, want * 25)
        s.close()


class OfServer(Ways):
    @staticmethod
    def reset_with_notifications(s, ask, want):
        s.sendall(NOTES * 20)
        s.recv(46)
        reset(s)

    @staticmethod
    def closed_with_handles(s, ask, want):
        name = b"Main.count"
        s.sendall(request(9, 1, u32(0xF003, 0, 4, len(name)) + name) * 5 + LONG)
        s.recv(46)
        s.close()


def ways_of(of):
    return [(name, getattr(of, name)) for name in dir(of) if not name.startswith("_")]


def asks(it, ask, want):
    """A good client, who is let in once the others are gone."""
    with it.open() as s:
        s.sendall(ask)
        exactly(s, want)


def play(words, of, words_of, count):
    """How many ways left something over, of a command of `ads` or of a profile of `adsd`."""
    command, wrong = words[0] if words[0] in ("serve", "relay") else words[-1], 0
    with Program(PROGRAM, words) as it:
        asks(it, *words_of(TOGETHER))
        time.sleep(0.3)
        before = held.counts(it.process.pid)
        for name, way in ways_of(of):
            for _ in range(count // TOGETHER + 1):
                some = [it.open() for _ in range(TOGETHER)]
                for k, s in enumerate(some):
                    way(s, *words_of(k))
                held.settled(it.process.pid, before)
            asks(it, *words_of(TOGETHER))
            left = held.left_over(it.process.pid, before)
            wrong += left[:2] != (0, 0)
            many = count // TOGETHER * TOGETHER + TOGETHER
            print(f"| {command} | {name.replace('_', ' ')} | {many:,} | {' | '.join(map(str, left))} |", flush=True)
        if it.process.poll() is not None:
            print(f"{command} ended with {it.process.returncode}")
            wrong += 1
    return wrong


def main():
    global PROGRAM
    words = sys.argv[1:]
    count = int(words.pop(words.index("--count") + 1)) if "--count" in words else 1000
    of_daemon = "--adsd" in words
    words = [word for word in words if word not in ("--count", "--adsd")]
    PROGRAM = os.path.abspath(words[0] if words else ADS)
    print("| of | how the connections ended | how many | descriptors left over | threads | KiB more than before the "
          "first |\n|---|---|---|---|---|---|")
    if of_daemon:
        sys.exit(1 if sum(play(daemon_words(PLANT, profile), OfServer, of_server, count)
                          for profile in ("strict", "wide")) else 0)
    wrong = play(serve_words(PLANT), OfServer, of_server, count)
    with tempfile.NamedTemporaryFile("w", suffix=".toml") as description:
        description.write(routes())
        description.flush()
        wrong += play(serve_words(description.name, "relay"), Ways, of_relay, count)
    sys.exit(1 if wrong else 0)


if __name__ == "__main__":
    main()
