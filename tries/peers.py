#!/usr/bin/env python3
"""Peers that behave badly against `ads serve`, or `adsd` in a profile, and what the others get meanwhile.

Build the program first: in crates/ads, `rt run -- selftest ../../examples/state.script`. Each scene starts with a good
client that asks for the state and reads a value, before and after, and compares every byte. One line a scene: `ok` or
what came. The program ends with 1 where a scene differs.

The scenes of the last group are played while 40 further connections ask without end. In two scenes the server's own
clocks are set forward (tries/set_clocks.c, which gcc builds), so that five minutes pass at once; where this program may
do so (as root), one has its peers vanish without a word, by TCP repair. The profile `wide` has three scenes more, of
peers that ask a local AMS router. Behind each group descriptors and threads must be as many as before; what the process
grew by is told.

python3 tries/peers.py [PROGRAM] [--short]
python3 tries/peers.py --adsd PROGRAM [--profile strict|wide] [--short]
    without a profile both; --short leaves out the scenes in which seconds must pass
"""
import argparse
import contextlib
import os
import selectors
import socket
import struct
import sys
import tempfile
import time

sys.dont_write_bytecode = True
sys.path.insert(1, f"{sys.path[0]}/../model")
from ams import NET, area, request, response, u16, u32, watched  # noqa: E402
from under_test import (  # noqa: E402
    ADS, PLANT, Clocks, Program, daemon_words, is_closed, play, reset, serve_words, taken, told_in, until_end,
)

MOST = 64
# The program that is tried, and its profile; none for `ads serve`.
TRIED = [ADS, None]

STATE = request(4, 1)
STATE_REPLY = response(4, 1, u32(0) + u16(5) + u16(0))
COUNT = request(2, 2, area(0x4040, 60, 2))
COUNT_REPLY = response(2, 2, u32(0, 2) + u16(1000))


def served(plant=PLANT, **how):
    """The program that is tried, over a plant."""
    program, profile = TRIED
    return Program(program, daemon_words(plant, profile) if profile else serve_words(plant), **how)


def good(s):
    """A good client asks twice, and gets its replies byte for byte."""
    began = time.monotonic()
    s.sendall(STATE + COUNT)
    want = STATE_REPLY + COUNT_REPLY
    got = taken(s, len(want))
    if got != want:
        return f"the good client got {got.hex()}"
    if time.monotonic() - began > 1.0:
        return "the good client waited for more than a second"
    return None


def byte_by_byte(server):
    with server.open() as s:
        for n in range(len(STATE)):
            s.sendall(STATE[n:n + 1])
            time.sleep(0.001)
        got = taken(s, len(STATE_REPLY))
        return None if got == STATE_REPLY else got.hex()


def many_in_one_piece(server):
    with server.open() as s:
        s.sendall(STATE * 1000)
        want = STATE_REPLY * 1000
        got = taken(s, len(want))
        return None if got == want else f"{len(got)} bytes"


def half_closed(server):
    with server.open() as s:
        s.sendall(STATE * 50 + STATE[:20])
        s.shutdown(socket.SHUT_WR)
        got = until_end(s)
        return None if got == STATE_REPLY * 50 else f"{len(got)} bytes in place of {len(STATE_REPLY) * 50}"


def half_closed_large(server):
    """A stream that ends behind requests whose replies are far more than a socket takes at once."""
    ask = request(2, 3, area(0x4040, 1000, 990000))
    want = response(2, 3, u32(0, 990000) + bytes(990000))
    with server.open() as s:
        s.sendall(ask * 4)
        s.shutdown(socket.SHUT_WR)
        time.sleep(0.3)
        got = until_end(s)
        return None if got == want * 4 else f"{len(got)} bytes in place of {len(want) * 4}"


def reset_in_mid_frame(server):
    for _ in range(200):
        s = server.open()
        s.sendall(STATE + STATE[:10])
        reset(s)
    return None


def never_reads(server):
    """It asks for far more than is queued for it, and never reads: it is shut, and the other is served all the
    while."""
    ask = request(2, 3, area(0x4040, 0, 1000000))
    with server.open() as s, server.open() as other:
        s.settimeout(0.2)
        try:
            for _ in range(40):
                s.sendall(ask)
                wrong = good(other)
                if wrong:
                    return wrong
        except (ConnectionError, TimeoutError, socket.timeout):
            pass
        wrong = good(other)
        if wrong:
            return wrong
    return None


def broken_frame(server):
    with server.open() as s:
        s.sendall(STATE + bytes.fromhex("010020000000"))
        got = until_end(s)
        return None if got == STATE_REPLY else got.hex()


def unknown_route(server):
    with server.open() as s:
        s.sendall(STATE + request(4, 1, b"", source=bytes([9, 9, 9, 9, 1, 1])))
        got = until_end(s)
        return None if got == STATE_REPLY else got.hex()


def sixty_five(server):
    held = [server.open() for _ in range(MOST - 1)]
    for s in held:
        wrong = good(s)
        if wrong:
            return wrong
    late = server.open()
    late.settimeout(0.3)
    late.sendall(STATE)
    try:
        return f"one more than {MOST} was served: {late.recv(100).hex()}"
    except (TimeoutError, socket.timeout):
        pass
    held.pop().close()
    late.settimeout(5.0)
    got = taken(late, len(STATE_REPLY))
    late.close()
    for s in held:
        s.close()
    return None if got == STATE_REPLY else got.hex()


def notifications(server):
    """A cyclic notification of each tick: samples of rising moments, about a hundred in a second."""
    spec = watched(0x4040, 64, 2, 3)
    with server.open() as s:
        s.sendall(request(6, 5, spec))
        added = taken(s, 46)
        if added[38:42] != bytes(4):
            return added.hex()
        moments = []
        began = time.monotonic()
        while time.monotonic() - began < 2.0:
            note = taken(s, 38 + 28 + 2)
            if len(note) < 68:
                return "the stream ended"
            moments.append(struct.unpack("<Q", note[46:54])[0])
        if sorted(moments) != moments or not 150 <= len(moments) <= 210:
            return f"{len(moments)} samples in two seconds"
        off = abs(moments[-1] / 1e7 - 11644473600 - time.time())
        return None if off < 1 else f"a moment is {off:.1f} seconds off"


def notifications_in_time(server):
    """Each sample of a cycle of 10 ms comes, its moment one beat behind the last."""
    spec = watched(0x4040, 64, 2, 3, 100_000)
    with server.open() as s:
        s.sendall(request(6, 5, spec))
        added = taken(s, 46)
        if added[38:42] != bytes(4):
            return added.hex()
        moments = [struct.unpack("<Q", taken(s, 68)[46:54])[0] for _ in range(300)]
        steps = [b - a for a, b in zip(moments, moments[1:])]
        off = [step for step in steps if step % 100_000 or step <= 0]
        mean = sum(steps) / len(steps) / 10_000
        return None if not off and mean <= 10.5 else f"mean step {mean:.2f} ms, {len(off)} off the beats"


def reload(server_unused):
    text = open(PLANT).read()
    with tempfile.TemporaryDirectory() as folder:
        name = os.path.join(folder, "plant.toml")
        open(name, "w").write(text)
        with served(name) as server:
            with server.open() as s:
                version = request(2, 4, area(0xF008, 0, 1))
                s.sendall(version)
                before = taken(s, 47)[-1]
                with open(name + ".new", "w") as f:
                    f.write(text.replace("initial = \"2a000000\"", "initial = \"2b000000\""))
                os.replace(name + ".new", name)
                time.sleep(2.5)
                s.sendall(version)
                after = taken(s, 47)[-1]
                os.remove(name)
                time.sleep(1.5)
                wrong = good(s)
                if wrong:
                    return wrong
                return None if (before, after) == (1, 2) else f"versions {before} and {after}"


class Later:
    """A server whose steady clock can be set forward."""

    def __init__(self, stack):
        self.clocks = Clocks(stack.enter_context(tempfile.TemporaryDirectory()))
        self.server = stack.enter_context(served(env=self.clocks.env))

    def wait(self, seconds):
        """So many seconds pass for the server."""
        self.clocks.set(steady=self.clocks.steady + seconds)
        time.sleep(0.1)


def is_served(s, seconds=2.0):
    s.settimeout(seconds)
    try:
        s.sendall(STATE)
        return taken(s, len(STATE_REPLY)) == STATE_REPLY
    except (ConnectionError, TimeoutError, socket.timeout):
        return False


def silent_longest(server_unused):
    """All places are taken, and two are silent for five minutes: they go for two that wait, the one that is silent
    longest first; a third waits."""
    with contextlib.ExitStack() as stack:
        clocks = Later(stack)
        subscriber = stack.enter_context(clocks.server.open())
        subscriber.sendall(request(6, 5, watched(0x4040, 64, 2, 3, 100_000)))
        held = [stack.enter_context(clocks.server.open()) for _ in range(MOST - 1)]
        for s in held:
            if not is_served(s):
                return "one of 64 was not served"
        waiting = [stack.enter_context(clocks.server.open()) for _ in range(3)]
        for order, seconds in ((9, 10), (5, 30)):
            clocks.wait(seconds)
            if not is_served(held[order]):
                return f"connection {order} was not served"
        clocks.wait(100)
        for s in held[:5] + held[6:9] + held[10:]:
            if not is_served(s):
                return "one was closed that was silent for less than five minutes"
        clocks.wait(140)
        for late in waiting:
            late.sendall(STATE)
        if told_in(waiting[0], 0.5):
            return "a 65th was served"
        for s, late, seconds in zip((held[9], held[5]), waiting, (40, 30)):
            clocks.wait(seconds)
            if not is_closed(s, 2.0):
                return "the one that was silent longest was not closed"
            if told_in(late, 5.0) != STATE_REPLY:
                return "the one that waited was not served"
        if told_in(waiting[2], 0.5):
            return "one was closed that was silent for less than five minutes"
        for s in held[:5] + held[6:9] + held[10:]:
            if not is_served(s):
                return "one that was not silent was closed"
        subscriber.setblocking(False)
        with contextlib.suppress(BlockingIOError):
            while subscriber.recv(65536):
                pass
        subscriber.settimeout(2.0)
        return None if subscriber.recv(65536) else "a connection that takes its samples was closed"


def vanished(server_unused):
    """64 clients vanish without a word; five minutes later others are served."""
    with contextlib.ExitStack() as stack:
        clocks = Later(stack)
        for _ in range(MOST):
            s = clocks.server.open()
            if not is_served(s):
                return "one of 64 was not served"
            try:
                s.setsockopt(socket.IPPROTO_TCP, 19, 1)  # TCP_REPAIR: nothing is sent when it is closed
            except PermissionError:
                return None
            s.close()
        late = [stack.enter_context(clocks.server.open()) for _ in range(MOST)]
        late[0].settimeout(0.5)
        with contextlib.suppress(TimeoutError, socket.timeout):
            return f"a 65th was told {late[0].recv(100).hex()}"
        clocks.wait(301)
        for s in late:
            if not is_served(s, 5.0):
                return "one that waited was not served"
        return None


def two_in_one_write(server):
    """The replies to two requests that came together leave together."""
    want = STATE_REPLY + COUNT_REPLY
    with server.open() as s:
        for turn in range(200):
            s.sendall(STATE + COUNT)
            got = s.recv(65536)
            if got != want:
                return f"turn {turn}: {len(got)} bytes came first, in place of {len(want)}"
    return None


def full_socket(server):
    """A peer that reads slowly gets each byte in order, though its socket was full many times."""
    ask = request(2, 3, area(0x4040, 1000, 990000))
    want = (response(2, 3, u32(0, 990000) + bytes(990000)) + STATE_REPLY) * 4
    with server.open() as s, server.open() as other:
        s.setsockopt(socket.SOL_SOCKET, socket.SO_RCVBUF, 4096)
        s.sendall((ask + STATE) * 4)
        got = bytearray()
        while len(got) < len(want):
            piece = s.recv(60000)
            if not piece:
                break
            got += piece
            if len(got) % 7 == 0:
                wrong = good(other)
                if wrong:
                    return wrong
        return None if got == want else f"{len(got)} bytes in place of {len(want)}"


@contextlib.contextmanager
def load(server, count=40):
    """So many connections that ask for the state without end, in a process of their own."""
    child = os.fork()
    if child == 0:
        try:
            with selectors.DefaultSelector() as poll:
                for _ in range(count):
                    s = server.open()
                    poll.register(s, selectors.EVENT_READ)
                    s.sendall(STATE)
                while True:
                    for key, _ in poll.select():
                        if not key.fileobj.recv(4096):
                            os._exit(0)
                        key.fileobj.send(STATE)
        finally:
            os._exit(0)
    try:
        time.sleep(0.5)
        yield
    finally:
        os.kill(child, 9)
        os.waitpid(child, 0)


ASKS_NET, TELLS_NET = bytes.fromhex("021000000000"), bytes.fromhex("021006000000") + NET


def many_to_a_router(server):
    """A peer asks a local router for its NetId without end, and sends a frame behind it all."""
    with server.open() as s:
        s.sendall(ASKS_NET * 10000 + STATE)
        want = TELLS_NET * 10000 + STATE_REPLY
        got = taken(s, len(want))
        return None if got == want else f"{len(got)} bytes"


def part_of_a_router_packet(server):
    """Peers that send the first bytes of such a packet and wait, are reset, or go on with what is none."""
    for cut in range(1, len(ASKS_NET)):
        with server.open() as s:
            s.sendall(ASKS_NET + ASKS_NET[:cut])
            if taken(s, len(TELLS_NET)) != TELLS_NET or told_in(s, 0.05):
                return f"{cut} bytes of a packet were answered"
            reset(s)
    with server.open() as s:
        s.sendall(ASKS_NET[:2] + b"\xff" * 100)
        got = until_end(s)
        return None if got == b"" else got.hex()


def router_never_read(server):
    """A peer that asks for far more of a router than is queued for it, and never reads: the other is served all the
    while."""
    with server.open() as s, server.open() as other:
        s.settimeout(0.2)
        with contextlib.suppress(ConnectionError, TimeoutError, socket.timeout):
            for _ in range(60):
                s.sendall(ASKS_NET * 20000)
                wrong = good(other)
                if wrong:
                    return wrong
        return good(other)


SCENES = [byte_by_byte, many_in_one_piece, half_closed, reset_in_mid_frame, broken_frame, unknown_route, sixty_five,
          notifications, reload, silent_longest, vanished]
ROUTED = [many_to_a_router, part_of_a_router_packet, router_never_read]
LARGE = [half_closed_large, never_reads, full_socket]
LOADED = [two_in_one_write, half_closed, half_closed_large, full_socket, notifications_in_time]
SLOW = {reload, silent_longest, vanished}


def play_scenes(server, scenes, more=""):
    """How many scenes went wrong; a good client asks before and behind each."""
    with server.open() as s:
        if wrong := good(s):
            print(f"before the scenes{more}: {wrong}", flush=True)
            return 1
        return play(scenes, lambda scene: scene(server) or good(s), server.process, more)


def play_all(is_short):
    """How many scenes of this program went wrong."""
    wrong, large = 0, open(PLANT).read().replace("data = 128", "data = 1000000")
    small = [it for it in SCENES if not is_short or it not in SLOW] + (ROUTED if TRIED[1] == "wide" else [])
    with tempfile.NamedTemporaryFile("w", suffix=".toml") as it:
        it.write(large)
        it.flush()
        for plant, scenes in ((PLANT, small), (it.name, LARGE), (it.name, None)):
            with served(plant) as server:
                if scenes:
                    wrong += play_scenes(server, scenes)
                else:
                    with load(server):
                        wrong += play_scenes(server, LOADED, ", under load")
    return wrong


def main():
    it = argparse.ArgumentParser(description=__doc__, formatter_class=argparse.RawDescriptionHelpFormatter)
    it.add_argument("program", nargs="?", default=ADS)
    it.add_argument("--adsd")
    it.add_argument("--profile", choices=("strict", "wide"))
    it.add_argument("--short", action="store_true")
    given, wrong = it.parse_args(), 0
    profiles = ([given.profile] if given.profile else ["strict", "wide"]) if given.adsd else [None]
    for profile in profiles:
        TRIED[:] = os.path.abspath(given.adsd or given.program), profile
        print(f"{os.path.basename(TRIED[0])} {profile or 'serve'}")
        wrong += play_all(given.short)
    sys.exit(1 if wrong else 0)


if __name__ == "__main__":
    main()
