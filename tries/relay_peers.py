#!/usr/bin/env python3
"""Peers that behave badly at `ads relay --listen`, beside a panel that asks a rig through it: what the two get
meanwhile, and what is left over.

    python3 tries/relay_peers.py [PROGRAM] [--short]

PROGRAM is crates/ads/out/ads where it is absent. Before and behind each scene the panel asks the rig, and each byte on
both sides must be as it was sent. A line a scene, `ok` or what came; behind them all descriptors and threads must be as
many as before, and what the process grew by is told. Status 1 where anything differs. `--short` sends a tenth.
Connections that end in each way are tried by tries/endings.py, silent and vanished peers by tries/peers.py over the
same wire.
"""
import argparse
import contextlib
import os
import socket
import struct
import sys
import tempfile
import threading
import time

sys.dont_write_bytecode = True
sys.path.insert(1, f"{sys.path[0]}/../model")
from ams import PORT, framed, text_of, u16  # noqa: E402
from under_test import ADS, Program, is_closed, next_frame, play, reset, serve_words, taken, until_end  # noqa: E402

MOST = 64
PANEL, RIG, SILENT, GONE = (bytes([192, 168, 0, k, 1, 1]) for k in (1, 2, 3, 4))
TIMES = [10000]


def own(k):
    """The NetId of bad peer k."""
    return bytes([192, 168, 1, k, 1, 1])


def frame(source, target, number, payload=b"", command=2, flags=4, error=0):
    return framed(target + u16(PORT), source + u16(PORT), command, flags, error, number, payload)


def answer(asked):
    """The response of the rig to a frame: its payload again."""
    source, number = asked[14:20], struct.unpack("<I", asked[34:38])[0]
    return frame(RIG, source, number, asked[38:], flags=5)


def is_quiet(s, seconds=0.3):
    s.settimeout(seconds)
    try:
        s.recv(1, socket.MSG_PEEK)
        return False
    except (TimeoutError, BlockingIOError):
        return True
    finally:
        s.settimeout(10)


class Relay(Program):
    """A relay with a rig that answers with what it was asked, and a panel."""

    def __init__(self, program, folder):
        nets = [PANEL, RIG, SILENT, GONE, *(own(k) for k in range(MOST + 2))]
        routes = "".join(f'[[route]]\nnet = "{text_of(net)}"\nrights = "write"\n' for net in nets)
        place = os.path.join(folder, "relay.toml")
        with open(place, "w", encoding="utf-8") as it:
            it.write(f'schema = 1\nnet = "5.1.2.3.1.1"\n{routes}'
                     '[[port]]\nport = 851\nname = "A"\nmajor = 1\nminor = 1\nbuild = 1\ndata = 8\n')
        super().__init__(program, serve_words(place, "relay"))
        self.number, self.rig, self.panel = 0, self.claimed(RIG), self.claimed(PANEL)
        threading.Thread(target=self.answers, daemon=True).start()

    def claimed(self, net):
        """A connection that owns a NetId: a notification to itself comes back, once the owner before is gone."""
        note = frame(net, net, 0, command=8)
        for _ in range(50):
            s = self.open()
            s.sendall(note)
            if next_frame(s) == note:
                return s
            s.close()
            time.sleep(0.1)
        sys.exit(f"{net.hex()} could not be claimed")

    def answers(self):
        self.rig.settimeout(None)
        with contextlib.suppress(OSError):
            while asked := next_frame(self.rig):
                self.rig.sendall(answer(asked))

    def good(self):
        """The panel asks the rig, twice in one piece; what came where it is not the answers, in order."""
        self.number += 2
        asked = [frame(PANEL, RIG, self.number + k, bytes([k]) * 50) for k in (0, 1)]
        began = time.monotonic()
        self.panel.settimeout(10)
        self.panel.sendall(b"".join(asked))
        got = taken(self.panel, sum(len(answer(it)) for it in asked))
        if got != b"".join(map(answer, asked)):
            return f"the panel was told {got.hex()}"
        return f"the panel waited {time.monotonic() - began:.1f} s" if time.monotonic() - began > 2 else None


def byte_by_byte(relay):
    """A request comes a byte at a time, and is passed on."""
    asked = frame(own(0), RIG, 7, b"slow")
    with relay.open() as s:
        for k in range(len(asked)):
            s.sendall(asked[k:k + 1])
            time.sleep(0.001)
        got = next_frame(s)
        return None if got == answer(asked) else got.hex()


def claims_of_others(relay):
    """Peers that send from the NetId of another, of none, or of a second one, are closed and answered nothing."""
    for source in (RIG, PANEL, bytes([9] * 6), bytes(6)):
        with relay.open() as s:
            s.sendall(frame(source, RIG, 1))
            if not is_closed(s):
                return f"one that sends from {source.hex()} was not closed"
    with relay.claimed(own(0)) as s:
        s.sendall(frame(own(1), RIG, 1))
        return None if is_closed(s) else "one that changes its NetId was not closed"


def broken_frames(relay):
    """Frames that are none, or whose lengths disagree."""
    whole = frame(own(0), RIG, 1, b"12345678")
    texts = {"no frame": b"\1" + whole[1:], "a frame of 31 bytes": b"\0\0\x1f\0\0\0" + bytes(31),
             "a frame of 4 GB": b"\0\0\xff\xff\xff\xff" + whole[6:],
             "another data length": whole[:26] + b"\x09" + whole[27:], "HTTP": b"GET / HTTP/1.1\r\n\r\n"}
    for said, text in texts.items():
        with relay.open() as s:
            s.sendall(text)
            if not is_closed(s):
                return f"{said} did not close its connection"
    return None


def responses_that_nobody_asked_for(relay):
    """They are dropped, whoever they are for, and whatever they say."""
    with relay.claimed(own(0)) as s:
        lies = b"".join(frame(own(0), PANEL, relay.number + k % 4, b"lie", flags=5) for k in range(TIMES[0]))
        s.sendall(lies)
        asked = frame(own(0), RIG, 3)
        s.sendall(asked)
        got = next_frame(s)
        return None if got == answer(asked) and is_quiet(
            relay.panel) else "the panel was told a response that it did not ask for"


def frames_to_nobody(relay):
    """Notifications to a NetId that nobody owns are dropped, requests are answered with the error 7, each."""
    with relay.claimed(own(0)) as s:
        ended = threading.Event()

        def send():
            with contextlib.suppress(OSError):
                for k in range(TIMES[0]):
                    s.sendall(frame(own(0), GONE, k, b"note", command=8) + frame(own(0), GONE, k, b"ask"))
            ended.set()

        threading.Thread(target=send, daemon=True).start()
        for k in range(TIMES[0]):
            got = next_frame(s)
            if got != frame(GONE, own(0), k, flags=5, error=7):
                return f"request {k} to nobody was answered by {got.hex()}"
        return None if ended.wait(10) else "not all was taken"


def requests_without_an_answer(relay):
    """A target that takes all and answers nothing: its asker may ask without end, and the last 4,096 can still be
    answered."""
    with relay.claimed(SILENT) as target, relay.claimed(own(0)) as s:
        for k in range(TIMES[0]):
            s.sendall(frame(own(0), SILENT, k))
            if next_frame(target) != frame(own(0), SILENT, k):
                return f"request {k} was not passed on"
        first = max(0, TIMES[0] - 4096)
        late = [k for k in (first - 1, first, TIMES[0] - 1) if k >= 0]
        target.sendall(b"".join(frame(SILENT, own(0), k, flags=5) for k in late))
        got = [next_frame(s) for k in late if k >= first]
        wanted = [frame(SILENT, own(0), k, flags=5) for k in late if k >= first]
        return None if got == wanted and is_quiet(s) else f"of answers to {late} came {[it.hex() for it in got]}"


def a_target_that_never_reads(relay):
    """More than is queued for it is sent to a target that reads nothing: it is closed, its asker is told so, and the
    others go on."""
    with relay.claimed(SILENT) as target, relay.claimed(own(0)) as s:
        target.setsockopt(socket.SOL_SOCKET, socket.SO_RCVBUF, 4096)
        s.settimeout(20)
        for k in range(20):
            s.sendall(frame(own(0), SILENT, k, bytes(1000000)))
            wrong = relay.good()
            if wrong:
                return wrong
        got = next_frame(s)
        return None if got[:38] and got[22:24] == b"\2\0" and got[
            30:34] == b"\7\0\0\0" else f"the asker was told {got[:60].hex()}"


def an_asker_that_never_reads(relay):
    """The same of an asker that does not read its answers, of a rig of its own."""
    with relay.claimed(SILENT) as target, relay.claimed(own(0)) as s:
        s.setsockopt(socket.SOL_SOCKET, socket.SO_RCVBUF, 4096)
        s.sendall(b"".join(frame(own(0), SILENT, k) for k in range(20)))
        for k in range(20):
            next_frame(target)
            target.sendall(frame(SILENT, own(0), k, bytes(1000000), flags=5))
            wrong = relay.good()
            if wrong:
                return wrong
        asked = frame(SILENT, own(0), 99)
        target.sendall(asked)
        got = next_frame(target)
        return None if got == frame(own(0), SILENT, 99, flags=5, error=7) else f"the target was told {got[:60].hex()}"


def reset_in_mid_frame(relay):
    for k in range(200):
        s = relay.open()
        asked = frame(own(k % 32), RIG, k)
        s.sendall(asked * 2 + asked[:20])
        reset(s)
    return None


def an_owner_that_goes(relay):
    """An answer to one that is gone reaches nobody, also where its NetId has a new owner."""
    with relay.claimed(SILENT) as target:
        with relay.claimed(own(0)) as s:
            s.sendall(frame(own(0), SILENT, 5))
            next_frame(target)
        time.sleep(0.2)
        with relay.claimed(own(0)) as s:
            target.sendall(frame(SILENT, own(0), 5, b"late", flags=5))
            return None if is_quiet(s) else "a new owner was told what the one before had asked for"


def half_closed(relay):
    """A stream that ends behind its requests gets what is told at once, and its place is free again."""
    with relay.open() as s:
        s.sendall(frame(own(0), GONE, 1) * 50)
        s.shutdown(socket.SHUT_WR)
        got = until_end(s)
        return None if got == frame(GONE, own(0), 1, flags=5, error=7) * 50 else f"{len(got)} bytes"


def sixty_five(relay):
    """All places are taken: the next one is served once another is gone."""
    some = [relay.claimed(own(k)) for k in range(MOST - 2)]
    late = relay.open()
    late.sendall(frame(own(MOST), RIG, 1))
    if not is_quiet(late):
        return f"one more than {MOST} was served"
    some.pop().close()
    got = next_frame(late)
    for s in [*some, late]:
        s.close()
    return None if got == answer(frame(own(MOST), RIG, 1)) else got.hex()


SCENES = [byte_by_byte, claims_of_others, broken_frames, responses_that_nobody_asked_for, frames_to_nobody,
          requests_without_an_answer,
          a_target_that_never_reads, an_asker_that_never_reads, reset_in_mid_frame, an_owner_that_goes, half_closed,
          sixty_five]


def main():
    it = argparse.ArgumentParser(description=__doc__, formatter_class=argparse.RawDescriptionHelpFormatter)
    it.add_argument("program", nargs="?", default=ADS)
    it.add_argument("--short", action="store_true")
    given = it.parse_args()
    TIMES[0] = 1000 if given.short else 10000
    with tempfile.TemporaryDirectory() as folder, Relay(os.path.abspath(given.program), folder) as relay:
        first = relay.good()
        return 1 if play(SCENES, lambda scene: first or scene(relay) or relay.good(), relay.process) else 0


if __name__ == "__main__":
    sys.exit(main())
