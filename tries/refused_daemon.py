"""Refused memory of the daemon, for `python3 tries/refused_memory.py --adsd PROGRAM`: a run is a start of `adsd`, what
clients ask, a save or a new description, and a stop. Each call for memory behind a step of it fails in turn, alone and
with all behind it. The daemon must end with 10, or with 14 where a save was due, or go on and serve right. What it
sends is what the model of the protocol says (model/protocol.py), or a beginning of it where it ends; its store stands
for what stood or for what was written, and a value that fits no symbol any more stands in the store or in its copy, or
the log says that there is none. Some runs are tried at once, since most of a run is waiting.
"""
import collections
import concurrent.futures
import contextlib
import os
import pathlib
import re
import select
import signal
import struct
import subprocess
import sys
import tempfile
import time

import adsd
import hostile
import protocol
import store
from hostile import add, ask, frame, head, read, state, sum_of, write
from random_runs import toml_of
from under_test import connected, free_port

# What may be printed where memory ran out: the first lines, and the first letters of the last one.
PRINTED = re.compile(r"(listening\n)?(connections [a-z0-9 ]+\n(saved \d+\n)?)?("
                     + "".join(f"({letter}" for letter in "ads: memory\n") + ")?" * 12 + ")?")
NAME, TITLE, PLACE = b"Main.count", b"Main.title", 72
OLD, NEW = b"Old\0\0\0\0\0", b"New\0\0\0\0\0"
MOMENT = slice(46, 54)
ASKED = [
    state(1), frame(1, 2, b""), read(3, 0x4040, 0, 4), write(4, 0x4040, 0, b"\5\0\0\0"), read(5, 0x4040, 0, 8),
    ask(6, 0xF003, 0, 4, NAME),
    read(7, 0xF005, 1, 4), ask(8, 0xF004, 0, 8, TITLE), ask(9, 0xF009, 0, 500, b"Main.axis"),
    ask(10, 0xF003, 0, 4, b"Main.nope"), read(11, 0xF00F, 0, 24),
    read(12, 0xF00C, 0, 8), read(13, 0xF00B, 0, 300), read(14, 0xF00E, 0, 1000), frame(99, 15, b""),
    sum_of(16, 0xF080, 3, 26, head(0x4040, 0, 4) + head(0x4040, 200, 2) + head(0x4025, 0, 8)),
    sum_of(17, 0xF081, 2, 8, head(0x4040, 0, 1) + head(0x4040, 60, 1), b"\1\2"),
    sum_of(18, 0xF082, 2, 24, head(0xF003, 0, 4, 10) * 2, NAME * 2),
    write(19, 0xF006, 0, struct.pack("<I", 1))]
WIDE = [
    protocol.ASKS_PORT + b"\0\0" + protocol.ASKS_NET, *ASKED, ask(30, 0xF003, 0, 4, b".Main.title\0"),
    read(31, 0xF005, 4, 1024),
    sum_of(32, 0xF083, 2, 44, head(0xF005, 4, 16) + head(0x4040, 0, 4)),
    sum_of(33, 0xF084, 2, 44, head(0xF005, 4, 16) + head(0x9999, 0, 4)),
    ask(34, 0xF011, 0, 500, b"Axis"), ask(35, 0xF011, 0, 500, b"ARRAY [1..3] OF Axis"), read(36, 0xF100, 0, 4)]


class Run:
    """Words behind the description; steps, which are bytes of a client, ("note", an addition), ("save",), ("reload", a
    description) or ("another",), a second client; the step behind which calls for memory fail; and the file that stands
    in the store."""

    def __init__(self, words, steps, first=0, stands=b""):
        self.words, self.steps, self.first, self.stands, self.is_wide = words, steps, first, stands, "wide" in words


def file_of(given):
    """A store's file in which the persistent symbol has these bytes."""
    disk = store.Disk()
    store.kept(hostile.PLANT, hostile.SIGNALS, [("open", 1), ("bytes", 1, write(1, 0x4040, PLACE, given)), ("tick", 1)],
               disk)
    return bytes(disk.file)


STRICT, KEEPS = ["--profile", "strict"], ["--store", "kept", "--save-each", "1", "--profile", "wide"]
RUNS = {"adsd: a start, a client's requests and a stop": Run(STRICT, ASKED),
        "adsd: wide, a router, greater buffers, sums that tell "
        "lengths": Run(["--profile", "wide", "--other-routes", "read", "--status", "status.prom"], WIDE),
        "adsd: notifications and a second client": Run(STRICT,
                                                       [("note", add(50, 0x4040, 0, 4)),
                                                        ("note", add(51, 0x4040, PLACE, 8)), ("another",), state(60)]),
        "adsd: a store, a start over its values, a write and a "
        "stop": Run(KEEPS, [ask(1, 0xF004, 0, 8, TITLE), write(2, 0x4040, PLACE, NEW)], 0, file_of(OLD)),
        "adsd: a store and a save": Run(KEEPS, [write(1, 0x4040, PLACE, NEW), ("save",), state(2)], 1, file_of(OLD)),
        "adsd: a new description under a handle and a notification": Run(STRICT, [ask(1, 0xF003, 0, 4, NAME), (
    "note", add(2, 0x4040, PLACE, 8)), ("reload", hostile.PLANT2), read(3, 0xF005, 1, 4), read(4, 0xF008, 0, 1)], 2),
        "adsd: a store and a new description": Run(KEEPS, [write(1, 0x4040, PLACE, NEW), ("reload", hostile.PLANT2),
                                                           state(2)], 1, file_of(OLD)),}


class Over(Exception):
    """The daemon is gone, or has closed a connection."""


class Wrong(Exception):
    """It did what it may not do."""


class Try:
    """A start of the daemon, in a folder of its own, of whose calls for memory the nth fails, or each from it on.
    `calls` has their number behind each step."""

    def __init__(self, program, run, shims, nth=0, on=False):
        self.program, self.run, self.shims, self.nth, self.on, self.calls, self.clock, self.number = (
            program, run, shims, nth, on, [], 0, 0)

    def tried(self):
        """How it ended; a Wrong where it ended or said otherwise than it may."""
        with tempfile.TemporaryDirectory(prefix="refused-") as folder, contextlib.ExitStack() as stack:
            self.folder, self.stack = pathlib.Path(folder), stack
            (self.folder / "it.toml").write_text(toml_of(hostile.PLANT))
            (self.folder / "calls").write_bytes(bytes(8))
            (self.folder / "clock").write_bytes(bytes(16))
            if self.run.stands:
                (self.folder / "kept").write_bytes(self.run.stands)
            self.port, log = free_port(), stack.enter_context(open(self.folder / "log", "wb"))
            words = ["it.toml", "--listen", f"127.0.0.1:{self.port}", *self.run.words]
            self.it = adsd.Daemon(stack, self.program, words, bare=True, listens=False, folder=folder, port=self.port,
                                  stderr=log, env=self.env())
            first, is_over = self.it.process.stdout.readline(), False
            if first == b"listening\n":
                try:
                    self.play()
                except Over:
                    is_over = True
            return self.judged(first, is_over)

    def env(self):
        given = {"LD_PRELOAD": ":".join(self.shims), "FAIL_NTH": str(self.nth), "FAIL_TELL": str(self.folder / "calls"),
                 "SET_CLOCKS": str(self.folder / "clock")}
        return {**given, **({"FAIL_ON": "1"} if self.on else {})}

    def count(self):
        return int.from_bytes((self.folder / "calls").read_bytes(), "little")

    def log(self):
        return (self.folder / "log").read_text(errors="replace")

    # What clients do.

    def play(self):
        stands = store.standing_of(self.run.stands)
        d = store.with_stored(hostile.PLANT, stands[2]) if stands else hostile.PLANT
        self.machine = protocol.Routed(d, hostile.SIGNALS, True) if self.run.is_wide else protocol.Server(
            d, hostile.SIGNALS)
        self.another()
        for step in self.run.steps:
            self.calls.append(self.count())
            if isinstance(step, bytes):
                self.asks(step)
            else:
                getattr(self, step[0])(*step[1:])

    def another(self):
        self.number += 1
        protocol.turn(self.machine, ("open", self.number), [])
        try:
            self.link = self.stack.enter_context(connected(self.port, 20))
        except OSError:
            raise Over from None

    def told(self, event):
        """What the model says to the client behind an event."""
        lines = []
        protocol.turn(self.machine, event, lines)
        return b"".join(bytes.fromhex(line.split()[2]) for line in lines if line.startswith(f"out {self.number} "))

    def asks(self, given):
        self.hears(given, self.told(("bytes", self.number, given)))

    def note(self, given):
        """An addition and its first sample, whose moment is the daemon's."""
        self.asks(given)
        self.hears(b"", self.told(("tick", self.machine.moment + 100000)), MOMENT)

    def hears(self, given, wanted, free=slice(0, 0)):
        """Sends bytes, and hears each byte that is wanted; those of `free` may be any."""
        got = b""
        try:
            self.link.sendall(given)
            while len(got) < len(wanted):
                piece = self.link.recv(len(wanted) - len(got))
                if not piece:
                    break
                got += piece
        except TimeoutError:
            raise Wrong(f"{given.hex()} was not answered in 20 seconds") from None
        except OSError:
            pass
        masked = wanted[:free.start] + got[free] + wanted[free.stop:] if len(got) >= free.stop else wanted
        if masked[:len(got)] != got:
            raise Wrong(f"{given.hex()} was answered by {got.hex()}, and not by {wanted.hex()}")
        if len(got) < len(wanted):
            raise Over

    def waits(self, what, seconds):
        """Whether the log comes to have these words, or to tell that lines of it are lost."""
        until = time.monotonic() + seconds
        while time.monotonic() < until:
            if what in self.log() or " lines lost" in self.log():
                return True
            if self.it.process.poll() is not None:
                raise Over
            time.sleep(0.01)
        return False

    def save(self):
        self.waits("saved ", 3)

    def reload(self, d):
        """Another description takes the place of the first, and seconds pass for the daemon until it is taken. Where no
        call for memory succeeds any more, the first may be served on."""
        (self.folder / "new").write_text(toml_of(d))
        os.replace(self.folder / "new", self.folder / "it.toml")
        for _ in range(2 if self.on else 5):
            self.clock += 2
            with open(self.folder / "clock", "r+b") as it:    # (in place: the daemon has it mapped)
                it.write(struct.pack("<qq", 0, self.clock))
            if self.waits("reload accepted", 2) or select.select([self.link], [], [], 0)[0]:
                self.hears(b"", self.told(("reload", d)), MOMENT)
                return
        if not self.on:
            raise Wrong("the new description was not taken in five looks")

    # How it ended.

    def judged(self, first, is_over):
        try:
            out = first.decode() + self.it.stopped(*([signal.SIGTERM] if self.it.process.poll() is None else []),
                                                   seconds=30)[0]
        except subprocess.TimeoutExpired:
            raise Wrong("it does not end in 30 seconds") from None
        status = self.it.process.returncode
        if status not in ((0, 10, 14) if self.run.stands else (0, 10)):
            raise Wrong(f"it ended with {status}")
        if status == 0 and (is_over or not adsd.SUMMARY.match(out[len("listening\n"):])):
            raise Wrong(f"it ended with 0, printed {out!r} and {'closed a connection' if is_over else 'served all'}")
        if status == 10 and not PRINTED.fullmatch(out):
            raise Wrong(f"it ended with 10 and printed {out!r}")
        if self.run.stands:
            self.store_is_right(status)
        self.calls.append(self.count())
        return status

    def store_is_right(self, status):
        standing = store.standing_of((self.folder / "kept").read_bytes())
        entries = {(name, form): held for _, name, form, held in store.entries_of(standing[2])} if standing else {}
        old = entries.get((TITLE, b"string(7)"))
        if old is not None and (len(entries) != 1 or old not in ((NEW,) if status == 0 else (OLD, NEW))):
            raise Wrong(f"status {status}, and the store has {entries}")
        copies = list(self.folder.glob("kept.before-*"))
        if any(store.standing_of(copy.read_bytes()) is None for copy in copies):
            raise Wrong("a part of a copy stands with .before- behind the store's name")
        if old is None and not copies:
            raise Wrong(f"the value that fits no symbol any more is gone, there is no copy, and the log says "
                        f"{self.log()[-300:]!r}")


def chosen(first, last, most):
    """The numbers of calls that fail, every k-th of them."""
    return range(first + 1, last + 1, -(-(last - first) // most) or 1)


def one(program, run, shims, nth, on):
    try:
        return Try(program, run, shims, nth, on).tried()
    except (Wrong, OSError, ValueError) as why:
        return f"call {nth}{' and all behind it' if on else ''}: {why}"


def main(program, shims, most, only, jobs=4):
    """The rows of the table; how many tries were wrong."""
    wrong = 0
    for said, run in RUNS.items():
        if only not in said:
            continue
        usual = Try(program, run, shims)
        try:
            status = usual.tried()
        except (Wrong, OSError) as why:
            status = why
        if status != 0:
            print(f"  {said}, with memory: {status}", file=sys.stderr, flush=True)
            wrong += 1
            continue
        tries = [(nth, on) for nth in chosen(usual.calls[run.first] if run.first else 0, usual.calls[-1], most)
                 for on in (False, True)]
        with concurrent.futures.ThreadPoolExecutor(jobs) as pool:
            ends = list(pool.map(lambda it: one(program, run, shims, *it), tries))
        bad = [it for it in ends if isinstance(it, str)]
        for why in bad:
            print(f"  {said}, {why}", file=sys.stderr, flush=True)
        counts = collections.Counter(it for it in ends if not isinstance(it, str))
        wrong += len(bad)
        other = f" (and {counts[14]} with 14)" if counts[14] else ""
        print(f"| {said} | {usual.calls[-1]} | {len(tries)} | {counts[0]} | {counts[10]}{other} | {len(bad)} |",
              flush=True)
    return wrong
