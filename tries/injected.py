#!/usr/bin/env python3
"""Faults of single calls of the system, put in by strace: each call that touches the store of `ads keep` or `adsd`, the
file of `ads record` or the history of tools/history.py fails in turn, or is the one at which the program is killed;
then the program is started again over what is left.

    python3 tries/injected.py ADS ADSD [--runs N] [--short] [--only SCENE] [--call NAME] [--fault WORD] [--at K]
                              [--jobs N]

ADS and ADSD are the built programs; it needs Debian's strace. A first run of each scene counts its calls (openat, write
and pwrite64, fsync and fdatasync, link, rename, ftruncate, unlink) on the file, on what stands beside it and on its
folder. Then the K-th call of a name fails with EIO, with ENOSPC, with EIO together with all behind it, or is not made
because the program is killed at it. `--runs N` tries at most N calls of each name and fault (else all), `--short` one,
of EIO and of the kill, in less than a minute. It prints a table of what was seen, and how often. Each run that differed
is told on standard error with the words that repeat it; then the status is 1.

What must hold, of each scene:

- keep, keep on top: status 14 and its line; the file stands for what the model of the store says (model/store.py); so
  does that of the next run.
- adsd: the file stands for one save, its values are of one moment, none older than the last save that the log told. The
  daemon tells `store fault`, counts it, serves on and saves later, or it ends with 14. The next start serves what
  stands there.
- adsd, a name is gone: the old value stands in the store, or in a copy with .before-, which is never a part.
- adsd, its status file: it serves on and ends with 0; the file is whole where it is there.
- record, record on top: the rows that stood and a first part of the others, each once, with their totals; status 16, or
  0 and all rows. The next run goes on behind them.
- history: each sample once, and a gap where one is lost; status 0, or 16 and a sentence. The next run goes on behind
  them.

Not tried: a write that writes less than it is told to. strace can make a call return less, but not write less, so the
program would be told a lie; what a cut write leaves is tried by kills at any moment (tries/killed.py, tries/daemon.py).
And a loss of power: what was written stays in the system here.
"""
import argparse
import collections
import concurrent.futures
import contextlib
import os
import pathlib
import random
import re
import shutil
import signal
import sqlite3
import struct
import subprocess
import sys
import tempfile
import time

HERE = os.path.dirname(os.path.abspath(__file__))
sys.dont_write_bytecode = True
sys.path[1:1] = [f"{sys.path[0]}/../{room}" for room in ("model", "tools")]
import adsd  # noqa: E402
from ams import request  # noqa: E402
import hostile  # noqa: E402
import killed  # noqa: E402
import recorded  # noqa: E402
import store  # noqa: E402
from tries.fake_plant import FakePlant  # noqa: E402
from tries.history_checks import of_sqlite, sound  # noqa: E402
from tries.running import ME, NET, Wrong  # noqa: E402
from under_test import Differs, expect, free_port  # noqa: E402

CALLS = ("openat", "write", "pwrite64", "fsync", "fdatasync", "link", "linkat", "rename", "renameat", "renameat2",
         "ftruncate", "truncate", "unlink", "unlinkat")
FAULTS = {"EIO": "error=EIO:when={}", "KILL": "signal=KILL:when={}", "ENOSPC": "error=ENOSPC:when={}",
          "EIO from there on": "error=EIO:when={}+"}
SHORT = ("EIO", "KILL")
HISTORY = os.path.join(HERE, "..", "tools", "history.py")


class Spot:
    """A run's folder, and the call that has its fault; where no call is said, the run's calls are looked at alone."""

    def __init__(self, folder, call=None, fault=None, at=0):
        self.folder, self.call, self.fault, self.at = pathlib.Path(folder), call, fault, at
        self.trace, self.is_kill, self.goes_on, self.missed = (self.folder / "trace", fault == "KILL",
                                                               fault == "EIO from there on", False)

    def words(self, *names):
        """The words before a program's: strace looks at its calls on these files of the folder."""
        paths = [word for name in names for word in ("-P", os.path.normpath(self.folder / name))]
        inject = ["-e", f"inject={self.call}:{FAULTS[self.fault].format(self.at)}"] if self.call else []
        faster = [] if self.is_kill else ["--seccomp-bpf"]    # (with it, strace does not send the signal)
        return ["strace", "-D", "-f", *faster, "-q", "-e", "signal=KILL", "-e", f"trace={','.join(CALLS)}", *inject,
                *paths, "-o", str(self.trace), "--"]

    def said(self, process):
        """What strace said of a process that has ended."""
        until = time.monotonic() + 60
        while time.monotonic() < until:
            text = self.trace.read_text(errors="replace") if self.trace.exists() else ""
            if re.search(rf"^{process.pid} +\+\+\+ ", text, re.M):
                return text
            time.sleep(0.005)
        raise Differs("strace did not tell the end of its process")

    def calls(self, process):
        """The thread and the name of each call, in their order."""
        return re.findall(r"^(\d+) +(\w+)\(", self.said(process), re.M)

    def is_hit(self, process):
        """Whether the run came to the call; a run has not always as many as the first."""
        is_hit = self.call and ("(INJECTED)" in self.said(process) or self.is_kill
                                and "+++ killed by SIGKILL" in self.said(process))
        self.missed = self.call and not is_hit
        return is_hit


# The store of `keep`.


class Kinds(store.Disk):
    """A disk that notes what its calls are to the system: of an opening those on the file and its folder, of all others
    one or none."""

    def __init__(self, file):
        super().__init__(file)
        self.kinds = []

    def call(self, write=None):
        super().call(write)
        before = self.kinds[-1][0] if self.kinds else ""
        opening = {1: ["openat", "openat", "fsync"], 2: ["fsync"]}
        self.kinds.append(("write", ["write"]) if write else ("", opening.get(self.calls, [
            "fsync"] if before == "write" else [])))

    def system(self):
        """The calls of the system, each with the number of the disk's call that makes it."""
        return [(name, number) for number, (_, names) in enumerate(self.kinds, 1) for name in names]


class Keep:
    """`ads keep` over a script that saves behind each of some ticks."""
    TICKS = 6

    def __init__(self, ads, is_on_top):
        self.ads, self.name = ads, "keep on top" if is_on_top else "keep"
        self.events, disk = killed.script_of(random.Random(1), self.TICKS), store.Disk()
        store.kept(hostile.PLANT, hostile.SIGNALS, killed.script_of(random.Random(2), 3), disk)
        self.before = bytes(disk.file) if is_on_top else b""

    def ran(self, folder, words=()):
        given = [*words, self.ads, "keep", "plant.toml", "it.script", str(folder / "store")]
        it = subprocess.Popen(given, cwd=folder, stdout=subprocess.PIPE, stderr=subprocess.DEVNULL)
        return it, it.communicate(timeout=60)[0].decode()

    def go(self, spot):
        shutil.copy(killed.PLANT, spot.folder / "plant.toml")
        (spot.folder / "it.script").write_text("".join(line[2:] + "\n" for event in self.events
                                                       for line in hostile.lines_of(event, "")))
        if self.before:
            (spot.folder / "store").write_bytes(self.before)
        it, out = self.ran(spot.folder, spot.words("store", "."))
        kinds = Kinds(self.before)
        store.kept(hostile.PLANT, hostile.SIGNALS, self.events, kinds)
        if not spot.call:
            expect([call for _, call in spot.calls(it)] == [call for call, _ in kinds.system()],
                f"its calls are {spot.calls(it)}, and not those of the model")
        at = [number for call, number in kinds.system() if call == spot.call][spot.at - 1] if spot.call else 0
        disk = store.Disk(self.before, () if spot.is_kill or not spot.call else (at,),
                          (at, b"") if spot.is_kill else None)
        status, text, _ = store.kept(hostile.PLANT, hostile.SIGNALS, self.events, disk)
        status, text = (-signal.SIGKILL, "") if spot.is_kill else (status, text)
        expect((it.returncode, out) == (status, text), f"status {it.returncode} and {out[-100:]!r}, and not {status} "
               f"and "
            f"{text[-100:]!r}")
        left = killed.read(spot.folder / "store")
        stands, wanted = store.standing_of(left), store.standing_of(disk.file)
        expect(stands == wanted, f"the file stands for {stands}, and not for {wanted}")
        self.again(spot, left)
        return f"status {status}"

    def again(self, spot, left):
        disk = store.Disk(left)
        status, text, bodies = store.kept(hostile.PLANT, hostile.SIGNALS, self.events, disk)
        it, out = self.ran(spot.folder)
        expect((it.returncode, out) == (status, text), f"the next run ends with {it.returncode} and {out[-100:]!r}, "
               f"and "
            f"not with {status} and {text[-100:]!r}")
        expect(store.standing_of(killed.read(spot.folder / "store"))[2] == bodies[-1],
            "the file of the next run stands for another body than its last")


# The daemon.

PARTS = 8
PLANT = """schema = 1
net = "5.1.2.3.1.1"
[[route]]
net = "192.168.0.9.1.1"
rights = "control"
[[port]]
port = 851
name = "Injected"
major = 1
minor = 0
build = 0
data = 64
""" + "".join(f'[[port.symbol]]\nname = "Kept.a{k}"\ntype = "UDINT"\narea = "data"\noffset = {4 * k}\n'
              "persistent = true\n" for k in range(PARTS))
ANOTHER = PLANT.replace("Kept.a0", "Kept.b0")
STORE = ("kept", "kept.part-1", ".")
KEEPS = ("--store", "kept", "--save-each", "1")


class Run:
    """A run of the daemon under strace, or without it."""

    def __init__(self, stack, program, folder, words=(), plant=PLANT, more=KEEPS):
        self.folder, self.log = folder, folder / "log"
        self.log.unlink(missing_ok=True)
        (folder / "it.toml").write_text(plant)
        port, stderr = free_port(), stack.enter_context(open(self.log, "wb"))
        more = [str(folder / word) if word == "kept" else word for word in more]
        given = [*words, program, "it.toml", "--listen", f"127.0.0.1:{port}", "--status", str(folder / "status.prom"),
                 *more]
        self.it = adsd.Daemon(stack, given[0], given[1:], bare=True, listens=False, folder=str(folder), port=port,
                              stderr=stderr)
        self.listens, self.link = self.it.process.stdout.readline() == b"listening\n", None
        if self.listens:
            with contextlib.suppress(ConnectionError):
                self.link = stack.enter_context(self.it.link())

    def lines(self, part):
        return [line for line in self.log.read_text(errors="replace").splitlines() if part in line]

    def ask(self, number, command, payload):
        """The answer's payload behind its result; None where the daemon is gone."""
        got = None
        with contextlib.suppress(OSError):
            if self.link:
                self.link.sendall(request(command, number, payload))
                got = adsd.reply(self.link)
        expect(got is None or got[0] == number and got[1][:4] == bytes(4), f"a request was answered by {got!r}")
        return got and got[1][4:]

    def write(self, number):
        """One request gives all symbols this number."""
        return self.ask(number, 3, struct.pack("<III", 0x4040, 0,
                                               4 * PARTS) + struct.pack("<I", number) * PARTS) is not None

    def read(self):
        got = self.ask(1, 2, struct.pack("<III", 0x4040, 0, 4 * PARTS))
        return got and list(struct.unpack(f"<{PARTS}I", got[4:]))

    def waits(self, holds, seconds=30):
        """Whether something came to hold, while the daemon ran."""
        until = time.monotonic() + seconds
        while not holds() and self.it.process.poll() is None and time.monotonic() < until:
            time.sleep(0.01)
        return holds()

    def stopped(self):
        """Its status, and what it printed last."""
        out = self.it.stopped(*([signal.SIGTERM] if self.it.process.poll() is None else []))
        return out[2], out[0]


def values_in(folder):
    """The numbers that the store stands for, by name; none where nothing stands."""
    standing = store.standing_of(killed.read(folder / "kept"))
    return {name.decode(): struct.unpack("<I", held)[0] for _, name, _,
            held in store.entries_of(standing[2])} if standing else {}


def one_moment(values):
    """The number that all values have; 0 where nothing stands."""
    expect(len(set(values.values())) <= 1 and len(values) in (0, PARTS),
        f"the store has values of more than one moment: {values}")
    return next(iter(values.values()), 0)


class Adsd:
    """The daemon with a store: some numbers are written, each behind a save of the last."""
    name, SAVES = "adsd", 3

    def __init__(self, program):
        self.program = program

    def go(self, spot):
        with contextlib.ExitStack() as stack:
            run = Run(stack, self.program, spot.folder, spot.words(*STORE))
            number, saved = self.written(run, spot) if run.listens else (0, 0)
            status, _ = run.stopped()
            seen = self.judged(run, spot, status, number, saved)
        self.again(spot, number)
        return seen

    def written(self, run, spot):
        """The number that was written last, and the one that was saved for sure."""
        number, saved = 0, 0
        for number in range(1, self.SAVES + 1):
            before = len(run.lines("saved "))
            if not run.write(number):
                return number, saved
            run.waits(lambda: len(run.lines("saved ")) > before or self.stands_anyway(run, spot, number),
                      2.5 if spot.goes_on else 30)
            if len(run.lines("saved ")) > before:
                saved = number
            elif not self.stands_anyway(run, spot, number):
                expect(run.it.process.poll() is not None or spot.goes_on,
                    f"{number} was written, and not saved in 30 seconds: {run.lines('')[-3:]}")
        return number, saved

    @staticmethod
    def stands_anyway(run, spot, number):
        """Whether a save that failed stands in the file: where its last sync failed, the next look finds nothing to
        save."""
        return run.lines("store fault") and set(values_in(spot.folder).values()) == {number}

    def judged(self, run, spot, status, number, saved):
        stands, was_hit = one_moment(values_in(spot.folder)), spot.is_hit(run.it.process)
        expect(saved <= stands <= number, f"the store has {stands}, where {saved} was saved and {number} was written "
               f"last")
        if not was_hit or spot.is_kill:
            is_right = status == (-signal.SIGKILL if was_hit else 0) and (was_hit or stands == number)
            expect(is_right, f"status {status}, and {stands} stands, where {number} was written")
            return "killed" if was_hit else "as usual"
        expect(status in (0, 14), f"status {status}: {run.lines('')[-3:]}")
        if not run.listens:
            expect(status == 14 and run.lines(""), f"it ends before it listens, with {status} and {run.lines('')}")
            return "status 14 at the start"
        faults = re.search(r"^adsd_store_faults_total (\d+)$", (spot.folder / "status.prom").read_text(), re.M)
        if status == 14:
            expect(run.lines("store fault"), f"status 14, and the log says {run.lines('')}")
            return "store fault, status 14"
        expect(stands == number, f"status 0, and {stands} stands, where {number} was written")
        if not run.lines("store fault"):
            return "saved as usual"
        expect(faults and int(faults[1]) > 0, f"{faults and faults[0]}, and the log says {run.lines('store')}")
        if saved < number and not run.lines("the store takes saves"):
            return "store fault, counted, and the failed save stands"
        expect(run.lines("the store takes saves"), f"the log says {run.lines('store')}")
        return "store fault, counted, saved later"

    def again(self, spot, number):
        """The next start serves what stands, and saves what is written."""
        stands = one_moment(values_in(spot.folder))
        with contextlib.ExitStack() as stack:
            run = Run(stack, self.program, spot.folder)
            expect(run.listens and run.read() == [stands] * PARTS,
                f"the next start does not serve what stands, {stands}: {run.lines('')}")
            run.write(number + 1)
            status, _ = run.stopped()
        expect(status == 0 and one_moment(values_in(spot.folder)) == number + 1,
            f"the next run ends with {status} and leaves {values_in(spot.folder)}")


class Gone(Adsd):
    """The daemon over a store one of whose values fits no symbol of the description any more."""
    name, OLD = "adsd, a name is gone", 7

    def __init__(self, program):
        super().__init__(program)
        with tempfile.TemporaryDirectory() as folder, contextlib.ExitStack() as stack:
            run = Run(stack, program, pathlib.Path(folder))
            run.write(self.OLD)
            expect(run.stopped()[0] == 0, "the run that makes the store does not end with 0")
            self.before = killed.read(pathlib.Path(folder, "kept"))

    def go(self, spot):
        (spot.folder / "kept").write_bytes(self.before)
        with contextlib.ExitStack() as stack:
            run = Run(stack, self.program, spot.folder, spot.words(*STORE), ANOTHER)
            if run.listens:
                run.waits(lambda: run.lines("saved "), 2.5 if spot.goes_on else 30)
            status, _ = run.stopped()
            was_hit = spot.is_hit(run.it.process)
            ends = (-signal.SIGKILL,) if was_hit and spot.is_kill else (0, 14) if was_hit else (0,)
            expect(status in ends, f"status {status}: {run.lines('')[-3:]}")
            return f"status {status}, {self.kept(spot, run)}"

    def kept(self, spot, run):
        """Where the old value is."""
        values, copies = values_in(spot.folder), [killed.read(path) for path in spot.folder.glob("kept.before-*")]
        stood = store.standing_of(self.before)
        expect(all(store.standing_of(copy) == stood for copy in copies),
            f"the copies, of {[len(copy) for copy in copies]} bytes, are not what stood")
        expect(len(copies) <= 1 or spot.fault, f"one change made {len(copies)} copies")
        expect(all(value == self.OLD for name, value in values.items() if name != "Kept.b0")
            and values.get("Kept.b0", 0) == 0, f"the store has {values}")
        if values.get("Kept.a0") == self.OLD:
            return "in the store"
        expect(copies, f"the old value is lost, and the log says {run.lines('')}")
        return "in the copy"


class StatusFile(Adsd):
    """The daemon's status file."""
    name = "adsd, its status file"

    def go(self, spot):
        with contextlib.ExitStack() as stack:
            run = Run(stack, self.program, spot.folder, spot.words("status.prom", "status.prom.new"), more=())
            expect(run.listens or spot.is_kill, f"it does not listen: {run.lines('')}")
            for _ in range(10):
                expect(run.read() is not None or spot.is_kill, "it does not serve")
                time.sleep(0.1)
            status, _ = run.stopped()
            was_hit, file = spot.is_hit(run.it.process), spot.folder / "status.prom"
            expect(status == (-signal.SIGKILL if was_hit and spot.is_kill else 0),
                f"status {status}: {run.lines('')[-3:]}")
            text = file.read_text() if file.exists() else None
            expect(text is None or re.search(r"^adsd_log_lines_lost_total \d+\n\Z", text, re.M),
                f"a part of the status file stands there: {text!r}")
            expect(was_hit or text is not None, "no status file was written")
        return f"status {status}, {'a whole file' if text else 'no file'}"


# Recordings.


def copied(folder, names, to):
    """A copy of a database with what stands beside it, so that a look at it changes nothing."""
    os.makedirs(to)
    for name in names:
        if (folder / name).is_file():
            shutil.copy(folder / name, to)
    return pathlib.Path(to, names[0])


class Record:
    """`ads record` over the server in the same process, whose samples are the same each time."""
    FILES = ("it.db", "it.db-wal", "it.db-shm", "it.db-journal", ".")

    def __init__(self, ads, is_on_top):
        self.ads, self.name, self.stood, self.before = ads, "record on top" if is_on_top else "record", [], None
        with tempfile.TemporaryDirectory() as folder:
            for _ in range(1 + is_on_top):
                self.stood, self.before = self.rows_in(pathlib.Path(folder)), killed.read(pathlib.Path(folder, "it.db"))
                it, self.usual = self.ran(pathlib.Path(folder))
                expect(it.returncode == 0, f"a recording ends with {it.returncode}")
            self.rows = self.rows_in(pathlib.Path(folder))

    def ran(self, folder, words=()):
        given = ["record", "Main.wave", "Main.count", "--mode", "cycle", "--cycle", "0", "--count", "12", "--store",
                 str(folder / "it.db"), *recorded.LOCAL]
        it = subprocess.Popen([*words, self.ads, *given], cwd=folder, stdout=subprocess.PIPE, stderr=subprocess.DEVNULL)
        return it, it.communicate(timeout=60)[0].decode()

    def rows_in(self, folder):
        """The rows of the file, which is whole; none where it is not there, has no table, or was not yet made: its
        first byte is written last."""
        if not (folder / "it.db").exists():
            return []
        with tempfile.TemporaryDirectory() as to:
            try:
                return recorded.whole(copied(folder, self.FILES, os.path.join(to, "copy")))
            except sqlite3.DatabaseError as fault:
                is_begun = not self.stood and killed.read(folder / "it.db")[:15] == b"\0QLite format 3"
                expect("no such table" in str(fault) or is_begun, f"the file is not whole: {fault}")
                return []

    def go(self, spot):
        if self.before:
            (spot.folder / "it.db").write_bytes(self.before)
        it, out = self.ran(spot.folder, spot.words(*self.FILES))
        was_hit, rows = spot.is_hit(it), self.rows_in(spot.folder)
        # One that is killed has printed nothing, or all where it was killed at its last calls, and then all rows stand.
        ends = {(0, self.usual)} | ({(-signal.SIGKILL, ""), (-signal.SIGKILL, self.usual)} if spot.is_kill
                                    else {(16, "ads: keeper fault\n")} if was_hit else set())
        expect((it.returncode, out) in ends, f"status {it.returncode} and {out[-100:]!r}")
        expect(out != self.usual or rows == self.rows, f"all was printed of {len(rows)} rows of {len(self.rows)}")
        expect(len(self.stood) <= len(rows) and rows == self.rows[:len(rows)],
            f"{len(rows)} rows, where {len(self.stood)} stood: {rows[-2:]}")
        expect(it.returncode or rows == self.rows, f"status 0 and {len(rows)} rows of {len(self.rows)}")
        again, out = self.ran(spot.folder)
        expect(again.returncode == 0, f"the next run ends with {again.returncode} and {out[-100:]!r}")
        fresh = [(len(rows) + k, *row[1:]) for k, row in enumerate(self.rows[len(self.stood):], 1)]
        expect(self.rows_in(spot.folder) == rows + fresh, "the rows of the next run do not stand behind those that "
               "stood")
        return f"status {it.returncode}, {'all' if rows == self.rows else 'no' if rows == self.stood else 'some'} rows"


class History:
    """tools/history.py into an SQLite file, of a server that counts its ticks."""
    name, FILES, SECONDS = "history", Record.FILES, 2

    def ran(self, spot, plant, words=()):
        given = ["record", "GVL.*", "--to", plant.to, "--netid", NET, "--me", ME, "--mode", "cycle", "--cycle", "0",
                 "--sqlite", str(spot.folder / "it.db")]
        given = [*words, sys.executable, HISTORY, *given, "--seconds", str(self.SECONDS)]
        it = subprocess.Popen(given, cwd=spot.folder, stdout=subprocess.PIPE, stderr=subprocess.PIPE)
        out, err = it.communicate(timeout=120)
        expect(b"Traceback" not in err, err.decode()[-500:])
        return it, out.decode(), err.decode()

    def read(self, spot):
        """The history, which is whole and sound; an empty one where there is no table."""
        with tempfile.TemporaryDirectory() as to:
            path = copied(spot.folder, self.FILES, os.path.join(to, "copy"))
            try:
                with contextlib.closing(sqlite3.connect(path)) as base:
                    expect(base.execute("PRAGMA integrity_check").fetchone() == ("ok",), "the file is not whole")
                history = of_sqlite(path)[0]
            except sqlite3.OperationalError as fault:
                expect("no such table" in str(fault) or not path.exists(), f"the file is not whole: {fault}")
                return {}
        sound(history)
        return history

    def go(self, spot):
        with FakePlant({f"GVL.v{k}": "DINT" for k in range(4)}) as plant:
            it, out, err = self.ran(spot, plant, spot.words(*self.FILES))
            was_hit, history = spot.is_hit(it), self.read(spot)
            seen = self.judged(spot, was_hit, it.returncode, out, err, history)
            again, out, err = self.ran(spot, plant)
            expect(again.returncode == 0, f"the next run ends with {again.returncode}: {err[-300:]}")
            after = self.read(spot)
        for key, (rows, _) in history.items():
            expect(after[key][0][:len(rows)] == rows, f"{key}: rows that stood are gone")
        expect(all(rows for rows, _ in after.values()) and len(after) == 4,
            f"the next run recorded {[len(rows) for rows, _ in after.values()]}")
        return seen

    @staticmethod
    def judged(spot, was_hit, status, out, err, history):
        rows = sum(len(rows) for rows, _ in history.values())
        if was_hit and spot.is_kill:
            expect(status == -signal.SIGKILL, f"status {status}")
            return "killed"
        if status == 0:
            expect(out == f"recorded {rows} samples\n" and rows, f"it says {out!r}, and {rows} are there")
            gaps = sum(len(gaps) for _, gaps in history.values())
            expect(not gaps, f"{gaps} gaps")
            return "status 0, held and written later" if "takes samples again" in err else "status 0, all written"
        expect(was_hit and status == 16 and "it.db" in err, f"status {status}: {err[-300:]}")
        return "status 16, told"


# The runs.


def tried(scene, call, fault, at):
    """What was seen of a run; a text that begins with `WRONG` where it differs."""
    with tempfile.TemporaryDirectory(prefix="injected-") as folder:
        try:
            spot = Spot(folder, call, fault, at)
            seen = scene.go(spot)
            return "not reached" if spot.missed else seen
        except (Differs, Wrong, OSError, ValueError, sqlite3.Error,
                subprocess.SubprocessError) as why:
            return f"WRONG: {type(why).__name__}: {why}"


def counted(scene):
    """How often a thread makes each call in a run without a fault."""
    with tempfile.TemporaryDirectory(prefix="injected-") as folder:
        spot, process = Spot(folder), None
        seen = scene.go(spot)
        text = spot.trace.read_text(errors="replace")
        by_thread = collections.Counter(re.findall(r"^(\d+) +(\w+)\(", text, re.M))
    calls = {}
    for (_, call), count in by_thread.items():
        calls[call] = max(calls.get(call, 0), count)
    return seen, calls


def chosen(count, most):
    """At most so many of the calls 1 to count, the first and the last among them."""
    if not most or count <= most:
        return list(range(1, count + 1))
    return [(count + 1) // 2] if most == 1 else sorted({1 + (count - 1) * k // (most - 1) for k in range(most)})


def scenes_of(given):
    ads, adsd = os.path.abspath(given.ads), os.path.abspath(given.adsd)
    made = {"keep": lambda: Keep(ads, False), "keep on top": lambda: Keep(ads, True), "adsd": lambda: Adsd(adsd),
            "adsd, a name is gone": lambda: Gone(adsd), "adsd, its status file": lambda: StatusFile(adsd),
            "record": lambda: Record(ads, False),
            "record on top": lambda: Record(ads, True), "history": History}
    return [make() for name, make in made.items() if given.only in ("", name)]


def tasks_of(scene, given):
    """The runs of a scene: call, fault and number."""
    seen, calls = counted(scene)
    print(f"{scene.name}: {', '.join(f'{count} {call}' for call, count in calls.items())}; without a fault: {seen}",
          flush=True)
    for call, count in calls.items():
        for fault in SHORT if given.short else FAULTS:
            if given.call in ("", call) and given.fault in ("", fault):
                for at in [given.at] if given.at else chosen(count, 1 if given.short else given.runs):
                    yield scene, call, fault, at


def main():
    it = argparse.ArgumentParser(description=__doc__, formatter_class=argparse.RawDescriptionHelpFormatter)
    it.add_argument("ads")
    it.add_argument("adsd")
    for name, value in (("--runs", 0), ("--at", 0), ("--jobs", 4)):
        it.add_argument(name, type=int, default=value)
    for name in ("--only", "--call", "--fault"):
        it.add_argument(name, default="")
    it.add_argument("--short", action="store_true")
    given, wrong, table = it.parse_args(), 0, collections.defaultdict(collections.Counter)
    tasks = [task for scene in scenes_of(given) for task in tasks_of(scene, given)]
    with concurrent.futures.ThreadPoolExecutor(given.jobs) as pool:
        for (scene, call, fault, at), seen in zip(tasks, pool.map(lambda task: tried(*task), tasks)):
            table[scene.name, call, fault][seen.split(":")[0]] += 1
            if seen.startswith("WRONG"):
                wrong += 1
                print(f"--only '{scene.name}' --call {call} --fault '{fault}' --at {at}: {seen}", file=sys.stderr,
                      flush=True)
    print("\n| scene | call | fault | runs | seen |\n|---|---|---|---|---|")
    for key, seen in table.items():
        print(f"| {' | '.join(key)} | {sum(seen.values())} | "
              f"{'; '.join(f'{what} {count}' for what, count in seen.most_common())} |")
    print(f"\n{len(tasks)} runs, {wrong} differ")
    return 1 if wrong else 0


if __name__ == "__main__":
    sys.exit(main())
