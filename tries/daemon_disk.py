"""Tries of `adsd` over a disk that is slow, and of signals that a recording gives: tries/daemon.py makes them with the
others."""
import contextlib
import os
import pathlib
import re
import signal
import sqlite3
import statistics
import struct
import subprocess
import tempfile
import time

from adsd import Daemon, reply, tried
from ams import request, watched
from daemon_store import kept_in_order, read_title, title_of, write_title
from under_test import expect, free_port, preload

SAVED = re.compile(r"saved (\d+), \d+ bytes, (\d+) ms")
BEAT = 0.01


def trips(link, number, is_over, seconds=60):
    """Writes of Main.title until it is over, each answered before the next: the last number, and how long each took."""
    took, ends = [], time.monotonic() + seconds
    while not is_over():
        expect(time.monotonic() < ends, f"{seconds} seconds were not enough")
        number += 1
        began = time.monotonic()
        write_title(link, number, title_of(number))
        took.append(time.monotonic() - began)
        time.sleep(0.01)
    return number, took


def behind(seconds):
    """Whether so many seconds are over."""
    ends = time.monotonic() + seconds
    return lambda: time.monotonic() >= ends


def slow_saves(log, slow_ms):
    """How long the saves took of which the log tells and that waited for two slow syncs or more."""
    return [int(ms) for _, ms in SAVED.findall(pathlib.Path(log).read_text()) if int(ms) >= 2 * slow_ms]


def slow_daemon(stack, program, slow_ms, *words):
    """A daemon with a store, whose syncs are slow while the file `slow` is in its folder; its log is the file `log`."""
    folder = stack.enter_context(tempfile.TemporaryDirectory())
    env = {**os.environ, "LD_PRELOAD": preload(folder, "tries/slow_sync.c"), "SLOW_MS": str(slow_ms),
           "SLOW_WHILE": os.path.join(folder, "slow")}
    log = stack.enter_context(open(os.path.join(folder, "log"), "wb"))
    return Daemon(stack, program, ["--store", "kept", "--save-each", "1", *words], folder=folder, env=env, stderr=log)


def value_of(text, name):
    return float(re.search(rf"^{name} (\S+)$", text, re.M)[1])


@tried
def slow_disk(program, slow_ms=200):
    """Each sync takes 200 ms: a save takes as many as it has, all is answered meanwhile, late ticks are counted, and
    behind it all is as before."""
    with contextlib.ExitStack() as stack:
        it, began = slow_daemon(stack, program, slow_ms, "--status", "status.prom"), time.time()
        log, while_ = os.path.join(it.folder, "log"), pathlib.Path(it.folder, "slow")
        with it.link() as link:
            number, before = trips(link, 0, behind(2))
            while_.touch()
            number, slow = trips(link, number, lambda: len(slow_saves(log, slow_ms)) >= 3)
            while_.unlink()
            number, after = trips(link, number, behind(2))
        out, _, status, _ = it.stopped(signal.SIGTERM)
        saved, took, err = kept_in_order(out, status), slow_saves(log, slow_ms), pathlib.Path(log).read_text()
        expect("store fault" not in err, f"it tells a fault: {err[-500:]!r}")
        expect(2 * slow_ms / 1000 <= max(slow) < 10, f"the longest of the trips took {max(slow):.3f} s")
        expect(statistics.median(slow) < slow_ms / 1000, f"half of the trips took {statistics.median(slow):.3f} s or "
               f"more: all wait for the disk")
        missed = counted(pathlib.Path(it.folder, "status.prom").read_text(), took, began)
        again = Daemon(stack, program, ["--store", "kept"], folder=it.folder)
        expect(read_title(again) == title_of(number), "the last value was lost")
        medians = [statistics.median(trip) * 1000 for trip in (before, slow, after)]
        return (f"{saved} saves, {len(took)} of {min(took)} to {max(took)} ms; {len(slow)} trips meanwhile, the "
                f"longest {max(slow) * 1000:.0f} ms, the median "
                f"{medians[1]:.1f} ms ({medians[0]:.1f} before, {medians[2]:.1f} behind); {missed:.0f} ticks missed "
                f"and told")


def counted(told, took, began):
    """How many missed ticks a status file tells: those of saves that took so long at least; ticks and missed ones, each
    up to a beat too few, are the time since it listened."""
    missed, ticks = value_of(told, "adsd_ticks_missed_total"), value_of(told, "adsd_ticks_total")
    least = sum(ms / 1000 / BEAT - 2 for ms in took)
    expect(missed >= least, f"{missed:.0f} missed ticks are counted, and slow saves took the time of {least:.0f}")
    expect(value_of(told, "adsd_tick_late_seconds_max") >= max(took) / 1000 - 2 * BEAT,
           f"the longest save took {max(took)} ms, and the status file says {told!r}")
    ran = value_of(told, "adsd_last_tick_time_seconds") - began
    expect(-2 < ran - (ticks + missed) * BEAT < ticks * BEAT + 2,
           f"{ticks:.0f} ticks and {missed:.0f} missed ones are no {ran:.1f} s")
    return missed


@tried
def slow_disk_beats(program, slow_ms=200):
    """A watcher of each tick sees late stamps while the disk is slow, and never a wrong value or a stamp that goes
    back."""
    with contextlib.ExitStack() as stack:
        it = slow_daemon(stack, program, slow_ms)
        pathlib.Path(it.folder, "slow").touch()
        moments, number, late, ends = [], 10, 0, time.monotonic() + 60
        with it.link() as watcher, it.link() as writer:
            watcher.sendall(request(6, 1, watched(0x4040, 0, 4, 3)))
            expect(reply(watcher)[1][:4] == bytes(4), "the addition was refused")
            while late < 3:
                expect(time.monotonic() < ends, f"in a minute {late} stamps came late")
                payload = reply(watcher)[1]
                moments.append(struct.unpack("<Q", payload[8:16])[0])
                expect(payload[16:] == struct.pack("<III", 1, 1, 4) + struct.pack("<i", 42),
                       f"a sample is {payload.hex()}")
                expect(len(moments) < 2 or moments[-1] > moments[-2], "a stamp goes back")
                late += len(moments) > 1 and moments[-1] - moments[-2] >= 2 * slow_ms * 10000
                if len(moments) % 20 == 0:
                    number += 1
                    write_title(writer, number, title_of(number))
        kept_in_order(*it.stopped(signal.SIGTERM)[::2][:2])
        gaps = [(b - a) / 1e7 for a, b in zip(moments, moments[1:])]
        return (f"{len(moments)} stamps, the longest gap {max(gaps) * 1000:.0f} ms, the median "
                f"{statistics.median(gaps) * 1000:.1f} ms")


# Recordings as signals.


def recording(folder, rows):
    """A recording as `ads record` makes it: rows of name and bytes; its file."""
    path = os.path.join(folder, "line.db")
    with contextlib.closing(sqlite3.connect(path)) as base:
        base.execute("CREATE TABLE sample (number BLOB NOT NULL UNIQUE, name BLOB NOT NULL, time BLOB NOT NULL, bytes "
                     "BLOB NOT NULL) STRICT")
        base.execute("CREATE TABLE total (name BLOB NOT NULL UNIQUE, count INTEGER NOT NULL, last BLOB NOT NULL, time "
                     "BLOB NOT NULL, bytes BLOB NOT NULL) STRICT")
        for number, (name, data) in enumerate(rows, 1):
            base.execute("INSERT INTO sample VALUES (?, ?, ?, ?)", (number.to_bytes(8, "big"), name, bytes(8), data))
        base.commit()
    return path


def configured(folder, port, name):
    """A configuration whose signal 2, which Main.wave follows, is a recording."""
    pathlib.Path(folder, "it.toml").write_text(
        f'description = "plant.toml"\nlisten = ["127.0.0.1:{port}"]\n[[signal]]\nramp = 5\nperiod = '
        f'10\n[[signal]]\nsquare = [3, 4, 2]\n'
        f'[[signal]]\nrecording = "line.db"\nname = "{name}"\n')
    return ["it.toml"]


@tried
def recording_as_signal(program):
    """A symbol follows the samples of its name, in their order, one a tick, again and again; the file stays as it is,
    and wrong ones are told."""
    numbers = [700, 8, 65535, 9]
    rows = [row for number in numbers for row in ((b"Main.wave", struct.pack("<H", number)),
                                                  (b"Main.count", struct.pack("<I", 1)))]
    with contextlib.ExitStack() as stack:
        folder, port = stack.enter_context(tempfile.TemporaryDirectory()), free_port()
        path = recording(folder, [*rows, (b"Main.odd", b"")])
        stood = pathlib.Path(path).read_bytes()
        it = Daemon(stack, program, folder=folder, port=port, words=configured(folder, port, "Main.wave"), bare=True)
        seen = []
        with it.link() as link:
            link.sendall(request(6, 1, watched(0x4040, 64, 2, 3)))
            expect(reply(link)[1][:4] == bytes(4), "the addition was refused")
            while len(seen) < 40:
                seen.append(struct.unpack("<H", reply(link)[1][28:30])[0])
        it.stopped(signal.SIGTERM)
        at = numbers.index(seen[0]) if seen[0] in numbers else 0
        expect(seen == [numbers[(at + k) % len(numbers)] for k in range(len(seen))], f"it gave {seen}")
        expect(pathlib.Path(path).read_bytes() == stood and os.listdir(folder).count("line.db-wal") == 0,
               "the recording is another, or a log stands beside it")
        told = [told_of(program, folder, port, "Main.none"), told_of(program, folder, port, "Main.odd")]
        with contextlib.closing(sqlite3.connect(path, isolation_level=None)) as other:
            other.execute("BEGIN EXCLUSIVE")
            told.append(told_of(program, folder, port, "Main.wave"))
        return f"{len(seen)} samples; {'; '.join(told)}"


def told_of(program, folder, port, name):
    """How a daemon over this recording ends: in one line, before it listens."""
    it = subprocess.run([program, *configured(folder, port, name)], cwd=folder, capture_output=True, timeout=180)
    said = it.stderr.decode()
    expect(it.returncode in (1, 4) and it.stdout == b"" and said.startswith("adsd: [[signal]] 2: ")
           and said.count("\n") == 1, f"{name}: {it.returncode}, {said!r}")
    return f"{name}: {said[len('adsd: [[signal]] 2: '):-1]}"
