#!/usr/bin/env python3
"""`ads record` for real: over SQLite files, with a server on the other end of a socket, killed in its middle, and over
stores that are none; with --history N also tools/history.py, killed N times over one file.

    python3 tries/recorded.py PROGRAM [--times 100] [--history N] [--puts 2000] [--seed 1]

PROGRAM is crates/ads/out/ads. A line a scene, `ok` or what differed; status 1 where one did. What is read back is read
by Python's sqlite3, not by the program. The last lines say what a put cost: processor time of the program, and how many
a second the disk of the working folder and memory (/dev/shm) gave; of samples that come one at a time, each with a
sync, and of 5,000 in one frame.
"""
import argparse
import contextlib
import os
import pathlib
import random
import resource
import signal
import sqlite3
import struct
import subprocess
import sys
import tempfile
import time

sys.dont_write_bytecode = True
sys.path[1:1] = [f"{sys.path[0]}/../{room}" for room in ("model", "tools")]
from connecting import DATA, Server, read_write  # noqa: E402,F401

from lib.frames import ADD, DELETE, NOTE, REQUEST, Frame  # noqa: E402
from tries import of_history  # noqa: E402
from tries.fake_server import Fake, data, reply, symbol  # noqa: E402
from tries.running import Wrong  # noqa: E402
from under_test import ROOT, Differs, wanted  # noqa: E402

PLANT = ROOT / "examples/plant.toml"
ME = ["--me", "192.168.0.9.1.1"]
LOCAL = ["--local", str(PLANT), *ME]


def rows_of(path):
    with contextlib.closing(sqlite3.connect(f"file:{path}?mode=ro", uri=True)) as base:
        rows = base.execute("SELECT number, name, time, bytes FROM sample ORDER BY number").fetchall()
        totals = base.execute("SELECT name, count, last, time, bytes FROM total").fetchall()
    return [(int.from_bytes(n, "big"), name, int.from_bytes(t, "big"), data) for n, name, t, data in rows], totals


def whole(path, least=0):
    """The file opens, its numbers are 1, 2, .., each once, and its totals are those of its rows; no fewer rows than
    there were."""
    rows, totals = rows_of(path)
    wanted("the numbers", [r[0] for r in rows], list(range(1, len(rows) + 1)))
    if len(rows) < least:
        raise Differs(f"{len(rows)} rows, where {least} stood")
    folded = {}
    for number, name, moment, data in rows:
        folded[name] = (folded.get(name, (0,))[0] + 1, number.to_bytes(8, "big"), moment.to_bytes(8, "big"), data)
    wanted("the totals", sorted((name, *total) for name, total in folded.items()), sorted(totals))
    return rows


def record(program, names, mode, count, store, peer, **more):
    given = ["--mode", mode, "--cycle", "0", "--count", str(count), "--store", str(store)]
    return subprocess.run([program, "record", *names, *given, *peer],
                          stdout=subprocess.PIPE, stderr=subprocess.DEVNULL, text=True, timeout=120, **more)


def twice(program, folder, r):
    """Two runs one behind the other over one file."""
    for run, (wave, count) in enumerate(((3, 1), (6, 2))):
        done = record(program, ["Main.wave", "Main.count"], "change", 4, folder / "s", LOCAL)
        wanted("the status", done.returncode, 0)
        wanted("the lines", done.stdout, f"Main.wave count {wave} last 300000 4\nMain.count count {count} last 100000 "
               f"42\n")
    rows = whole(folder / "s")
    first = [(b"Main.wave", 100000, b"\3\0"), (b"Main.count", 100000, b"\x2a\0\0\0"), (b"Main.wave", 200000, b"\1\0"),
             (b"Main.wave", 300000, b"\4\0")]
    wanted("the rows", rows, [(k + 1, *row) for k, row in enumerate(first * 2)])


def over_a_socket(program, folder, r):
    """A server that another client writes to while its symbol is recorded: the rows are among what was written, in its
    order."""
    server = Server(program)
    try:
        host, port = server.socket.getpeername()
        peer = ["--to", f"{host}:{port}", "--netid", "5.1.2.3.1.1", "--me", "192.168.0.10.1.1"]
        it = subprocess.Popen([program, "record", "Main.count", "--mode", "change", "--cycle", "0", "--count", "20",
                               "--store", str(folder / "s"), *peer],
                              stdout=subprocess.PIPE, text=True)
        written = [42]
        while it.poll() is None and len(written) < 20000:
            written.append(len(written) + 100)
            size = (4).to_bytes(4, "little")
            server.ask(851, 3, DATA.to_bytes(4, "little") + bytes(4) + size + written[-1].to_bytes(4, "little"))
            time.sleep(0.003)
        out = it.communicate(timeout=30)[0]
        wanted("the status", it.returncode, 0)
        rows = whole(folder / "s")
        wanted("how many", len(rows), 20)
        values, place = [int.from_bytes(row[3], "little") for row in rows], 0
        for value in values:
            if value not in written[place:]:
                raise Differs(f"{value} was recorded, and not written behind {written[place]}")
            place += written[place:].index(value) + 1
        if any(a[2] > b[2] for a, b in zip(rows, rows[1:])):
            raise Differs("a moment falls")
        wanted("the line", out, f"Main.count count 20 last {rows[-1][2]} {values[-1]}\n")
    finally:
        server.stop()


def burst_of(first, count):
    """The payload of a notification: samples of handle 1, a stamp each, whose moments and values are their numbers."""
    stamps = b"".join(struct.pack("<QIIII", k, 1, 1, 4, k) for k in range(first, first + count))
    return struct.pack("<II", len(stamps) + 4, count) + stamps


def bursts(frames, count, pause=0.0):
    """A server that sends so many frames of so many samples each behind the grant of a notification."""
    def answer(frame):
        if frame.command == ADD:
            return sent(frame)
        return reply(frame, bytes(4)) if frame.command == DELETE else data(frame, symbol(
            b"Main.count", b"UDINT", 0x4040, 0, 4, 19))

    def sent(frame):
        yield reply(frame, struct.pack("<II", 0, 1))
        for k in range(frames):
            yield Frame(frame.source, frame.target, NOTE, REQUEST, 0, 0, burst_of(k * count + 1, count)).bytes()
            time.sleep(pause)
    return Fake(answer)


def of_fake(fake):
    return ["--to", fake.to, "--netid", "5.1.2.3.1.1", *ME]


def burst(program, folder, r):
    """5,000 samples in one frame: they are settled in two transactions, and no call is timed out by its own puts."""
    with bursts(1, 5000) as fake:
        done = record(program, ["Main.count"], "change", 5000, folder / "s", of_fake(fake))
    wanted("the end", (done.returncode, done.stdout), (0, "Main.count count 5000 last 5000 5000\n"))
    wanted("the rows", whole(folder / "s"), [(k, b"Main.count", k, k.to_bytes(4, "little")) for k in range(1, 5001)])


def killed_in_bursts(program, folder, r, times):
    """Killed while frames of 1,000 samples come: what was settled is there, a frame's samples all or none."""
    stood, cut = set(), 0
    for k in range(times):
        store = folder / f"s{k}"
        with bursts(10, 1000, pause=0.01) as fake:
            it = subprocess.Popen([program, "record", "Main.count", "--mode", "change", "--cycle", "0", "--count",
                                   "10000", "--store", str(store), *of_fake(fake)],
                                  stdout=subprocess.DEVNULL)
            try:
                it.wait(r.random() * 0.4)
            except subprocess.TimeoutExpired:
                it.send_signal(signal.SIGKILL)
                it.wait()
                cut += 1
        if not store.exists():
            continue
        try:
            rows = len(whole(store))
        except sqlite3.DatabaseError as fault:
            if "no such table" not in str(fault):
                raise
            continue
        if rows % 1000:
            raise Differs(f"{rows} rows, where frames of 1,000 samples came")
        stood.add(rows)
    return f"ok, {cut} of {times} killed; so many rows stood: {' '.join(str(it) for it in sorted(stood))}"


def no_stores(program, folder, r):
    """Files that are no store: told by status 16 and its line alone."""
    def fault(what, store, **more):
        done = record(program, ["Main.count"], "cycle", 2, store, LOCAL, **more)
        wanted(what, (done.returncode, done.stdout), (16, "ads: keeper fault\n"))
    (folder / "rubbish").write_bytes(r.randbytes(8192))
    fault("a file of rubbish", folder / "rubbish")
    wanted("it stays as it was", len((folder / "rubbish").read_bytes()), 8192)
    record(program, ["Main.count"], "cycle", 2, folder / "held", LOCAL)
    with contextlib.closing(sqlite3.connect(folder / "held")) as base:
        base.execute("BEGIN IMMEDIATE")
        fault("a file that another program writes to", folder / "held")
    wanted("behind it", record(program, ["Main.count"], "cycle", 2, folder / "held", LOCAL).returncode, 0)
    fault("a folder", folder)
    fault("a folder that is not there", folder / "not" / "there")
    with contextlib.closing(sqlite3.connect(folder / "other")) as base:
        base.execute("CREATE TABLE sample (number INTEGER)")
    fault("another program's table", folder / "other")
    wanted("the status of a sound one", record(program, ["Main.count"], "cycle", 2, folder / "cut", LOCAL).returncode,
           0)
    sound = (folder / "cut").read_bytes()
    (folder / "cut").write_bytes(sound[: len(sound) // 2 + 100])
    done = record(program, ["Main.count"], "cycle", 2, folder / "cut", LOCAL)
    if (done.returncode, done.stdout) != (16, "ads: keeper fault\n") and done.returncode != 0:
        raise Differs(f"a file that was cut: {done.returncode} {done.stdout!r}")
    if os.geteuid() != 0:
        (folder / "sealed").mkdir(mode=0o500)
        fault("a folder that takes no file", folder / "sealed" / "s")


def full(program, folder, r):
    """A disk that is full in the middle: status 16, and the file opens and is whole."""
    place = folder / "small"
    place.mkdir()
    if subprocess.run(["mount", "-t", "tmpfs", "-o", "size=8m", "tmpfs", str(place)],
                      stderr=subprocess.DEVNULL).returncode:
        return "not tried: no file system may be mounted here"
    try:
        done = record(program, ["Main.title", "Main.count"], "cycle", 100000, place / "s", LOCAL)
        wanted("a full disk", (done.returncode, done.stdout), (16, "ads: keeper fault\n"))
        subprocess.run(["cp", "-r", str(place), str(folder / "copy")], check=True)
        rows = whole(folder / "copy" / "s")
        return f"ok, with {len(rows)} rows"
    finally:
        subprocess.run(["umount", "-l", str(place)])


def killed(program, folder, r, times):
    """Killed at any moment, and started again over what it left."""
    stood, cut = 0, 0
    started = time.monotonic()
    record(program, ["Main.count"], "cycle", 300, folder / "first", LOCAL)
    lasts = time.monotonic() - started
    for k in range(times):
        it = subprocess.Popen([program, "record", "Main.count", "Main.wave", "--mode", "cycle", "--cycle", "0",
                               "--count", "300", "--store", str(folder / "s"), *LOCAL],
                              stdout=subprocess.DEVNULL)
        try:
            it.wait(r.random() * lasts)
        except subprocess.TimeoutExpired:
            it.send_signal(signal.SIGKILL)
            it.wait()
            cut += 1
        if (folder / "s").exists():
            try:
                stood = len(whole(folder / "s", stood))
            except sqlite3.DatabaseError as fault:
                if stood or "no such table" not in str(fault):
                    raise
    return f"ok, {cut} of {times} killed, {stood} rows in the end"


def history_killed(folder, times):
    _, samples, gaps = of_history.killed(str(folder), times + 1)
    return f"ok, {times} times; {samples} samples, each once, and {gaps} gaps"


def cost(program, folder, puts):
    for what, place in (("/dev/shm", pathlib.Path("/dev/shm")), ("the disk", folder)):
        with tempfile.TemporaryDirectory(dir=place) as there:
            before, started = resource.getrusage(resource.RUSAGE_CHILDREN), time.monotonic()
            done = record(program, ["Main.count"], "cycle", puts, pathlib.Path(there) / "s", LOCAL)
            lasted, after = time.monotonic() - started, resource.getrusage(resource.RUSAGE_CHILDREN)
            spent = after.ru_utime + after.ru_stime - before.ru_utime - before.ru_stime
            wanted("the status", done.returncode, 0)
            print(f"{puts} puts on {what}: {puts / lasted:,.0f} a second, {1e6 * spent / puts:.0f} microseconds of the "
                  f"processor each")
            with bursts(1, 5000) as fake:
                started = time.monotonic()
                done = record(program, ["Main.count"], "change", 5000, pathlib.Path(there) / "burst", of_fake(fake))
                lasted = time.monotonic() - started
            wanted("the status of a burst", done.returncode, 0)
            print(f"5000 puts of one frame on {what}: {5000 / lasted:,.0f} a second")


def main():
    given = argparse.ArgumentParser()
    given.add_argument("program")
    given.add_argument("--times", type=int, default=100)
    given.add_argument("--history", type=int, default=0)
    given.add_argument("--puts", type=int, default=2000)
    given.add_argument("--seed", type=int, default=1)
    given = given.parse_args()
    program, r, bad = os.path.abspath(given.program), random.Random(given.seed), False
    scenes = [("twice", twice), ("over a socket", over_a_socket), ("a burst", burst), ("no stores", no_stores),
              ("a full disk", full),
              ("killed", lambda *some: killed(*some, given.times)),
              ("killed in bursts", lambda *some: killed_in_bursts(*some, given.times))]
    if given.history:
        scenes.append(("history killed", lambda _, folder, chance: history_killed(folder, given.history)))
    for name, scene in scenes:
        with tempfile.TemporaryDirectory() as folder:
            try:
                print(f"{name}: {scene(program, pathlib.Path(folder), r) or 'ok'}", flush=True)
            except (Differs, Wrong, subprocess.TimeoutExpired, sqlite3.Error) as why:
                print(f"{name}: {why}", flush=True)
                bad = True
    with tempfile.TemporaryDirectory(dir=".") as folder:
        cost(program, pathlib.Path(folder), given.puts)
    return 1 if bad else 0


if __name__ == "__main__":
    sys.exit(main())
