#!/usr/bin/env python3
"""A disk that the system makes read-only, as it does with one that is broken: `adsd`, `ads keep`, `ads record` and
tools/history.py over it.

    python3 tries/read_only.py ADS ADSD

ADS and ADSD are the built programs. The disk is a file system of its own (ext4, over a loop device; root alone may
mount one), which is made read-only at once, under open files (`mount -o remount,abort`), and mounted anew behind it. A
line a scene, `ok` or what differed; status 1 where one did.

- adsd: tells `store fault` once, serves as before, and ends with 14. What was saved last stands, and the next start
  serves it. A start over a read-only disk ends with 14 before it listens. A status file on that disk hinders it in
  nothing.
- keep: status 14 and its line, and no byte is another.
- record: status 16 and its line, in its middle and at its start; each row is there once, with the totals, and the next
  run goes on behind them.
- history: status 16 and a sentence, in its middle and at its start; each sample is there once, and the next run tells a
  gap.
  """
import contextlib
import os
import pathlib
import signal
import sqlite3
import subprocess
import sys
import tempfile
import time

HERE = os.path.dirname(os.path.abspath(__file__))
sys.dont_write_bytecode = True
sys.path[1:1] = [f"{sys.path[0]}/../{room}" for room in ("model", "tools")]
import bad_stores  # noqa: E402
import recorded  # noqa: E402
from adsd import Daemon, waits_for  # noqa: E402
from daemon_store import read_title, title_of, write_title  # noqa: E402
from tries.history_checks import of_sqlite, sound  # noqa: E402
from tries.running import Served, Wrong  # noqa: E402
from under_test import Differs, expect  # noqa: E402

HISTORY = os.path.join(HERE, "..", "tools", "history.py")


class Disk:
    """A file system of its own in a folder."""

    def __init__(self, stack, folder):
        self.image, self.place = os.path.join(folder, "image"), pathlib.Path(folder, "disk")
        self.place.mkdir()
        with open(self.image, "wb") as file:
            file.truncate(32 << 20)
        subprocess.run(["mkfs.ext4", "-q", self.image], check=True)
        self.mount()
        stack.callback(subprocess.run, ["umount", "-l", self.place])

    def mount(self):
        subprocess.run(["mount", "-o", "loop", self.image, self.place], check=True)

    def break_off(self):
        """From here on each write, sync and new file is refused with EROFS, whoever has files open."""
        subprocess.run(["mount", "-o", "remount,abort", self.place], check=True)

    def mend(self):
        """What the disk held is there again, and may be written."""
        subprocess.run(["umount", self.place], check=True)
        subprocess.run(["e2fsck", "-p", self.image], stdout=subprocess.DEVNULL)
        self.mount()


def of_adsd(stack, folder, disk, ads, adsd):
    words, log = ["--store", "disk/kept", "--save-each", "1", "--status",
                  "disk/status.prom"], pathlib.Path(folder, "log")
    it = Daemon(stack, adsd, words, folder=folder, stderr=stack.enter_context(log.open("wb")))
    with it.link() as link:
        write_title(link, 1, title_of(1))
        waits_for(log, " saved 1, ", 1)
        disk.break_off()
        write_title(link, 2, title_of(2))
        waits_for(log, "store fault", 1)
        time.sleep(3)
        expect(it.asks() < 2 and read_title(it) == title_of(2), "it does not serve as before")
    out, _, status, _ = it.stopped(signal.SIGTERM)
    expect((status, out.splitlines()[-1:], log.read_text().count("store fault")) == (14, ["ads: store fault"], 1),
           f"it ended with {status}, {out!r}")
    again = Daemon(stack, adsd, words, folder=folder, listens=False)
    out, err, status, _ = again.stopped()
    expect(status == 14 and "listening" not in out + err, f"a start over it: status {status}, {out!r}, {err!r}")
    disk.mend()
    expect(read_title(Daemon(stack, adsd, words, folder=folder)) == title_of(1), "what was saved does not stand")
    return "the save before stands"


def of_keep(stack, folder, disk, ads, adsd):
    bad_stores.written(pathlib.Path(folder))
    stood = bad_stores.saved(1)
    (disk.place / "store").write_bytes(stood)
    os.sync()
    disk.break_off()
    for name in ("store", "new"):
        came = bad_stores.keep(ads, folder, f"disk/{name}")
        expect(came == bad_stores.FAULT, f"{name}: {came}")
    expect((disk.place / "store").read_bytes() == stood and not (disk.place / "new").exists(), "the disk is another")
    return "a store and none"


def of_record(stack, folder, disk, ads, adsd):
    server, store = stack.enter_context(Served(ads, recorded.PLANT)), disk.place / "s"
    words = [ads, "record", "Main.count", "--mode", "cycle", "--cycle", "100000", "--count", "100000", "--store", store,
             *server.words()]
    it = subprocess.Popen(words, stdout=subprocess.PIPE, text=True)
    stack.callback(it.kill)
    time.sleep(3)
    disk.break_off()
    out = it.communicate(timeout=60)[0]
    expect((it.returncode, out) == (16, "ads: keeper fault\n"), f"in its middle: {it.returncode}, {out!r}")
    for name in ("s", "new"):
        done = recorded.record(ads, ["Main.count"], "cycle", 2, disk.place / name, recorded.LOCAL)
        expect((done.returncode, done.stdout) == (16, "ads: keeper fault\n"),
               f"a start over {name}: {done.returncode}, {done.stdout!r}")
    disk.mend()
    stood = len(recorded.whole(store))
    expect(stood > 1, f"{stood} rows stand")
    done = recorded.record(ads, ["Main.count"], "cycle", 2, store, recorded.LOCAL)
    expect(done.returncode == 0 and len(recorded.whole(store, stood)) == stood + 2, "the next run does not go on")
    return f"{stood} rows stand, and two more behind it"


def of_history(stack, folder, disk, ads, adsd):
    server, base = stack.enter_context(Served(ads, recorded.PLANT)), disk.place / "it.db"
    words = [sys.executable, HISTORY, "record", "Main.wave", *server.words(), "--cycle", "0", "--sqlite", base]
    it = subprocess.Popen(words, stdout=subprocess.PIPE, stderr=subprocess.PIPE, text=True)
    stack.callback(it.kill)
    time.sleep(4)
    disk.break_off()
    out, err = it.communicate(timeout=60)
    expect(it.returncode == 16 and err.splitlines()[-1].startswith(f"{base}: "),
           f"in its middle: {it.returncode}, {out!r}, {err!r}")
    done = subprocess.run([*words, "--seconds", "2"], capture_output=True, text=True, timeout=60)
    expect(done.returncode == 16 and done.stderr.startswith(f"{base}: ") and done.stderr.count("\n") == 1,
           f"a start: {done.returncode}, {done.stderr!r}")
    disk.mend()
    stood, _ = sound(of_sqlite(base)[0], ())
    done = subprocess.run([*words, "--seconds", "2"], capture_output=True, text=True, timeout=60)
    rows, gaps = sound(of_sqlite(base)[0], ())
    expect(done.returncode == 0 and 0 < stood < rows and gaps == 1,
           f"the next run: {done.returncode}, {stood} samples stood, now {rows} and {gaps} gaps")
    return f"{stood} samples stand, and {rows - stood} behind a gap"


SCENES = {"adsd": of_adsd, "keep": of_keep, "record": of_record, "history": of_history}


def main():
    ads, adsd = map(os.path.abspath, sys.argv[1:3])
    bad = False
    for name, scene in SCENES.items():
        with contextlib.ExitStack() as stack:
            folder = stack.enter_context(tempfile.TemporaryDirectory())
            try:
                print(f"{name}: ok, {scene(stack, folder, Disk(stack, folder), ads, adsd)}", flush=True)
            except (Differs, Wrong, OSError, subprocess.SubprocessError,
                    sqlite3.Error) as why:
                print(f"{name}: WRONG: {why}", flush=True)
                bad = True
    return 1 if bad else 0


if __name__ == "__main__":
    sys.exit(main())
