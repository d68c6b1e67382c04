"""snapshot.py: that each copy of a recording that runs is whole, with the rows so far, and what it says of files and words that are wrong."""
import contextlib
import os
import sqlite3
import subprocess
import tempfile
import time

from tries.running import ME, PLANT, refused, see, tool


def begun(program, path, count):
    return subprocess.Popen([program, "record", "Main.wave", "Main.count", "--mode", "cycle", "--cycle", "0", "--count", str(count), "--store", path,
                             "--local", PLANT, "--me", ME], stdin=subprocess.DEVNULL, stdout=subprocess.PIPE, stderr=subprocess.DEVNULL)


def rows_in(path):
    """How many rows a copy has, numbered from 1 on; its totals are seen to be those of its rows."""
    with contextlib.closing(sqlite3.connect(path)) as base:
        see(base.execute("PRAGMA integrity_check").fetchall() == [("ok",)], f"{path} is not whole")
        rows = base.execute("SELECT number, name, time, bytes FROM sample ORDER BY number").fetchall()
        totals = base.execute("SELECT name, count, last, time, bytes FROM total ORDER BY name").fetchall()
    see([int.from_bytes(row[0], "big") for row in rows] == list(range(1, len(rows) + 1)), f"the numbers of {path} are not 1, 2, ..")
    folded = {}
    for number, name, moment, data in rows:
        folded[name] = (folded.get(name, (0,))[0] + 1, number, moment, data)
    see(sorted((name, *it) for name, it in folded.items()) == totals, f"the totals of {path} are not those of its rows")
    return len(rows)


def of_a_running_one(program, folder, count):
    path, copy = os.path.join(folder, "samples.db"), os.path.join(folder, "now.db")
    it, copies, stood, locked = begun(program, path, count), 0, 0, 0
    try:
        while it.poll() is None:
            if not os.path.exists(path) or os.path.getsize(path) + (os.path.getsize(path + "-wal") if os.path.exists(path + "-wal") else 0) < 40000:
                time.sleep(0.02)
                continue
            with contextlib.closing(sqlite3.connect(path, timeout=0)) as base, contextlib.suppress(sqlite3.OperationalError):
                locked += 1
                base.execute("SELECT 1 FROM sample").fetchone()
                locked -= 1
            out, err, status = tool("snapshot.py", path, copy)
            see(status == 0 and not out + err, f"snapshot.py ends with {status}: {err}")
            rows = rows_in(copy)
            see(rows >= stood, f"a copy has {rows} rows, where {stood} stood")
            copies, stood = copies + 1, rows
        see(it.returncode == 0, f"record ends with {it.returncode}")
    finally:
        it.kill()
        it.wait()
    see(tool("snapshot.py", path, copy)[2] == 0 and rows_in(copy) == count, "the copy of the recording that is done has not all its rows")
    see(not [name for name in os.listdir(folder) if name not in ("samples.db", "now.db")], f"something else is left: {sorted(os.listdir(folder))}")
    see(copies >= 2 and locked > 0, f"{copies} copies were taken while it ran, {locked} of them of a locked file: too few to tell")
    return copies


def of_odd_files(folder):
    path, copy = os.path.join(folder, "odd.db"), os.path.join(folder, "now.db")
    refused(4, "is not there", "snapshot.py", path, copy)
    with open(path, "wb") as file:
        file.write(b"no database" * 500)
    before = os.listdir(folder)
    refused(2, "is no SQLite file", "snapshot.py", path, copy)
    refused(5, "is FILE itself", "snapshot.py", path, path)
    refused(5, "is no file", "snapshot.py", path, folder)
    refused(5, "can't be written", "snapshot.py", path, os.path.join(folder, "not", "there"))
    refused(1, "wanted", "snapshot.py", path)
    see(sorted(os.listdir(folder)) == sorted(before), f"a copy that was refused leaves {os.listdir(folder)}")


def tried(program, size):
    with tempfile.TemporaryDirectory() as folder:
        copies = of_a_running_one(program, folder, size.of(20000, 4000))
    with tempfile.TemporaryDirectory() as folder:
        of_odd_files(folder)
    return f"{copies} copies of a recording that ran, each whole; files and words that are wrong"
