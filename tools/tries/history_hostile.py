"""What happens to the file of a history while it is written, and what is none: history.py ends by its own sentence,
or goes on, and what it wrote is whole."""
import contextlib
import os
import signal
import sqlite3
import subprocess
import sys
import time

from tries.history_checks import of_sqlite, sound
from tries.running import ME, NET, TOOLS, refused, see

HISTORY = os.path.join(TOOLS, "history.py")
FOREIGN = ("CREATE TABLE symbol (a)", "CREATE VIEW sample AS SELECT 1", "CREATE TABLE gap (z)", "CREATE TABLE run (id)",
           "CREATE TABLE history (a)")


class Recording:
    """history.py, recording the names of a plant into a file, from its first line on."""

    def __init__(self, plant, path, limit=None):
        words = [sys.executable, HISTORY, "record", "GVL.*", "--to", plant.to, "--netid", NET, "--me", ME, "--sqlite", path,
                 "--mode", "cycle", "--cycle", "0"]
        # (a limit of the size of files, in kilobytes, that is told by an error and not by a signal)
        words = ["/bin/sh", "-c", f'trap "" XFSZ; ulimit -f {limit * 2}; exec "$@"', "sh", *words] if limit else words
        self.path, self.process = path, subprocess.Popen(words, stdout=subprocess.PIPE, stderr=subprocess.PIPE)
        see(b"recording" in self.process.stderr.readline(), f"{path}: nothing is recorded")
        time.sleep(1)

    def ends(self, status, part, stopped=False):
        """Sees that it ends so, by itself unless it is stopped."""
        if stopped:
            self.process.send_signal(signal.SIGTERM)
        out, err = (it.decode() for it in self.process.communicate(timeout=60))
        came, name = self.process.returncode, os.path.basename(self.path)
        see(came == status and part in out + err and "Traceback" not in err,
            f"{name}: status {came} in place of {status}, {part!r}: {out}{err[-500:]}")


def taken_away(plant, folder):
    """Removed, moved, and another file in its place: told with status 16, and a file that was moved has all samples."""
    for name, away in (("removed", os.unlink), ("moved", lambda path: os.rename(path, path + ".old")),
                       ("replaced", lambda path: os.replace(other(path), path))):
        path = os.path.join(folder, f"{name}.db")
        it = Recording(plant, path)
        away(path)
        it.ends(16, "was removed, moved or replaced while it was written")
    history, _ = of_sqlite(os.path.join(folder, "moved.db.old"))
    count, _ = sound(history)
    see(count > 50, f"of a history that was moved there are {count} samples")
    see(not os.path.exists(os.path.join(folder, "moved.db")), "a history that was moved is written under its old name")


def other(path):
    with open(path + ".other", "wb"):
        return path + ".other"


def tables_gone(plant, folder):
    path = os.path.join(folder, "tables.db")
    it = Recording(plant, path)
    with contextlib.closing(sqlite3.connect(path, isolation_level=None, timeout=30)) as base:
        base.execute("DROP TABLE sample")
    it.ends(16, "no such table: sample")


def no_room(plant, folder):
    """A file that may not grow: samples are held, and what could not be written is told at the end."""
    path = os.path.join(folder, "full.db")
    it = Recording(plant, path, limit=100)
    time.sleep(5)
    it.ends(16, "samples were not written", stopped=True)
    sound(of_sqlite(path)[0])


def none(folder):
    """Tables of others, files that are none, pipes and folders: one sentence each, and nothing is changed."""
    where = ("--to", "127.0.0.1:1", "--me", ME)
    for number, text in enumerate(FOREIGN):
        path = os.path.join(folder, f"foreign{number}.db")
        with contextlib.closing(sqlite3.connect(path)) as base:
            base.execute(text)
            base.commit()
        refused(16, "its tables are another program's", "history.py", "record", "x", *where, "--sqlite", path)
        with contextlib.closing(sqlite3.connect(path)) as base:
            found = [it for it, in base.execute("SELECT sql FROM sqlite_master")]
            see(found == [text], f"a file with {text} does not stay as it is: {found}")
    pipe, half = os.path.join(folder, "pipe"), os.path.join(folder, "half.db")
    os.mkfifo(pipe)
    with open(half, "wb") as file:
        file.write(b"SQLite format 3\0" + bytes(3000))
    for path in (pipe, folder, "/dev/null"):
        refused(16, "a file is wanted", "history.py", "record", "x", *where, "--sqlite", path)
        refused(16, "a file is wanted", "history.py", "export", "x", "--sqlite", path)
        new = os.path.join(folder, "new.db")
        refused(4, "a file is wanted", "history.py", "import", path, "--sqlite", new, "--netid", NET)
    refused(16, half, "history.py", "record", "x", *where, "--sqlite", half)
    refused(16, "is no history", "history.py", "export", "x", "--sqlite", half)
