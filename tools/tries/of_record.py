"""`ads record` over files that are whole, changed by hand, ruled by others, or not its own, or that are moved while it runs: what it puts, what it leaves
beside them and leaves alone."""
import contextlib
import os
import shutil
import sqlite3
import struct
import subprocess
import tempfile
import threading
import time

from lib.frames import ADD, DELETE, NOTE, REQUEST, Frame
from lib.program import run as run_program
from tries.fake_server import Fake, data, reply, symbol
from tries.running import ME, NET, PLANT, see
from tries.slow import slow_disk

LOCAL = ["--local", PLANT, "--me", ME]
FAULT = ("ads: keeper fault\n", 16)
TABLES = ("CREATE TABLE sample (number BLOB NOT NULL UNIQUE, name BLOB NOT NULL, time BLOB NOT NULL, bytes BLOB NOT NULL {})",
          "CREATE TABLE total (name BLOB NOT NULL UNIQUE, count INTEGER NOT NULL, last BLOB NOT NULL, time BLOB NOT NULL, bytes BLOB NOT NULL {})")
FOLD = ("DELETE FROM total", "INSERT INTO total SELECT name, count(*), max(number), time, bytes FROM sample GROUP BY name")


def record(program, path, *names, count=4):
    names = names or ("Main.wave", "Main.count")
    return run_program(program, "record", *names, "--mode", "change", "--cycle", "0", "--count", str(count), "--store", path, *LOCAL)


def changed(path, *texts, mode="DELETE"):
    """A file behind these statements, closed in this journal mode, so that it is all there is."""
    with contextlib.closing(sqlite3.connect(path)) as base:
        base.execute(f"PRAGMA journal_mode = {mode}")
        for text in texts:
            base.execute(text)
        base.commit()
    return path


def numbers_of(path):
    """The numbers in a copy of the file alone, whose totals are seen to be those of its rows."""
    alone = path + ".copy"
    shutil.copyfile(path, alone)
    with contextlib.closing(sqlite3.connect(alone)) as base:
        see(base.execute("PRAGMA integrity_check").fetchall() == [("ok",)], f"a copy of {path} alone is not whole")
        rows = base.execute("SELECT number, name, time, bytes FROM sample ORDER BY number").fetchall()
        totals = base.execute("SELECT name, count, last, time, bytes FROM total ORDER BY name").fetchall()
    folded = {}
    for number, name, time, data in rows:
        folded[name] = (folded.get(name, (0,))[0] + 1, number, time, data)
    see(sorted((name, *it) for name, it in folded.items()) == totals, f"the totals of {path} are not those of its rows: {totals}")
    for name in (alone, f"{alone}-wal", f"{alone}-shm"):
        with contextlib.suppress(OSError):
            os.remove(name)
    return [int.from_bytes(number, "big") for number, *_ in rows]


def one_file(program, folder):
    """A recording leaves one file, whatever its status, and a link at its place leaves one where it leads."""
    path, link = os.path.join(folder, "samples.db"), os.path.join(folder, "link.db")
    os.symlink(path, link)
    # Main.count may have sent its first sample when the server refuses the second name.
    scenes = ((path, (), 0, (4,)), (link, (), 0, (8,)), (path, ("Main.nothing",), 8, (8,)), (path, ("Main.count", "Main.nothing"), 8, (8, 9)))
    for where, names, status, numbers in scenes:
        _, came = record(program, where, *names)
        see(came == status, f"record ends with {came}, not {status}")
        rows = numbers_of(path)
        see(len(rows) in numbers and rows == list(range(1, len(rows) + 1)), f"status {status} leaves the rows {rows}")
        see(sorted(os.listdir(folder)) == ["link.db", "samples.db"], f"status {status} leaves {sorted(os.listdir(folder))}")


def rows_missing(program, folder):
    """Where rows are missing it goes on behind the greatest number, or ends before it puts one: none is lost in silence."""
    path = os.path.join(folder, "samples.db")
    record(program, path)
    changed(path, "DELETE FROM sample WHERE number < x'0000000000000003'", mode="WAL")
    with open(path, "rb") as file:
        before = file.read()
    see(record(program, path) == FAULT, "totals that are not those of the rows are gone on with")
    with open(path, "rb") as file:
        see(file.read() == before and os.listdir(folder) == ["samples.db"], "a file whose totals are not those of its rows does not stay as it is")
    changed(path, *FOLD)
    out, status = record(program, path)
    see(status == 0 and numbers_of(path) == list(range(3, 9)), f"behind rows 3 and 4 stand {numbers_of(path)}: {out!r}, status {status}")
    changed(path, "DELETE FROM sample", "DELETE FROM total")
    see(record(program, path)[1] == 0 and numbers_of(path) == [1, 2, 3, 4], f"in an emptied table stand {numbers_of(path)}")
    for text in ("DELETE FROM total WHERE name = x'4d61696e2e636f756e74'", "UPDATE total SET count = count + 1", "UPDATE total SET last = x'0000000000000001'",
                 "UPDATE total SET bytes = x'09'", "INSERT INTO total VALUES (x'41', 1, x'0000000000000009', x'0000000000000009', x'09')"):
        other = shutil.copyfile(path, os.path.join(folder, "other.db"))
        see(record(program, changed(other, text)) == FAULT, f"after {text} it is gone on with")


def rules_of_others(program, folder):
    """A rule that someone gave the tables is no reason to leave a sample out in silence."""
    cases = [(0, ", CHECK (length(bytes) > 100)", "", ()), (0, "", ", CHECK (count < 1)", ()), (2, "", ", CHECK (count < 3)", ()),
             (1, "", "", ("CREATE UNIQUE INDEX one ON sample (name)",)), (1, ", UNIQUE (name)", "", ())]
    for k, (rows, of_sample, of_total, more) in enumerate(cases):
        path = changed(os.path.join(folder, f"{k}.db"), TABLES[0].format(of_sample), TABLES[1].format(of_total), *more)
        see(record(program, path, "Main.wave") == FAULT, f"samples that {of_sample or of_total or more} refuses are left out in silence")
        see(numbers_of(path) == list(range(1, rows + 1)), f"before the refused sample stand {numbers_of(path)}")


def files_of_others(program, folder):
    """Another's file stays byte for byte as it is, and nothing stands beside it; beside other tables ours are made."""
    cases = [("CREATE TABLE sample (a)",), ("CREATE TABLE total (name, count)",), ("CREATE TABLE sample (a)", "CREATE TABLE total (b)"),
             ("CREATE TABLE Total (b)",),
             ("CREATE TABLE t (a)", "CREATE VIEW sample AS SELECT a FROM t"), ("CREATE TABLE sample (number, name)", TABLES[1].format(""))]
    for k, texts in enumerate(cases):
        for mode in ("DELETE", "WAL"):
            path = changed(os.path.join(folder, f"{k}{mode}.db"), *texts, mode=mode)
            with open(path, "rb") as file:
                before = file.read()
            see(record(program, path) == FAULT, f"{texts} in the mode {mode} is taken for a recording")
            with open(path, "rb") as file:
                see(file.read() == before, f"{texts} in the mode {mode} does not stay as it is")
            os.remove(path)
            see(os.listdir(folder) == [], f"beside {texts} in the mode {mode} stands {os.listdir(folder)}")
    path = changed(os.path.join(folder, "mine.db"), "CREATE TABLE mine (a)", "INSERT INTO mine VALUES (7)")
    see(record(program, path)[1] == 0 and numbers_of(path) == [1, 2, 3, 4], "beside another table nothing is recorded")
    with contextlib.closing(sqlite3.connect(path)) as base:
        see(base.execute("SELECT a FROM mine").fetchall() == [(7,)], "another's table is changed")


def samples_of(first, count):
    """The payload of a notification: samples of handle 1, a stamp each, whose moments and values are their numbers."""
    stamps = b"".join(struct.pack("<QIIII", k, 1, 1, 4, k) for k in range(first, first + count))
    return struct.pack("<II", len(stamps) + 4, count) + stamps


class Sampling:
    """A server that sends all samples at once behind the grant of a notification; the disk is slow from then on, and it keeps when it is asked for what."""

    def __init__(self, count, slow):
        self.count, self.slow, self.asked = count, slow, {}

    def answer(self, frame):
        self.asked[frame.command] = time.monotonic()
        if frame.command == DELETE:
            return reply(frame, bytes(4))
        if frame.command != ADD:
            return data(frame, symbol(b"Main.count", b"UDINT", 0x4040, 0, 4, 19))
        with open(self.slow, "wb"):
            return self.notes(frame)

    def notes(self, frame):
        yield reply(frame, struct.pack("<II", 0, 1))
        for first in range(1, self.count, 1000):
            yield Frame(frame.source, frame.target, NOTE, REQUEST, 0, 0, samples_of(first, 1000)).bytes()


def puts_before_a_deletion(program, folder, count=20000):
    """Puts that take longer than the five seconds in which an answer must come: the deletion behind them has its own five seconds."""
    env = slow_disk(folder, 600)
    if env is None:
        return
    os.unlink(env["SLOW_WHILE"])
    path, server = os.path.join(folder, "samples.db"), Sampling(count, env["SLOW_WHILE"])
    with Fake(server.answer) as fake:
        words = ("record", "Main.count", "--mode", "change", "--cycle", "0", "--count", str(count), "--store", path, "--to", fake.to, "--netid", NET, "--me", ME)
        with subprocess.Popen([program, *words], stdin=subprocess.DEVNULL, stdout=subprocess.PIPE, stderr=subprocess.DEVNULL, env=env) as it:
            while DELETE not in server.asked and it.poll() is None:
                time.sleep(0.02)
            time.sleep(1)
            os.unlink(env["SLOW_WHILE"])  # (what it does behind the call is no part of this)
            out, status = it.communicate(timeout=60)[0].decode(), it.returncode
    see((status, out) == (0, f"Main.count count {count} last {count} {count}\n"), f"a deletion behind slow puts: {out!r}, status {status}")
    took = server.asked[DELETE] - server.asked[ADD]
    see(took > 5, f"the puts took {took:.1f} s, which shows nothing")
    see(numbers_of(path) == list(range(1, count + 1)), "the rows behind slow puts")


class Waiting:
    """A server that sends a frame of samples behind the grant of a notification, and a second one when it is let go on."""

    def __init__(self, count):
        self.count, self.go, self.asked = count, threading.Event(), []

    def answer(self, frame):
        self.asked.append(frame.command)
        if frame.command == DELETE:
            return reply(frame, bytes(4))
        if frame.command != ADD:
            return data(frame, symbol(b"Main.count", b"UDINT", 0x4040, 0, 4, 19))
        return self.notes(frame)

    def notes(self, frame):
        yield reply(frame, struct.pack("<II", 0, 1))
        for first in (1, 1 + self.count):
            yield Frame(frame.source, frame.target, NOTE, REQUEST, 0, 0, samples_of(first, self.count)).bytes()
            self.go.wait(30)


@contextlib.contextmanager
def recording(program, path, count=5):
    """A recording whose first frame of samples is settled, and the server that has a second one for it; it is given with what ends it."""
    server = Waiting(count)
    with Fake(server.answer) as fake:
        words = ("record", "Main.count", "--mode", "change", "--cycle", "0", "--count", str(2 * count), "--store", path, "--to", fake.to, "--netid", NET, "--me", ME)
        with subprocess.Popen([program, *words], stdin=subprocess.DEVNULL, stdout=subprocess.PIPE, stderr=subprocess.PIPE, text=True) as it:
            def end():
                server.go.set()
                out, err = it.communicate(timeout=60)
                return out, err, it.returncode
            try:
                yield it, end, server
            finally:
                server.go.set()
                it.kill()


def is_settled(path, count=5):
    """Whether so many rows stand in a copy of the file and the log beside it."""
    alone = path + ".look"
    try:
        for end in ("", "-wal"):
            shutil.copyfile(path + end, alone + end)
        with contextlib.closing(sqlite3.connect(alone)) as base:
            return base.execute("SELECT count(*) FROM sample").fetchone() == (count,)
    except (OSError, sqlite3.Error):
        return False
    finally:
        for end in ("", "-wal", "-shm"):
            with contextlib.suppress(OSError):
                os.remove(alone + end)


def settled(path, seconds=30):
    """Waits until the first frame is settled."""
    until = time.monotonic() + seconds
    while not is_settled(path) and time.monotonic() < until:
        time.sleep(0.05)
    see(is_settled(path), f"nothing is recorded in {path}")


def put_instead(path, text):
    """Another file takes the name, at once."""
    with open(path + ".new", "w", encoding="ascii") as file:
        file.write(text)
    os.replace(path + ".new", path)


GONE, REPLACED = "the file or its folder was moved or removed", "another file stands there now"
ELSEWHERE, LOG_GONE = "the file is in another folder now", "the file that ends in -wal beside it was moved, removed or replaced"


def moved(program, folder):
    """A file that is moved, removed or replaced while it is recorded ends the recording at the next rows; they stand in the file, wherever it is."""
    at = lambda *names: os.path.join(folder, *names)  # noqa: E731

    def by_link():
        os.rename(at("here", "samples.db"), at("moved.db"))
        put_instead(at("other.db"), "of another")
        os.symlink(at("other.db"), at("here", "samples.db"))

    def elsewhere():
        os.rename(at("here", "samples.db"), at("moved.db"))
        os.symlink(at("moved.db"), at("here", "samples.db"))

    # What is done, what is told, where the rows are then, and what stands where the file was.
    scenes = (("moved", lambda: os.rename(at("here", "samples.db"), at("moved.db")), GONE, "moved.db", []),
              ("moved beside", lambda: os.rename(at("here", "samples.db"), at("here", "old.db")), GONE, "here/old.db", ["old.db"]),
              ("removed", lambda: os.remove(at("here", "samples.db")), GONE, None, []),
              ("replaced", lambda: put_instead(at("here", "samples.db"), "of another"), REPLACED, None, ["samples.db"]),
              ("replaced by a link", by_link, REPLACED, "moved.db", ["samples.db"]),
              ("behind a link", elsewhere, ELSEWHERE, "moved.db", ["samples.db"]),
              ("without its log", lambda: os.remove(at("here", "samples.db-wal")), LOG_GONE, "here/samples.db", ["samples.db"]),
              ("its folder moved", lambda: os.rename(at("here"), at("there")), GONE, "there/samples.db", None))
    for what, change, why, rows, names in scenes:
        os.mkdir(at("here"))
        path = at("here", "samples.db")
        with recording(program, path) as (_, end, _):
            settled(path)
            change()
            out, err, status = end()
        see((out, status) == FAULT, f"{what}: {out!r}, status {status}")
        # (a look in the moment of the change finds one name as before, and another not)
        said = [f"ads: {path}: {it}, so nothing more is recorded\n" for it in (why, ELSEWHERE)]
        see(err in said, f"{what}: standard error says {err!r}")
        # (a look that comes in front of the second frame ends it without that frame's rows)
        held = rows and numbers_of(at(rows))
        see(rows is None or held in (list(range(1, 6)), list(range(1, 11))), f"{what}: {rows} has the rows {held}")
        left = None if names is None else sorted(os.listdir(at("here")))
        see(left == names, f"{what}: what is left is {left}")
        if what == "replaced":
            with open(path, encoding="ascii") as file:
                see(file.read() == "of another", "the file that replaced the recording does not stay as it is")
        if rows:
            more = list(range(1, len(held) + 5))
            see(record(program, at(rows))[1] == 0 and numbers_of(at(rows)) == more, f"{what}: the recording is not gone on with")
        for name in os.listdir(folder):
            shutil.rmtree(at(name)) if os.path.isdir(at(name)) else os.remove(at(name))


def behind_links(program, folder):
    """A link is followed; one that is gone while it is recorded ends the recording, and the file has all rows."""
    path, link = os.path.join(folder, "samples.db"), os.path.join(folder, "link.db")
    with open(path, "wb"):
        os.symlink(path, link)
    with recording(program, link) as (_, end, _):
        settled(path)
        out, _, status = end()
    see((out, status) == ("Main.count count 10 last 10 10\n", 0), f"behind a link: {out!r}, status {status}")
    with open(path, "wb"):
        pass
    with recording(program, link) as (_, end, _):
        settled(path)
        os.remove(link)
        out, err, status = end()
    see((out, status) == FAULT and GONE in err, f"a link that is gone: {out!r}, {err!r}, status {status}")
    is_whole = numbers_of(path) in (list(range(1, 6)), list(range(1, 11)))
    see(is_whole and os.listdir(folder) == ["samples.db"], f"behind a link that is gone stand {numbers_of(path)}, {os.listdir(folder)}")


def no_files(program, folder):
    """What is no regular file is refused before the server is asked for anything, and stays as it is."""
    pipe, inner = os.path.join(folder, "pipe"), os.path.join(folder, "folder")
    os.mkfifo(pipe)
    os.mkdir(inner)
    for path in (pipe, inner, "/dev/null"):
        with recording(program, path) as (it, _, server):
            out, err = it.communicate(timeout=20)
            see((out, it.returncode) == FAULT and err == f"ads: {path}: it is no regular file\n", f"{path}: {out!r}, {err!r}, status {it.returncode}")
            see(server.asked == [], f"{path}: the server is asked for {server.asked}")
    see(sorted(os.listdir(folder)) == ["folder", "pipe"] and os.listdir(inner) == [], f"beside what is no file stands {sorted(os.listdir(folder))}")


def tried(program, size):
    for scene in (one_file, rows_missing, rules_of_others, files_of_others, puts_before_a_deletion, moved, behind_links, no_files):
        with tempfile.TemporaryDirectory() as folder:
            scene(program, folder)
    return ("one file at each end; rows that are missing, rules and files of others; a deletion behind five seconds of puts; files that are moved, removed or "
            "replaced meanwhile; what is no file")
