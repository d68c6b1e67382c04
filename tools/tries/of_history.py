"""history.py: a server that counts, that goes and comes and is described anew; a recorder that is killed; what comes out again; and all that is no history."""
import concurrent.futures
import contextlib
import os
import signal
import sqlite3
import struct
import subprocess
import sys
import tempfile
import threading
import time

from lib import history_store
from lib.flow_layout import Layout
from lib.flow_session import Session
from lib.history_record import Recorder
from lib.history_sqlite import SqliteStore
from lib.history_writer import Writer
from lib.program import run as run_program
from tries import history_hostile
from tries.fake_plant import FakePlant
from tries.fake_server import Fake, told
from tries.history_checks import of_sqlite, sound
from tries.running import ME, NET, PLANT, TOOLS, Served, Wrong, refused, see, tool

KINDS = ("DINT", "LREAL", "UDINT", "REAL")


class Running:
    """A recorder in this process; `seconds` of patience for whatever is waited for."""

    def __init__(self, path, to, words, mode="cycle"):
        self.said, self.stopped, self.fault = [], threading.Event(), None
        self.writer = Writer(SqliteStore(path), self.said.append, self.stopped)
        self.recorder = Recorder((to, NET, ME, 5), 851, words, mode, 0, self.writer, self.said.append)
        self.writer.start()
        self.thread = threading.Thread(target=self.run, daemon=True)
        self.thread.start()

    def run(self):
        try:
            self.recorder.run(None, self.stopped, 10 ** 6, None)
        except Exception as fault:
            self.fault = fault

    def until(self, holds, what, seconds=30):
        end = time.monotonic() + seconds
        while not holds() and time.monotonic() < end and not self.fault:
            time.sleep(0.02)
        see(holds() and not self.fault, f"{what}: not within {seconds} s; said {self.said}, {self.fault!r}")

    def wrote(self, count):
        before = self.writer.written
        self.until(lambda: self.writer.written >= before + count, f"{count} samples more")

    def all_known(self, count):
        """Waits until so many names have a sample, and some more of each are written."""
        def known():
            session = self.recorder.session
            return session and len(session.items) == count and not any(item.fresh for item in list(session.items.values()))
        self.until(known, f"a sample of each of {count} names")
        self.wrote(8 * count)

    def __enter__(self):
        return self

    def __exit__(self, *_):
        self.stopped.set()
        self.thread.join(30)
        self.writer.stop(10)
        see(not self.fault, f"the recorder ended by {self.fault!r}")


def comes_and_goes(folder):
    """Two connections, the server away and back, another description, a base that another program holds: nothing is lost but what is marked."""
    path = os.path.join(folder, "h.db")
    names = {f"GVL.v{k}": KINDS[k % 4] for k in range(120)}
    with FakePlant(names, most=100) as plant, Running(path, plant.to, ["GVL.*", "Main.*", "Nothing"]) as it:
        it.all_known(120)
        see("not there now: Main.*, Nothing" in it.said, f"nothing is said of names that are not there: {it.said}")
        plant.go()
        it.until(lambda: any("tried again" in line for line in it.said), "the loss of the server")
        plant.come()
        it.all_known(120)
        plant.describe({**{name: kind for name, kind in names.items() if name != "GVL.v7"}, "GVL.v8": "LREAL", "Main.new": "DINT"})
        it.until(lambda: "main.new" in it.recorder.session.items, "the new description")
        it.all_known(120)
        plant.describe({**plant.kinds(), "Main.more": "LREAL"})
        it.until(lambda: "main.more" in it.recorder.session.items, "a description that has one name more")
        it.all_known(121)
        with contextlib.closing(sqlite3.connect(path, isolation_level=None)) as other:
            other.execute("BEGIN IMMEDIATE")
            time.sleep(0.7)
            other.execute("ROLLBACK")
        it.wrote(500)
    history, runs = of_sqlite(path)
    samples, gaps = sound(history)
    see(gaps == 122 and samples >= 3000, f"{gaps} gaps in place of 122, {samples} samples")
    holes = history["GVL.v7", KINDS[3]][1]
    see([hole[1] is None for hole in holes] == [False, True] and "description" in holes[1][2], f"the gaps of a symbol that is gone: {holes}")
    see(len(history["GVL.v9", KINDS[1]][1]) == 1, "a symbol that stays has a gap of the new description")
    see(history["Main.new", "DINT"][0] and not history["Main.new", "DINT"][1], "a new symbol has no samples, or a gap")
    see(runs[-1][2] == "stopped", f"the run ends as {runs}")
    return samples


def killed(folder, times=3):
    """SIGKILL at any moment: what is there is a first part, and the next run marks the gap."""
    path = os.path.join(folder, "k.db")
    with FakePlant({f"GVL.v{k}": KINDS[k % 4] for k in range(20)}) as plant:
        words = [sys.executable, os.path.join(TOOLS, "history.py"), "record", "GVL.*", "--to", plant.to, "--netid", NET, "--me", ME, "--sqlite", path,
                 "--mode", "cycle", "--cycle", "0"]
        for turn in range(times):
            it = subprocess.Popen(words, stdout=subprocess.DEVNULL, stderr=subprocess.PIPE)
            see(b"recording 20 names" in it.stderr.readline(), "the recorder does not begin")
            time.sleep(0.9 + 0.37 * (turn % 8))
            if turn == 1:
                refused(16, "another recorder", "history.py", *words[2:])
            it.send_signal(signal.SIGKILL if turn < times - 1 else signal.SIGTERM)
            see(it.wait(20) == (-9 if turn < times - 1 else 0), "the status of a recorder that is ended")
            it.stderr.close()
    history, runs = of_sqlite(path)
    samples, gaps = sound(history)
    see(samples > 20 and gaps % 20 == 0 and gaps, f"{samples} samples and {gaps} gaps")
    see([state for _, _, state in runs] == ["over"] * (times - 1) + ["stopped"], f"the runs: {runs}")
    see({hole[2] for _, holes in history.values() for hole in holes} == {"the recorder was killed"}, "why the gaps are there")
    return path, samples, gaps


def still(folder):
    """Values that do not change: the beat tells up to when that is known."""
    path = os.path.join(folder, "s.db")
    with FakePlant({"GVL.v": "DINT"}, still=True) as plant, Running(path, plant.to, ["GVL.v"], "change") as it:
        it.until(lambda: (it.recorder.until or 0) > 0 and it.recorder.told and it.recorder.session.streams[0].beat, "a beat")
        first = it.recorder.until
        it.until(lambda: it.recorder.until > first + 10 ** 9, "the next beat")
        plant.skew = 2 ** 62
        it.until(lambda: any("is not from 1970 to 2262" in line for line in it.said), "a moment that is no date")
        plant.skew = 0
        it.until(lambda: it.said[-1] == "recording 1 names", "the server again")
    history, runs = of_sqlite(path)
    rows = history["GVL.v", "DINT"][0]
    see(rows and runs[-1][0] >= rows[-1][0], f"{rows} {runs}")


def layouts():
    """A notification is read whole only where it has the names, sizes and stamps of the layout."""
    class Known:
        size, plain = 4, "DINT"
    class Item:
        known, own = Known, 7
    def given(numbers, stamps=1, size=4):
        body = struct.pack("<IQI", stamps, 1000, len(numbers)) + b"".join(struct.pack("<III", number, size, 5) for number in numbers)
        return struct.pack("<I", len(body)) + body
    items = [type("Own", (Item,), {"number": number})() for number in (1, 2, 3)]
    layout = Layout(given((1, 2, 3)), [(item, bytes(4)) for item in items])
    see(layout.moment(given((1, 2, 3))) == 1000 and layout.columns(given((1, 2, 3))) == ((5, 5, 5), (b"\5\0\0\0",) * 3), "a notification of the layout")
    for other in (given((1, 3, 2)), given((1, 2, 4)), given((1, 2, 3), 2), given((1, 2, 3), 1, 5)):
        see(layout.moment(other) is None, f"a notification of another layout is taken for it: {other.hex()}")


def many_connections():
    """A server that grants fewer notifications than are asked for on a connection: the rest goes over others."""
    class Sink:
        frames, told = False, 0
        def begin(self, knowns): return [None] * len(knowns)
        def take(self, ns, pairs): self.told += len(pairs)
        def ended(self, item, why): pass
        def missing(self, words): see(not words, f"missing {words}")
        def refused(self, known, why): raise Wrong(f"{known.name}: {why}")
    with FakePlant({f"GVL.v{k}": "DINT" for k in range(90)}, most=41) as plant:
        session = Session((plant.to, NET, ME, 5), 851, ["*"], "cycle", 0, Sink()).open()
        see(len(session.items) == 90 and len(session.streams) >= 3 and all(item.number for item in session.items.values()), "90 names over connections of 40")
        session.close()


def kept(path):
    """What is older than a moment goes, a few rows at a time, and nothing else."""
    before, _ = of_sqlite(path)
    moment = sorted(ns for rows, _ in before.values() for ns, _, _ in rows)[sum(len(rows) for rows, _ in before.values()) // 2]
    store = SqliteStore(path)
    store.start(NET, 851, [])
    history_store.AT_ONCE, turns = 7, 1
    while store.keep(moment):
        turns += 1
    history_store.AT_ONCE = 20000
    twice, = store.symbols(NET, 851, [("twice", "DINT", 4)])
    for number, value in ((1, 5), (2, 6), (2, 7)):
        store.unsure = number == 2
        store.write(history_store.Batch(number, [(twice, moment, value, bytes(4)), (twice, moment, value, bytes(4))], [], moment))
    after, _ = of_sqlite(path)
    came = [value for _, value, _ in after["twice", "DINT"][0]]
    see(came == [5, 5, 6, 6], f"samples of one moment, and a batch whose end was not heard, come to {came}")
    for key, (rows, _) in before.items():
        see(after[key][0] == [row for row in rows if row[0] >= moment], f"{key}: other samples are left than those from {moment} on")
    left = [hole for _, holes in after.values() for hole in holes if hole[1] is not None and hole[1] < moment]
    see(turns > 10 and not left, f"{turns} turns; gaps that ended before are left: {left}")


def comes_out(folder, path):
    """Export, gaps and pictures."""
    out, _, status = tool("history.py", "export", "gvl.V3", "GVL.v?", "--sqlite", path)
    lines = out.splitlines()
    history, _ = of_sqlite(path)
    see(status == 0 and lines[0] == "time,name,type,value,bytes,unix_ns" and lines[1].split(",")[1:3] == ["GVL.v3", KINDS[3]], f"export: {lines[:2]}")
    see(len(lines) == 1 + sum(len(rows) for (name, _), (rows, _) in history.items() if len(name) == 6), "export has another number of lines")
    ns, value, data = history["GVL.v0", "DINT"][0][0]
    see(any(line.endswith(f",GVL.v0,DINT,{value},{data.hex()},{ns}") for line in lines), f"export has not the row {ns} {value}")
    out, _, _ = tool("history.py", "export", "GVL.v0", "--sqlite", path, "--format", "influx")
    see(out.splitlines()[0] == f"ads,name=GVL.v0,net={NET},port=851,type=DINT value={float(value)!r} {ns}", f"influx: {out[:200]}")
    out, _, _ = tool("history.py", "export", "GVL.v0", "--sqlite", path, "--gaps")
    see(len(out.splitlines()) == 1 + len(history["GVL.v0", "DINT"][1]) and "the recorder was killed" in out, f"gaps: {out}")
    picture = os.path.join(folder, "p.svg")
    out, err, status = tool("history.py", "plot", "GVL.v0", "GVL.v1", "--sqlite", path, "--out", picture)
    with open(picture, encoding="utf-8") as file:
        text = file.read()
    see(status == 0 and text.startswith("<svg") and text.endswith("</svg>\n"), f"plot: {err}{text[:200]}")
    see(text.count('class="gap"') == 2 * len(history["GVL.v0", "DINT"][1]) and text.count('class="name"') == 2, f"the gaps of a picture: {text[:900]}")
    see(sorted(os.listdir(folder)) == sorted(set(os.listdir(folder)) - {it for it in os.listdir(folder) if it.startswith(".p.svg")}), "a file is left beside")
    refused(2, "has no symbol Nothing", "history.py", "export", "Nothing", "--sqlite", path)
    refused(1, "is a moment", "history.py", "export", "GVL.v0", "--sqlite", path, "--from", "yesterday")
    refused(2, "to draw in that time", "history.py", "plot", "GVL.v0", "--sqlite", path, "--to", "2001-01-01")
    refused(4, "No such file", "history.py", "plot", "GVL.v0", "--sqlite", path, "--out", os.path.join(folder, "not", "there.svg"))


def taken_in(program, folder):
    """A recording of the program, taken in once and once only."""
    path, store = os.path.join(folder, "i.db"), os.path.join(folder, "r.db")
    with Served(program, PLANT) as server:
        run_program(program, "record", "Main.title", "Main.wave", "--mode", "change", "--cycle", "0", "--count", "9", "--store", store, *server.words())
    for taken, there in ((9, 0), (0, 9)):
        out, err, status = tool("history.py", "import", store, "--sqlite", path, "--netid", NET, "--description", PLANT)
        see((out, status) == (f"took {taken} samples of 2 names; {there} were there\n", 0), f"import: {out}{err}")
    history, _ = of_sqlite(path)
    see([value for _, value, _ in history["Main.title", "STRING(7)"][0]] == ["Mix"] and len(history["Main.wave", "UINT"][0]) == 8, f"imported: {history}")
    local = os.path.join(folder, "l.db")
    run_program(program, "record", "Main.wave", "--mode", "change", "--cycle", "0", "--count", "3", "--store", local, "--local", PLANT, "--me", ME)
    refused(2, "recorded with --local", "history.py", "import", local, "--sqlite", path, "--netid", NET)
    refused(2, "is no recording", "history.py", "import", PLANT, "--sqlite", path, "--netid", NET)


def no_history(folder):
    """Wrong words, files that are none, and peers that lie: one sentence each, and the recorder goes on behind a lie."""
    where = ("--to", "127.0.0.1:1", "--me", ME)
    refused(1, "record", "history.py", "recall", "x")
    refused(1, "NAME", "history.py", "record", *where, "--sqlite", os.path.join(folder, "x.db"))
    refused(1, "one of --sqlite FILE and --postgres URL", "history.py", "record", "x", *where)
    refused(1, "--mode is change or cycle", "history.py", "record", "x", *where, "--sqlite", os.path.join(folder, "x.db"), "--mode", "often")
    refused(16, "not a database", "history.py", "record", "x", *where, "--sqlite", PLANT)
    refused(16, "unable to open", "history.py", "record", "x", *where, "--sqlite", os.path.join(folder, "not", "there.db"))
    refused(16, "is no history", "history.py", "export", "x", "--sqlite", PLANT)
    refused(4, "No such file", "history.py", "export", "x", "--sqlite", os.path.join(folder, "none.db"))
    see(not os.path.exists(os.path.join(folder, "none.db")), "export makes a file")
    without = ("import sys, runpy; sys.modules['psycopg2'] = sys.modules['psycopg'] = None; sys.argv = ['history.py', 'export', 'x', '--postgres', "
               f"'postgresql://u:secret@h/d']; runpy.run_path({os.path.join(TOOLS, 'history.py')!r}, run_name='__main__')")
    out = subprocess.run([sys.executable, "-c", without], capture_output=True, text=True, timeout=60)
    see(out.returncode == 4 and "python3-psycopg" in out.stderr and len(out.stderr.splitlines()) == 1, f"without a driver: {out.stderr}")
    for answer, part in ((lambda frame: b"\1\0\0\0\0\0", "does not speak ADS"), (lambda frame: None, "one of its routes"),
                         (told({0xF008: b"\1", 0xF00F: b"\xff" * 24}), "more than"), (told({0xF008: b"\1\2"}), "were asked for")):
        with Fake(answer) as liar, Running(os.path.join(folder, f"{part}.db"), liar.to, ["*"]) as it:
            it.until(lambda: any(part in line for line in it.said), part)
    return "ok"


def hostile():
    """Beside one another, since most of it waits."""
    with tempfile.TemporaryDirectory() as folder, FakePlant({f"GVL.v{k}": KINDS[k % 4] for k in range(20)}) as plant, \
            concurrent.futures.ThreadPoolExecutor(4) as pool:
        asked = [pool.submit(it, plant, folder) for it in (history_hostile.no_room, history_hostile.taken_away, history_hostile.tables_gone)]
        with tempfile.TemporaryDirectory() as own:
            history_hostile.none(own)
        for it in asked:
            it.result()


def tried(program, _size):
    with tempfile.TemporaryDirectory() as folder:
        samples = comes_and_goes(folder)
        path = killed(folder)[0]
        still(folder)
        layouts()
        many_connections()
        comes_out(folder, path)
        kept(path)
        taken_in(program, folder)
        no_history(folder)
    hostile()
    return f"{samples} samples of 120 names over a server that went, came and was described anew, each once; killed, exported, drawn and taken in; files that go, are full, or another's"
