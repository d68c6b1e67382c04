#!/usr/bin/env python3
"""tools/history.py and tools/mqtt.py against SQLite, PostgreSQL and mosquitto: killed, stopped and started again at
random moments, and how fast they are.

    /usr/bin/python3 tries/outlets.py [PROGRAM] [--times 24] [--seconds 10] [--seed 1] [--only SCENE] [--driver psycopg]

PROGRAM is crates/ads/out/ads. tries/services.sh starts what is needed, from Debian's packages, whose Python parts serve
/usr/bin/python3. The server is mostly one in this process whose symbols count its ticks (tools/tries/fake_plant.py), so
that each sample that is lost, or there twice, is seen in the values. `--times` is how often something is killed, or
stopped, in each scene. A line a scene, `ok` or what differed; status 1 where one did.
"""
import argparse
import contextlib
import csv
import json
import os
import pathlib
import random
import resource
import shutil
import signal
import sqlite3
import subprocess
import sys
import tempfile
import time

ROOT = pathlib.Path(__file__).resolve().parent.parent
sys.dont_write_bytecode = True
sys.path.insert(1, f"{sys.path[0]}/../tools")
from lib.history_postgres import driver  # noqa: E402
from tries.fake_plant import FakePlant  # noqa: E402
from tries.history_checks import of_cursor, of_sqlite, sound  # noqa: E402
from tries.running import ME, NET, PLANT, Served, Wrong, see  # noqa: E402
from under_test import ADS, FOREVER  # noqa: E402

SERVICES, KINDS = str(ROOT / "tries/services.sh"), ("DINT", "LREAL", "UDINT", "REAL")
HOSTILE = ["a'b", 'a"b', "a;DROP TABLE sample;--", "a\\b", "a\tb", "a b", "a,b=c", "a/b/+/#", "$SYS", "%s%(x)s{}",
           "=cmd", "-o", "\xfc\xff\x80", "\\x41", "..",
           "a\nb", "N" * 250]


def words(plant, *names, mode="cycle", cycle="0"):
    return [*names, "--to", plant.to, "--netid", NET, "--me", ME, "--mode", mode, "--cycle", cycle]


def recorder(plant, where, *more, names=("GVL.*",)):
    """A recorder; with `Store.driver` over this driver alone."""
    other = {"psycopg": "psycopg2", "psycopg2": "psycopg"}.get(Store.driver)
    tool = ["-c", f"import sys, runpy; sys.modules[{other!r}] = None; "
            f"runpy.run_path({str(ROOT / 'tools/history.py')!r}, run_name='__main__')"]
    return subprocess.Popen([sys.executable, *(tool if other else [str(ROOT / "tools/history.py")]), "record",
                             *words(plant, *names), *where, *more],
                            stdout=subprocess.PIPE, stderr=subprocess.PIPE, text=True,
                            env={**os.environ, "PYTHONFAULTHANDLER": "1"})


def begun(it):
    """Waits until a recorder says that it records."""
    line = it.stderr.readline()
    while line and not line.startswith("recording "):
        line = it.stderr.readline()
    see(line, "the recorder ended before it began")


def ended(it, what, seconds=120):
    """Ends a recorder in peace; gives what it printed and said."""
    it.send_signal(signal.SIGTERM)
    try:
        out, err = it.communicate(timeout=seconds)
    except subprocess.TimeoutExpired:
        it.send_signal(signal.SIGABRT)
        raise Wrong(f"{what} did not end in {seconds} s: {it.communicate()[1][-3000:]}") from None
    see(it.returncode == 0 and "Traceback" not in err, f"{what}: status {it.returncode}: {err[-500:]}")
    return out, err


def service(what, folder, *names):
    done = subprocess.run([SERVICES, what, str(folder), *names], stdout=subprocess.PIPE, text=True, timeout=120)
    see(done.returncode == 0, f"services.sh {what} {' '.join(names)}: {done.returncode}")
    return dict(line.split(" ", 1) for line in done.stdout.splitlines())


class Store:
    """Where a recorder writes to, and what is there then."""
    driver = None

    def __init__(self, folder, url):
        self.folder, self.url, self.count = folder, url, 0

    def fresh(self):
        """The words that name an empty store."""
        self.count += 1
        if not self.url:
            self.path = self.folder / f"history{self.count}.db"
            return "--sqlite", str(self.path)
        self.ask("DROP VIEW IF EXISTS history", "DROP TABLE IF EXISTS sample, symbol, gap, run")
        return "--postgres", self.url

    def connected(self):
        return driver().connect(self.url)

    def ask(self, *statements):
        with contextlib.closing(self.connected()) as base:
            for statement in statements:
                base.cursor().execute(statement)
            base.commit()

    def read(self):
        if self.url:
            with contextlib.closing(self.connected()) as base:
                return of_cursor(base.cursor(), "coalesce(value, 0)", None)
        with contextlib.closing(sqlite3.connect(self.path)) as base:
            see(base.execute("PRAGMA integrity_check").fetchone() == ("ok",), "the file is not whole")
        return of_sqlite(str(self.path))


def plant_of(count):
    return FakePlant({f"GVL.v{k}": KINDS[k % 4] for k in range(count)})


def killed(store, r, times):
    """The recorder is killed at random moments, half of them behind its beginning, with the server going on."""
    where, whys = store.fresh(), {}
    with plant_of(100) as plant:
        for turn in range(times):
            it = recorder(plant, where)
            if turn % 2:
                begun(it)
            time.sleep(r.uniform(0.3, 2.5))
            it.kill()
            it.communicate()
        it = recorder(plant, where)
        begun(it)
        time.sleep(2)
        ended(it, "the last recorder")
    history, runs = store.read()
    samples, gaps = sound(history)
    for _, holes in history.values():
        for _, _, why in holes:
            whys[why] = whys.get(why, 0) + 1
    see(samples and set(whys) <= {"the recorder was killed"} and runs[-1][2] == "stopped",
        f"{samples} samples, gaps {whys}, runs {runs[-1:]}")
    return f"ok: {times} kills, {samples} samples of {len(history)} names, each once, {gaps} gaps marked"


def base_goes(store, r, times, folder):
    """PostgreSQL is stopped, or killed, and started again; the recorder goes on, and loses nothing."""
    where = store.fresh()
    with plant_of(20) as plant:
        it = recorder(plant, where)
        begun(it)
        for turn in range(times):
            if turn % 2:
                pid = int((folder / "postgres/postmaster.pid").read_text().split()[0])
                os.kill(pid, signal.SIGQUIT)
                until = time.monotonic() + 20
                while (folder / "postgres/postmaster.pid").exists() and time.monotonic() < until:
                    time.sleep(0.05)
            else:
                service("stop", folder, "postgres")
            time.sleep(r.uniform(0, 1.0))
            service("again", folder, "postgres")
            time.sleep(r.uniform(0.3, 3))
        time.sleep(2)
        _, err = ended(it, "the recorder")
    samples, gaps = sound(store.read()[0])
    see("takes samples again" in err and not gaps, f"{gaps} gaps where nothing was lost; it said {err[-600:]}")
    return (f"ok: stopped {times - times // 2} times and ended at once {times // 2} times, {samples} samples, each "
            f"once, no gap")


def base_stays_away(store, folder):
    """PostgreSQL stays away until no more samples are held: that is a gap, and the recorder goes on behind it."""
    where = store.fresh()
    with plant_of(100) as plant:
        it = recorder(plant, where, "--hold", "20000")
        begun(it)
        time.sleep(1)
        service("stop", folder, "postgres")
        time.sleep(4)
        service("again", folder, "postgres")
        time.sleep(4)
        _, err = ended(it, "the recorder")
    samples, gaps = sound(store.read()[0])
    see("more than 20000 samples wait" in err and gaps == 100, f"{gaps} gaps; it said {err[-600:]}")
    return f"ok: {samples} samples, a gap for each of 100 names"


def server_goes(store, r, times):
    """The server goes and comes, and has another description now and then."""
    where, names = store.fresh(), {f"GVL.v{k}": KINDS[k % 4] for k in range(50)}
    with FakePlant(names) as plant:
        it = recorder(plant, where)
        begun(it)
        for turn in range(times):
            time.sleep(r.uniform(0.5, 2.5))
            if turn % 3:
                plant.go()
                time.sleep(r.uniform(0, 0.5))
                plant.come()
            else:
                plant.describe({**names, f"GVL.n{turn}": "DINT", "GVL.v1": "DINT" if turn % 2 else "LREAL"})
        time.sleep(3)
        ended(it, "the recorder")
    history, _ = store.read()
    samples, gaps = sound(history)
    see(gaps > times, f"{gaps} gaps")
    return f"ok: {times} losses and new descriptions, {samples} samples of {len(history)} series, {gaps} gaps marked"


def hostile(store, folder):
    """Names that a shell, a spreadsheet, a statement or a topic would stumble over."""
    where = store.fresh()
    with FakePlant({name: "DINT" for name in [*HOSTILE, "L" * 3000]}) as plant:
        it = recorder(plant, where, names=("*",))
        see("more than 1000 characters" in it.stderr.readline(), "nothing is said of a name of 3,000 letters")
        begun(it)
        time.sleep(2)
        ended(it, "the recorder")
    history, _ = store.read()
    sound(history)
    see(len(history) == len(HOSTILE) and all(rows for rows, _ in history.values()),
        f"{len(history)} names of {len(HOSTILE)}: {sorted(history)}")
    for kind in ("csv", "influx"):
        words_of = [sys.executable, str(ROOT / "tools/history.py"), "export", "*", *where, "--format", kind]
        done = subprocess.run(words_of, capture_output=True, text=True, timeout=120)
        see(done.returncode == 0 and not done.stderr, f"export as {kind}: {done.stderr}")
        rows = list(csv.reader(done.stdout.splitlines()))[1:] if kind == "csv" else done.stdout.splitlines()
        see(len(rows) == sum(len(own) for own, _ in history.values()), f"{len(rows)} lines of {kind}")
    return f"ok: {len(HOSTILE)} names"


def published(folder, r, times, at):
    """mosquitto is stopped and started, and so is the server; each time all values stand on it again, and a set is
    written. Its own clients look."""
    port = at["mosquitto"].rpartition(":")[2]
    def ask(*more): return subprocess.run(["mosquitto_sub", "-p", port, "-W", "3", *more], capture_output=True,
                                          text=True).stdout
    def newest(topic): return json.loads(ask("-t", topic, "-C", "1").strip() or "{}")
    with FakePlant({**{f"GVL.v{k}": "DINT" for k in range(50)}, **{name: "DINT" for name in HOSTILE}},
                   still=True) as plant:
        it = subprocess.Popen([sys.executable, str(ROOT / "tools/mqtt.py"), "*", "--to", plant.to, "--netid", NET,
                               "--me", ME, "--broker", f"127.0.0.1:{port}",
                               "--plant", "rig", "--set", "--cycle", "0"], stdout=subprocess.PIPE,
                               stderr=subprocess.PIPE, text=True)
        try:
            for turn in range(times):
                time.sleep(r.uniform(0.3, 1.0))
                if turn % 2:
                    service("stop", folder, "mosquitto")
                    service("again", folder, "mosquitto")
                else:
                    plant.go()
                    time.sleep(r.uniform(0, 0.5))
                    plant.come()
                waited(lambda: newest("rig/851").get("state") == "online", "online again")
                subprocess.run(["mosquitto_pub", "-p", port, "-t", "rig/851/GVL.v7/set", "-m", str(turn)], check=True)
                waited(lambda: newest("rig/851/GVL.v7").get("value") == turn, f"the value {turn} that was set")
            topics = ask("-t", "rig/851/+", "-F", "%t").split("\n")[:-1]
            see(len(topics) == 50 + len(HOSTILE), f"{len(topics)} topics of values: {topics}")
        finally:
            it.kill()
            it.communicate()
        waited(lambda: newest("rig/851").get("state") == "offline", "the last will")
    return f"ok: {times} losses of the broker or the server, {len(topics)} names, sets written, and the last will"


def dashboard(store):
    """The statements of examples/grafana-plant.json, with what Grafana puts in place of its words, over a history with
    a gap."""
    where, found = store.fresh(), {}
    with FakePlant({"GVL.v1": "DINT", "GVL.v'2": "LREAL", "GVL.on": "BOOL"}) as plant:
        for _ in range(2):
            it = recorder(plant, where)
            begun(it)
            time.sleep(2)
            ended(it, "the recorder")
    now = time.time_ns()
    said = {"${name:sqlstring}": "'GVL.v1','GVL.v''2','GVL.on'", "$__interval_ms": "5000",
            "$__unixEpochNanoFilter(s.unix_ns)": f"s.unix_ns >= {now - 10 ** 12} AND s.unix_ns <= {now}",
            "$__unixEpochNanoFrom()": str(now - 10 ** 12), "$__unixEpochNanoTo()": str(now)}
    given = json.loads((ROOT / "examples/grafana-plant.json").read_text())
    asked = {it["title"]: it["targets"][0]["rawSql"] for it in given["panels"]}
    asked.update({it["name"]: it["target"]["rawSql"] for it in given["annotations"]["list"]},
                 names=given["templating"]["list"][0]["query"])
    with contextlib.closing(store.connected()) as base:
        for name, statement in asked.items():
            for word, text in said.items():
                statement = statement.replace(word, text)
            cursor = base.cursor()
            cursor.execute(statement)
            found[name] = len(cursor.fetchall())
    see(all(found.values()) and found["names"] == found["Gaps"] == 3, f"the rows of each: {found}")
    return f"ok: {len(found)} statements, rows {list(found.values())}"


def waited(holds, what, seconds=30):
    until = time.monotonic() + seconds
    while not holds():
        see(time.monotonic() < until, f"{what}: not within {seconds} s")
        time.sleep(0.1)


def real(program, store, folder):
    """The program itself: recorded, described anew with a value kept, away and back."""
    place = folder / "plant.toml"
    shutil.copy(PLANT, place)
    with Served(program, str(place)) as server:
        class At:
            to = server.to
        it = recorder(At, store.fresh(), names=("Main.*", "Main.axis[2].pos"))
        begun(it)
        time.sleep(3)
        text = place.read_text().replace('name = "Main.limit"',
                                         'name = "Main.other"').replace("offset = 0\ninitial", "offset = 100\ninitial")
        (folder / "new.toml").write_text(text)
        os.replace(folder / "new.toml", place)
        time.sleep(6)
    time.sleep(1)
    again = subprocess.Popen([program, "serve", str(place), "--listen", server.to, "--events", FOREVER],
                             stdout=subprocess.DEVNULL)
    time.sleep(6)
    ended(it, "the recorder")
    again.kill()
    history, _ = store.read()
    gaps = {name: [hole[2] for hole in holes] for (name, _), (_, holes) in history.items()}
    see(set(gaps) == {"Main.count", "Main.axis", "Main.limit", "Main.wave", "Main.title", "Main.other",
                      "Main.axis[2].pos"}, f"the names: {gaps}")
    see(len(gaps["Main.count"]) == 1 and len(gaps["Main.limit"]) == 1 and "description" in gaps["Main.limit"][0],
        f"the gaps: {gaps}")
    cycle = len(history["Main.wave", "UINT"][0])
    see(cycle > 20, f"{cycle} samples of Main.wave")
    return (f"ok: {sum(len(rows) for rows, _ in history.values())} samples, one gap of the loss, one of the symbol "
            f"that is gone")


def used(pid):
    """The seconds of a processor that a process has used."""
    words_of = pathlib.Path(f"/proc/{pid}/stat").read_text().rpartition(")")[2].split()
    return (int(words_of[11]) + int(words_of[12])) / os.sysconf("SC_CLK_TCK")


def rate(store, count, seconds):
    """So many names, a hundred samples of each a second."""
    with plant_of(count) as plant:
        it = recorder(plant, store.fresh())
        begun(it)
        before, start, own = resource.getrusage(resource.RUSAGE_CHILDREN), time.monotonic(), used(it.pid)
        time.sleep(seconds)
        ended(it, "the recorder", 600)
        lasted, after = time.monotonic() - start, resource.getrusage(resource.RUSAGE_CHILDREN)
    spent = after.ru_utime + after.ru_stime - before.ru_utime - before.ru_stime - own
    samples, gaps = sound(store.read()[0])
    size = store.path.stat().st_size if not store.url else 0
    return (f"{count * 100:,} samples a second sent: {samples:,} recorded and written in {lasted:.1f} s, {gaps} gaps, "
            f"{1e6 * spent / max(samples, 1):.1f} microseconds of the processor each"
            + (f", {size / max(samples, 1):.0f} bytes each" if size else ""))


def scenes(given, program, folder, at, r):
    sqlite, times = Store(folder, None), given.times
    yield "SQLite, killed", lambda: killed(sqlite, r, times)
    yield "SQLite, the server goes", lambda: server_goes(sqlite, r, times)
    yield "SQLite, hostile names", lambda: hostile(sqlite, folder)
    yield "SQLite, the program", lambda: real(program, sqlite, folder)
    if "postgres" in at:
        postgres = Store(folder, at["postgres"])
        yield "PostgreSQL, killed", lambda: killed(postgres, r, times)
        yield "PostgreSQL goes", lambda: base_goes(postgres, r, times, folder)
        yield "PostgreSQL stays away", lambda: base_stays_away(postgres, folder)
        yield "PostgreSQL, hostile names", lambda: hostile(postgres, folder)
        yield "Grafana's statements", lambda: dashboard(postgres)
    if "mosquitto" in at:
        yield "MQTT", lambda: published(folder, r, times, at)
    for count in (100, 500, 1000):
        yield f"SQLite, rate of {count}", lambda count=count: rate(sqlite, count, given.seconds)
    for count in (100, 500) if "postgres" in at else ():
        yield f"PostgreSQL, rate of {count}", lambda count=count: rate(postgres, count, given.seconds)


def main():
    given = argparse.ArgumentParser(description=__doc__, formatter_class=argparse.RawDescriptionHelpFormatter)
    given.add_argument("program", nargs="?", default=ADS)
    for name, value in (("--times", 24), ("--seconds", 10), ("--seed", 1)):
        given.add_argument(name, type=int, default=value)
    given.add_argument("--only", default="")
    given.add_argument("--driver", choices=("psycopg", "psycopg2"))
    given = given.parse_args()
    Store.driver = given.driver
    bad, r = False, random.Random(given.seed)
    signal.signal(signal.SIGTERM, lambda *_: sys.exit(143))
    with tempfile.TemporaryDirectory(prefix="outlets") as folder:
        folder = pathlib.Path(folder)
        try:
            at = service("start", folder)
            for name, scene in scenes(given, os.path.abspath(given.program), folder, at, r):
                if given.only not in name:
                    continue
                try:
                    print(f"{name}: {scene()}", flush=True)
                except (Wrong, OSError, subprocess.SubprocessError, sqlite3.Error) as why:
                    print(f"{name}: WRONG: {why}", flush=True)
                    bad = True
        finally:
            service("stop", folder)
    return 1 if bad else 0


if __name__ == "__main__":
    sys.exit(main())
