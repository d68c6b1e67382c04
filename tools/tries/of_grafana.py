"""examples/grafana-plant.json: its statements over a made history, with the answers worked out by hand; and the points
of the page over the same history in SQLite.
"""
import contextlib
import json
import os
import sqlite3
import tempfile

from lib.history_postgres import TABLES
from lib.history_sqlite import TABLES as SQLITE_TABLES
from lib.page_history import History
from tries.postgres import Postgres, programs
from tries.running import EXAMPLES, see

BILLION, START = 1000000000, 1700000000
# Names with their types, their samples and their gaps, in seconds from the start of the window of a minute.
NAMES = {
    "Main.level": ("REAL", [(-100, 10), (12, 20), (14, 0), (40, 5)], [(30, 40)]),
    "Main.still": ("INT", [(-1000, 7)], []),
    "Main.late": ("DINT", [(25, 4)], []),
    "Main.old": ("DINT", [(-50, 1), (-20, 3)], [(-40, -20)]),
    "Main.gone": ("LREAL", [(-30, 9)], [(-5, None)]),
    "Main.fast": ("UINT", [(at / 10, at % 2) for at in range(-1, 600)], []),
    "Main.mode": ("Mode", [(-9, 2), (10, 5), (20, 2)], [(33, 41), (50, None)]),
    "Main.door": ("BOOL", [(5, 1), (6, 0)], []),
    "Main.title": ("STRING(7)", [(5, None)], []),
}
# The means of each ten seconds, None where nothing is known, and nothing where there is no row.
MEANS = {
    "Main.level": {0: 10, 10: (2 * 10 + 2 * 20) / 10, 20: 0, 30: None, 40: 5, 50: 5},
    "Main.still": dict.fromkeys(range(0, 60, 10), 7),
    "Main.late": {20: 4, 30: 4, 40: 4, 50: 4},
    "Main.old": dict.fromkeys(range(0, 60, 10), 3),
    "Main.gone": dict.fromkeys(range(0, 60, 10)),
    "Main.fast": dict.fromkeys(range(0, 60, 10), 0.5),
}
STATES = {"Main.mode": [(0, 2), (10, 5), (20, 2), (33, None), (50, None)], "Main.door": [(5, 1), (6, 0)]}
WORDS = {
    "${name:sqlstring}": ",".join(f"'{name}'" for name in NAMES),
    "$__interval_ms": "10000",
    "$__unixEpochNanoFrom()": str(START * BILLION),
    "$__unixEpochNanoTo()": str((START + 60) * BILLION),
}


def at(seconds):
    return "NULL" if seconds is None else str(START * BILLION + round(seconds * BILLION))


def made(is_postgres):
    """The statements that make the history."""
    found = [f"INSERT INTO run VALUES (1, 'n', 851, '[]', 0, {at(60)}, 1, 'running')"]
    for number, (name, (kind, samples, gaps)) in enumerate(NAMES.items(), 1):
        found.append(f"INSERT INTO symbol VALUES ({number}, '5.1.2.3.1.1', 851, '{name}', '{kind}', 4, 1)")
        blob = "'\\x00', " if is_postgres else "x'00', 0"
        text = "NULL, " if is_postgres else ""
        rows = ", ".join(
            f"({number}, {at(ns)}, {'NULL' if value is None else value}, {text}{blob.rstrip(', ')})"
            for ns, value in samples
        )
        found.append(f"INSERT INTO sample VALUES {rows}")
        found += [f"INSERT INTO gap VALUES ({number}, {at(first)}, {at(last)}, 'why')" for first, last in gaps]
    return found


def dashboard():
    with open(os.path.join(EXAMPLES, "grafana-plant.json"), encoding="utf-8") as file:
        it = json.load(file)
    found = {panel["title"].split(":")[0]: panel["targets"][0]["rawSql"] for panel in it["panels"]}
    for name, statement in found.items():
        for word, text in WORDS.items():
            statement = statement.replace(word, text)
        see("$" not in statement, f"a word of Grafana that is not known here: {statement}")
        found[name] = statement
    return found


def answered(base, statement, user="plant"):
    """The rows of a statement by their names: seconds from the start, and numbers."""
    found = {}
    wrapped = f"SELECT extract(epoch FROM time) - {START}, metric, value FROM ({statement}) it"
    for seconds, name, value in base.rows(wrapped, user):
        found.setdefault(name, []).append((float(seconds), float(value) if value else None))
    return found


def near(found, wanted):
    return sorted(found) == sorted(wanted) and all(
        (found[key] is None) == (wanted[key] is None) and abs((found[key] or 0) - (wanted[key] or 0)) < 1e-6
        for key in wanted
    )


def answers(base, asked, user="plant"):
    found = answered(base, asked["Numbers"], user)
    see(set(found) == set(MEANS), f"the names of the numbers: {sorted(found)}")
    for name, wanted in MEANS.items():
        see(near(dict(found[name]), wanted), f"the means of {name}: {found[name]} in place of {wanted}")
    found = answered(base, asked["States"], user)
    see(found == STATES, f"the states: {found} in place of {STATES}")


def in_postgres(tools):
    asked = dashboard()
    with Postgres(tools) as base:
        base.rows(TABLES)
        for statement in made(True):
            base.rows(statement)
        answers(base, asked)
        see(len(base.rows(asked["Newest value of each name"])) == len(NAMES), "the newest values")
        see(len(base.rows(asked["Gaps"])) == 5 - 1, "the gaps of the window")
        base.rows(
            "CREATE ROLE grafana LOGIN; GRANT SELECT ON symbol, sample, gap, run, history TO grafana"
        )
        answers(base, asked, "grafana")
        # a recorder that was killed, and nobody has noted it yet: behind what it knew nothing is known
        base.rows(f"UPDATE run SET until_ns = {at(44)}")
        found = dict(answered(base, asked["Numbers"])["Main.still"])
        see(near(found, {0: 7, 10: 7, 20: 7, 30: 7, 40: 7, 50: None}), f"behind a recorder that was killed: {found}")
        base.rows(f"UPDATE run SET until_ns = {at(-20)}")
        found = dict(answered(base, asked["Numbers"])["Main.still"])
        see(near(found, dict.fromkeys(range(0, 60, 10))), f"before the window it was killed: {found}")


def in_sqlite():
    """What the page draws: the value before the window first, and None from where nothing is known on."""
    with tempfile.TemporaryDirectory() as folder:
        file = os.path.join(folder, "h.db")
        with contextlib.closing(sqlite3.connect(file)) as base:
            base.executescript(SQLITE_TABLES)
            for statement in made(False):
                base.execute(statement)
            base.commit()
        history = History(file)
        first, last = 1000 * START, 1000 * (START + 60)
        for name, wanted in (
            ("Main.level", [(-100, 10), (12, 20), (14, 0), (30, None), (40, 5)]),
            ("Main.still", [(-1000, 7)]),
            ("Main.old", [(-20, 3)]),
            ("Main.gone", [(-30, 9), (-5, None)]),
            ("main.mode", [(-9, 2), (10, 5), (20, 2), (33, None), (50, None)]),
        ):
            times, values = history.points("5.1.2.3.1.1", 851, name, first, last)
            found = [((time - first) / 1000, value) for time, value in zip(times, values)]
            see(found == wanted, f"the points of {name}: {found} in place of {wanted}")


def tried(program, size):
    dashboard()
    in_sqlite()
    tools = programs()
    if tools is None:
        return "the points of a page in SQLite; PostgreSQL is not there, so the statements of Grafana were only read"
    in_postgres(tools)
    said = f"{len(MEANS)} names by their means and {len(STATES)} by their states in PostgreSQL"
    return f"{said}, and a page's points in SQLite"
