"""Points of a value from a history of tools/history.py, which is only read: all of a short time, of a long one the
least and the greatest of each part.
"""
import contextlib
import math
import threading

from lib.history_sqlite import SqliteStore
from lib.words import Ended

# Points that are told one by one; parts of a longer time; histories that are read at once.
MOST_POINTS, PARTS, AT_ONCE = 6000, 1000, 2
BETWEEN = "FROM sample WHERE symbol = ? AND unix_ns >= ? AND unix_ns < ?"


def store_of(where):
    if where.startswith(("postgresql://", "postgres://")):
        from lib.history_postgres import PostgresStore

        return PostgresStore(where)
    return SqliteStore(where)


class History:
    def __init__(self, where):
        self.where, self.places = where, threading.Semaphore(AT_ONCE)
        with self.opened() as (store, cursor):
            for columns in (
                "id, net, port, name FROM symbol",
                "symbol, unix_ns, value FROM sample",
                "symbol, from_ns, to_ns FROM gap",
            ):
                cursor.execute(f"SELECT {columns} LIMIT 0")

    @contextlib.contextmanager
    def opened(self):
        store = store_of(self.where)
        try:
            store.connect(readonly=True)
            yield store, store.base.cursor()
        except store.faults as fault:
            raise Ended(f"--history: the history can't be read: {' '.join(str(fault).split())[:200]}", 4) from None
        finally:
            store.leave()

    def points(self, net, port, name, since, until):
        """The moments in milliseconds and the numbers of a value, None from where nothing is known on."""
        with self.places, self.opened() as (store, cursor):

            def asked(text, *given):
                cursor.execute(store.q(text), given)
                return cursor.fetchall()

            named = "SELECT max(id) FROM symbol WHERE net = ? AND port = ? AND lower(name) = lower(?)"
            symbol = asked(named, net, port, name)[0][0]
            rows = [] if symbol is None else rows_of(asked, symbol, 1000000 * since, 1000000 * until)
        return [ns // 1000000 for ns, _ in rows], [value for _, value in rows]


def rows_of(asked, symbol, first, last):
    """The moments and numbers of a symbol in their order, with the one before them and the beginnings of gaps."""
    latest = "SELECT unix_ns, value FROM sample WHERE symbol = ? AND unix_ns < ? ORDER BY unix_ns DESC LIMIT 1"
    before = asked(latest, symbol, first)
    rows = asked(f"SELECT unix_ns, value {BETWEEN} ORDER BY unix_ns LIMIT {MOST_POINTS + 1}", symbol, first, last)
    if len(rows) > MOST_POINTS:
        part = max(1, (last - first) // PARTS)
        ends = "SELECT min(unix_ns), min(value), max(unix_ns), max(value)"
        thin = asked(f"{ends} {BETWEEN} GROUP BY unix_ns / {part} ORDER BY 1", symbol, first, last)
        rows = [row for begin, least, end, most in thin for row in ((begin, least), (end, most))]
    gap = "SELECT from_ns FROM gap WHERE symbol = ? AND from_ns < ? AND (to_ns IS NULL OR to_ns > ?)"
    gaps = [(ns, None) for ns, in asked(gap, symbol, last, first)]
    return sorted([(ns, number(value)) for ns, value in before + rows] + gaps, key=lambda row: row[0])


def number(value):
    """A number of a row; None for what is none."""
    is_number = isinstance(value, (int, float)) and math.isfinite(value)
    return value if is_number else None


def joined(old, own):
    """Points of a history, and behind them those that the page has itself."""
    if not own[0]:
        return old
    count = next((at for at, moment in enumerate(old[0]) if moment >= own[0][0]), len(old[0]))
    return old[0][:count] + own[0], old[1][:count] + own[1]
