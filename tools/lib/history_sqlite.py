"""A history in an SQLite file.

The samples stand in the tree of their index, by symbol and moment, so that those of a name lie together. `again` counts those of one name and one moment.
"""
import contextlib
import fcntl
import operator
import os
import sqlite3

from lib.files import regular
from lib.history_store import BROKEN, Store, told
from lib.words import Ended

TABLES = """
CREATE TABLE IF NOT EXISTS symbol (id INTEGER PRIMARY KEY, net TEXT NOT NULL, port INTEGER NOT NULL, name TEXT NOT NULL, type TEXT NOT NULL,
                                   size INTEGER NOT NULL, run INTEGER, UNIQUE (net, port, name, type));
CREATE TABLE IF NOT EXISTS sample (symbol INTEGER NOT NULL, unix_ns INTEGER NOT NULL, value, bytes BLOB, again INTEGER NOT NULL DEFAULT 0,
                                   PRIMARY KEY (symbol, unix_ns, again)) WITHOUT ROWID;
CREATE TABLE IF NOT EXISTS gap (symbol INTEGER NOT NULL, from_ns INTEGER NOT NULL, to_ns INTEGER, why TEXT NOT NULL);
CREATE INDEX IF NOT EXISTS gap_of ON gap (symbol, from_ns);
CREATE TABLE IF NOT EXISTS run (id INTEGER PRIMARY KEY, net TEXT NOT NULL, port INTEGER NOT NULL, names TEXT NOT NULL, started_ns INTEGER NOT NULL,
                                until_ns INTEGER, batch INTEGER NOT NULL, state TEXT NOT NULL);
CREATE VIEW IF NOT EXISTS history AS SELECT strftime('%Y-%m-%d %H:%M:%S', unix_ns / 1000000000, 'unixepoch')
                                            || printf('.%07d', unix_ns / 100 % 10000000) AS time,
                                            name, type, value, bytes, unix_ns, symbol, net, port FROM sample JOIN symbol ON symbol.id = sample.symbol;
"""
COLUMNS = ("id, net, port, name, type, size, run FROM symbol", "symbol, unix_ns, value, bytes, again FROM sample", "symbol, from_ns, to_ns, why FROM gap",
           "id, net, port, names, started_ns, until_ns, batch, state FROM run", "time, name, type, value, bytes, unix_ns, symbol, net, port FROM history")
PASSING = ("locked", "busy", "full", "disk i/o error", "unable to open")


class SqliteStore(Store):
    faults, greatest = (sqlite3.Error, OSError), "max"

    def __init__(self, path):
        super().__init__(path)
        self.held = None

    @staticmethod
    def q(statement):
        return statement

    @staticmethod
    def is_away(fault):
        return isinstance(fault, OSError) or (isinstance(fault, sqlite3.OperationalError) and any(word in str(fault).lower() for word in PASSING))

    def connect(self, readonly=False):
        regular(self.where, BROKEN)
        if readonly:
            if not os.path.exists(self.where):
                raise Ended(f"{self.where}: No such file or directory", 4)
            self.base = sqlite3.connect(f"file:{escaped(self.where)}?mode=ro", uri=True, timeout=5)
            self.base.execute("BEGIN")
            return
        self.hold()
        self.base = sqlite3.connect(self.where, timeout=5, isolation_level=None, check_same_thread=False)
        mode = self.base.execute("PRAGMA journal_mode = WAL").fetchone()[0]
        if mode != "wal":
            raise Ended(f"{self.where}: this place takes no write-ahead log, so nobody could read while it is written", BROKEN)
        for setting in ("synchronous = FULL", "cache_size = -65536", "wal_autocheckpoint = 8000"):
            self.base.execute(f"PRAGMA {setting}")

    @staticmethod
    def begin(cursor):
        cursor.execute("BEGIN IMMEDIATE")

    def tables(self, cursor):
        try:
            self.own_tables(cursor)
        except sqlite3.OperationalError as fault:
            if self.is_away(fault):
                raise
            raise Ended(f"{self.where}: its tables are another program's ({told(fault)}); name another file", BROKEN) from None

    @staticmethod
    def own_tables(cursor):
        for statement in TABLES.split(";\n")[:-1]:
            cursor.execute(statement)
        for columns in COLUMNS:
            cursor.execute(f"SELECT {columns} LIMIT 0")

    def lock(self, cursor):
        """One recorder a file: it is held as long as the process lives."""
        self.hold()

    def hold(self):
        """Holds the file before the database is asked for anything, so that another recorder is told by its own sentence."""
        if self.held is None:
            try:
                self.held = os.open(self.where, os.O_RDWR | os.O_CREAT | os.O_CLOEXEC, 0o644)
            except OSError:
                return  # the database says what is wrong with the place
        try:
            fcntl.flock(self.held, fcntl.LOCK_EX | fcntl.LOCK_NB)
        except BlockingIOError:
            raise Ended(f"{self.where}: another recorder writes to this file; name another file, or end that one", BROKEN) from None

    def look(self):
        """The file that is written must be the one that its name leads to; where it is not, what SQLite's log holds of it is written into it first."""
        if self.held is None:
            return
        try:
            is_there = os.path.samestat(os.stat(self.where), os.fstat(self.held))
        except FileNotFoundError:
            is_there = False
        if not is_there:
            with contextlib.suppress(sqlite3.Error):
                self.base.execute("PRAGMA wal_checkpoint(TRUNCATE)")
            raise Ended(f"{self.where}: the file was removed, moved or replaced while it was written; the samples so far are in that file: start the recorder again",
                        BROKEN)

    @staticmethod
    def put_rows(cursor, rows):
        """Rows, those of one symbol together, in the order of their moments as they came."""
        rows.sort(key=operator.itemgetter(0))
        cursor.execute("SAVEPOINT rows")
        try:
            cursor.executemany("INSERT INTO sample (symbol, unix_ns, value, bytes) VALUES (?, ?, ?, ?)", rows)
        except sqlite3.IntegrityError:
            cursor.execute("ROLLBACK TO rows")
            cursor.executemany("INSERT INTO sample SELECT ?1, ?2, ?3, ?4, coalesce(max(again) + 1, 0) FROM sample WHERE symbol = ?1 AND unix_ns = ?2", rows)
        cursor.execute("RELEASE rows")

    def samples(self, symbol, since, until):
        return self.base.cursor().execute("SELECT unix_ns, value, NULL, bytes FROM sample WHERE symbol = ? AND unix_ns BETWEEN ? AND ? ORDER BY unix_ns, again",
                                          (symbol, since, until))


def escaped(path):
    return path.replace("%", "%25").replace("?", "%3f").replace("#", "%23")
