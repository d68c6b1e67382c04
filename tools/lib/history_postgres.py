"""A history in a PostgreSQL database, by COPY.

Where the database ends in the middle of a COPY, psycopg2 prints lines of its own; so psycopg is taken where both are there.
"""
import io
import operator

from lib.history_store import BROKEN, Store
from lib.words import Ended

TABLES = """
CREATE TABLE IF NOT EXISTS symbol (id serial PRIMARY KEY, net text NOT NULL, port integer NOT NULL, name text NOT NULL, type text NOT NULL,
                                   size integer NOT NULL, run integer, UNIQUE (net, port, name, type));
CREATE TABLE IF NOT EXISTS sample (symbol integer NOT NULL, unix_ns bigint NOT NULL, value double precision, text text, bytes bytea NOT NULL);
CREATE INDEX IF NOT EXISTS sample_of ON sample (symbol, unix_ns);
CREATE TABLE IF NOT EXISTS gap (symbol integer NOT NULL, from_ns bigint NOT NULL, to_ns bigint, why text NOT NULL);
CREATE INDEX IF NOT EXISTS gap_of ON gap (symbol, from_ns);
CREATE TABLE IF NOT EXISTS run (id integer PRIMARY KEY, net text NOT NULL, port integer NOT NULL, names text NOT NULL, started_ns bigint NOT NULL,
                                until_ns bigint, batch bigint NOT NULL, state text NOT NULL);
CREATE OR REPLACE VIEW history AS SELECT to_timestamp(unix_ns / 1000000000.0) AS time, name, type, value, text, bytes, unix_ns, symbol, net, port
                                  FROM sample JOIN symbol ON symbol.id = sample.symbol;
"""
ABSENT = ("PostgreSQL needs Debian's package python3-psycopg (or python3-psycopg2), which serves /usr/bin/python3: "
          "apt-get install python3-psycopg, then /usr/bin/python3 tools/history.py ..")


def driver():
    """psycopg, or psycopg2: whichever is there."""
    try:
        import psycopg
        return psycopg
    except ImportError:
        try:
            import psycopg2
            return psycopg2
        except ImportError:
            raise Ended(ABSENT, 4) from None


class PostgresStore(Store):
    greatest = "greatest"

    def __init__(self, url):
        super().__init__(hidden(url))
        self.url, self.driver, self.locked = url, driver(), False
        self.faults = (self.driver.Error, OSError, UnicodeError)

    @staticmethod
    def q(statement):
        return statement.replace("?", "%s")

    def is_away(self, fault):
        return isinstance(fault, (self.driver.OperationalError, self.driver.InterfaceError, OSError))

    def connect(self, readonly=False):
        self.base = self.driver.connect(self.url, connect_timeout=5, application_name="wenjukar history")
        cursor = self.base.cursor()
        cursor.execute("SET client_encoding = 'UTF8'")
        if readonly:
            cursor.execute("SET TRANSACTION ISOLATION LEVEL REPEATABLE READ, READ ONLY")
        else:
            self.base.commit()
            if self.locked:
                self.lock(cursor)
                self.base.commit()

    def begin(self, cursor):
        """The driver begins a transaction with the first statement."""

    @staticmethod
    def tables(cursor):
        cursor.execute("SELECT pg_advisory_xact_lock(hashtext('wenjukar history'))")
        cursor.execute("SELECT to_regclass('history') IS NULL")
        if cursor.fetchone()[0]:
            cursor.execute(TABLES)
        cursor.execute("SELECT symbol, unix_ns, value, text, bytes FROM sample LIMIT 0")

    def lock(self, cursor):
        """One recorder a port of a server: the lock is held as long as its session lives."""
        cursor.execute("SELECT pg_try_advisory_lock(hashtext('wenjukar history'), hashtext(%s))", ("{}:{}".format(*self.key),))
        if cursor.fetchone()[0]:
            self.locked = True
        elif self.locked:
            raise self.driver.OperationalError("the session of this recorder that failed is not over yet")
        else:
            raise Ended(f"{self.where}: another recorder of {self.key[0]} port {self.key[1]} writes to this database; end that one", BROKEN)

    def put_rows(self, cursor, rows):
        if not rows:
            return
        rows.sort(key=operator.itemgetter(0))
        lines = "".join([f"{symbol}\t{ns}\t{column(value)}\t\\\\x{data.hex()}\n" for symbol, ns, value, data in rows])
        statement = "COPY sample (symbol, unix_ns, value, text, bytes) FROM STDIN"
        if hasattr(cursor, "copy_expert"):
            cursor.copy_expert(statement, io.StringIO(lines), len(lines) + 1)
        else:
            with cursor.copy(statement) as copy:
                copy.write(lines)

    def samples(self, symbol, since, until):
        cursor = self.base.cursor(name="samples")
        cursor.itersize = 10000
        cursor.execute("SELECT unix_ns, value, text, bytes FROM sample WHERE symbol = %s AND unix_ns BETWEEN %s AND %s ORDER BY unix_ns",
                       (symbol, since, until))
        for ns, value, text, data in cursor:
            yield ns, value, text, bytes(data)
        cursor.close()


def column(value):
    """The columns `value` and `text` of a row, as COPY reads them."""
    if isinstance(value, str):
        return "\\N\t" + value.replace("\\", "\\\\").replace("\t", "\\t").replace("\n", "\\n").replace("\r", "\\r")
    return f"{+value}\t\\N" if value is not None else "\\N\t\\N"


def hidden(url):
    """The URL without its password."""
    head, at, tail = url.rpartition("@")
    scheme, slashes, user = head.partition("://")
    return f"{scheme}{slashes}{user.split(':')[0]}@{tail}" if at and slashes else url.split("password=")[0]
