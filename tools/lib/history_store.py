"""What a history keeps, in tables that are alike in SQLite and in PostgreSQL: symbols, samples, gaps, and the runs of recorders; here is what both share."""
import json
import time

from lib.words import Ended

BROKEN, AT_ONCE = 16, 20000
NO_HISTORY = "is no history: tools/history.py record writes one"


class Away(Exception):
    """The database can't be reached, or takes nothing, at the moment."""


class Batch:
    """What becomes one transaction: rows of samples (symbol, unix_ns, value, bytes), what happens to gaps, in its order, and up to when all is known."""

    def __init__(self, number, rows, gaps, until):
        self.number, self.rows, self.gaps, self.until = number, rows, gaps, until


class Store:
    """`q` writes a statement with the marks of its database. The subclasses have `connect`, `put_rows`, `tables`, `lock` and `fault`."""

    def __init__(self, where):
        self.where, self.base, self.run, self.unsure = where, None, None, False

    def doing(self, action, *given):
        """An action as one transaction: an Away where it can't be done now, else the end of the tool."""
        try:
            if self.base is None:
                self.connect()
            cursor = self.base.cursor()
            self.begin(cursor)
            found = action(cursor, *given)
            self.base.commit()
            self.look()
            return found
        except Ended:
            self.leave()
            raise
        except Exception as fault:
            if not isinstance(fault, self.faults):
                raise
            self.unsure = True
            away = self.is_away(fault)
            self.leave()
            raise Away(told(fault)) if away else Ended(f"{self.where}: {told(fault)}", BROKEN) from None

    def look(self):
        """Sees that what was committed is where it is looked for."""

    def leave(self):
        """Back to the moment before a transaction; the connection is given up, so that the next one begins anew."""
        base, self.base = self.base, None
        try:
            if base:
                base.close()
        except self.faults:
            pass

    # Recording.

    def start(self, net, port, words):
        """Begins a run: what earlier runs knew last is the beginning of a gap. Gives the symbols that have an open gap."""
        self.key = net, port
        return self.doing(self.started, net, port, words)

    def started(self, cursor, net, port, words):
        self.tables(cursor)
        self.lock(cursor)
        cursor.execute(self.q(f"""
            INSERT INTO gap (symbol, from_ns, to_ns, why)
            SELECT s.id, {self.greatest}(coalesce(r.until_ns, 0), (SELECT max(unix_ns) FROM sample WHERE symbol = s.id)), NULL,
                   CASE r.state WHEN 'stopped' THEN 'the recorder was stopped' ELSE 'the recorder was killed' END
            FROM symbol s JOIN run r ON r.id = s.run WHERE r.net = ? AND r.port = ? AND r.state <> 'over'
            AND EXISTS (SELECT 1 FROM sample WHERE symbol = s.id) AND NOT EXISTS (SELECT 1 FROM gap g WHERE g.symbol = s.id AND g.to_ns IS NULL)"""),
                       (net, port))
        cursor.execute(self.q("UPDATE run SET state = 'over' WHERE net = ? AND port = ? AND state <> 'over'"), (net, port))
        cursor.execute("SELECT coalesce(max(id), 0) + 1 FROM run")
        self.run = cursor.fetchone()[0]
        cursor.execute(self.q("INSERT INTO run (id, net, port, names, started_ns, until_ns, batch, state) VALUES (?, ?, ?, ?, ?, NULL, 0, 'running')"),
                       (self.run, net, port, json.dumps(words), time.time_ns()))
        cursor.execute(self.q("SELECT g.symbol FROM gap g JOIN symbol s ON s.id = g.symbol WHERE g.to_ns IS NULL AND s.net = ? AND s.port = ?"), (net, port))
        return {symbol for symbol, in cursor.fetchall()}

    def symbols(self, net, port, knowns):
        """The number of each symbol: triples of a name, a type and a size; a name with another type is another symbol."""
        return self.doing(self.numbered, net, port, knowns)

    def numbered(self, cursor, net, port, knowns):
        found, asked = [], self.q("SELECT id FROM symbol WHERE net = ? AND port = ? AND name = ? AND type = ?")
        for name, kind, size in knowns:
            cursor.execute(asked, (net, port, name, kind))
            row = cursor.fetchone()
            if row:
                cursor.execute(self.q("UPDATE symbol SET run = ? WHERE id = ?"), (self.run, row[0]))
            else:
                cursor.execute(self.q("INSERT INTO symbol (net, port, name, type, size, run) VALUES (?, ?, ?, ?, ?, ?)"), (net, port, name, kind, size, self.run))
                cursor.execute(asked, (net, port, name, kind))
                row = cursor.fetchone()
            found.append(row[0])
        return found

    def write(self, batch):
        self.doing(self.written, batch)

    def written(self, cursor, batch):
        """A batch, once: where the end of its transaction was not heard, the number of the last one tells whether it is there."""
        if self.unsure:
            cursor.execute(self.q("SELECT batch FROM run WHERE id = ?"), (self.run,))
            row = cursor.fetchone()
            if row is None:
                raise Ended(f"{self.where}: the run of this recorder is gone from it", BROKEN)
            self.unsure = False
            if row[0] >= batch.number:
                return
        self.put_rows(cursor, batch.rows)
        for what, symbol, ns, why in batch.gaps:
            if what == "from":
                cursor.execute(self.q("INSERT INTO gap (symbol, from_ns, to_ns, why) VALUES (?, ?, NULL, ?)"), (symbol, ns, why))
            else:
                cursor.execute(self.q("UPDATE gap SET to_ns = ? WHERE symbol = ? AND to_ns IS NULL"), (ns, symbol))
        cursor.execute(self.q("UPDATE run SET batch = ?, until_ns = coalesce(?, until_ns) WHERE id = ?"), (batch.number, batch.until, self.run))

    def keep(self, least):
        """Takes away samples and gaps before a moment, some thousand at a time, so that others need not wait long; gives whether there may be more."""
        return self.doing(self.kept, least)

    def kept(self, cursor, least):
        left = AT_ONCE
        cursor.execute(self.q("SELECT id FROM symbol WHERE net = ? AND port = ?"), self.key)
        for symbol, in cursor.fetchall():
            cursor.execute(self.q("SELECT unix_ns FROM sample WHERE symbol = ? AND unix_ns < ? ORDER BY unix_ns LIMIT 1 OFFSET ?"), (symbol, least, left))
            further = cursor.fetchone()
            cursor.execute(self.q("DELETE FROM sample WHERE symbol = ? AND unix_ns < ?"), (symbol, further[0] if further else least))
            left -= max(cursor.rowcount, 0)
            cursor.execute(self.q("DELETE FROM gap WHERE symbol = ? AND to_ns < ?"), (symbol, least))
            if further or left <= 0:
                return True
        return False

    def stop(self):
        self.doing(lambda cursor: cursor.execute(self.q("UPDATE run SET state = 'stopped' WHERE id = ?"), (self.run,)))

    # Reading.

    def reading(self):
        try:
            self.connect(readonly=True)
            cursor = self.base.cursor()
            cursor.execute("SELECT count(*) FROM (SELECT id, net, port, name, type FROM symbol LIMIT 1) s, (SELECT count(*) FROM gap) g")
        except self.faults as fault:
            why = f"can't be read: {told(fault)}" if self.is_away(fault) else NO_HISTORY
            raise Ended(f"{self.where} {why}", BROKEN) from None
        return self

    def listed(self):
        """All symbols: id, net, port, name, type, in the order of their numbers."""
        cursor = self.base.cursor()
        cursor.execute("SELECT id, net, port, name, type FROM symbol ORDER BY id")
        return cursor.fetchall()

    def present(self, symbol, since, until):
        """The samples of a symbol in a stretch of time, as a list, also of a store that writes."""
        return self.doing(lambda cursor: list(self.samples(symbol, since, until)))

    def ends(self, symbol, since, until):
        cursor = self.base.cursor()
        cursor.execute(self.q("SELECT min(unix_ns), max(unix_ns) FROM sample WHERE symbol = ? AND unix_ns BETWEEN ? AND ?"), (symbol, since, until))
        return cursor.fetchone()

    def gaps(self, symbol, since, until):
        cursor = self.base.cursor()
        cursor.execute(self.q("SELECT from_ns, to_ns, why FROM gap WHERE symbol = ? AND from_ns <= ? AND (to_ns IS NULL OR to_ns >= ?) ORDER BY from_ns"),
                       (symbol, until, since))
        return cursor.fetchall()


def told(fault):
    """A fault of a database in one line."""
    return " ".join(str(fault).split())[:200] or type(fault).__name__
