"""An endless recorder: what a session tells becomes batches of a store, and each stretch of which nothing is known a gap."""
import itertools
import time

from lib.flow_session import Session, unix_ns
from lib.history_writer import Job
from lib.shown import told
from lib.words import Ended

FLUSH, MOST_ROWS, AGAIN, KEEP_EACH, BEAT, DAY = 0.5, 100000, 1.0, 30.0, 10 ** 9, 86400 * 10 ** 9


class Recorder:
    """A sink of a session. `opened` are the numbers of the symbols with an open gap; `rows` and `gaps` what becomes the next batch."""
    frames = True

    def __init__(self, link, port, words, mode, cycle, writer, say):
        self.link, self.port, self.words, self.mode, self.cycle, self.writer, self.say = link, port, words, mode, cycle, writer, say
        self.rows, self.gaps, self.until, self.session, self.said, self.told, self.keeping, self.fault = [], [], None, None, {}, 0, None, None
        self.flushed = self.cleared = time.monotonic()
        self.opened = set(writer.store.start(link[1], port, words))

    # What a session tells.

    def begin(self, knowns):
        if not knowns:
            return []
        self.flush()
        return self.writer.call(lambda: self.writer.store.symbols(self.link[1], self.port, [(it.name, it.type, it.size) for it in knowns]))

    def take(self, ns, pairs):
        for item, data in pairs:
            if item.fresh:
                item.fresh = False
                if item.own in self.opened:
                    self.opened.discard(item.own)
                    self.gaps.append(("to", item.own, ns, None))
            self.rows.append((item.own, ns, item.known.stored(data), data))

    def frame(self, ns, layout, payload):
        values, datas = layout.columns(payload)
        self.rows.extend(zip(layout.owns, itertools.repeat(ns), values, datas))

    def ended(self, item, why):
        """From the last moment that came, nothing is known of a name that was known until then."""
        if not item.fresh and item.own not in self.opened:
            self.opened.add(item.own)
            self.gaps.append(("from", item.own, unix_ns(item.stream.seen), why))

    def missing(self, words):
        self.tell("missing", tuple(words), f"not there now: {', '.join(word.said() for word in words[:5])}{' ..' if len(words) > 5 else ''}" if words else None)

    def refused(self, known, why):
        self.tell(known.name, why, f"{told(known.name)} is not recorded: {why}")

    def tell(self, about, what, line):
        """A line, where there is something else to say than last time."""
        if self.said.get(about) != what:
            self.said[about] = what
            if line:
                self.say(line)

    # Batches.

    def flush(self):
        self.flushed = time.monotonic()
        if self.session and self.session.streams and all(it.seen for it in self.session.streams):
            self.until = unix_ns(min(it.seen for it in self.session.streams))
        if self.rows or self.gaps or (self.until or 0) >= self.told + BEAT:
            self.told = self.until or 0
            self.writer.put(self.rows, self.gaps, self.until)
            self.rows, self.gaps = [], []

    def leave(self, why):
        """The session is over: all its names begin a gap."""
        session = self.session
        for item in list(session.items.values()) if session else []:
            self.ended(item, why)
        self.flush()
        self.session = None
        if session:
            session.close()

    # The run.

    def run(self, seconds, stopped, most, days):
        """Records until `stopped` is set, or so many seconds; `most` samples are held while the database is away."""
        end = None if seconds is None else time.monotonic() + seconds
        while not stopped.is_set() and (end is None or time.monotonic() < end):
            if self.writer.broken:
                raise self.writer.broken
            try:
                self.go_on(stopped, end, most, days)
            except Ended as why:
                if why is self.writer.broken:
                    raise
                self.leave(why.why)
                self.fault = why
                self.tell("link", why.why, f"{why.why}; it is tried again each second")
                stopped.wait(AGAIN)
        self.leave_in_peace()

    def go_on(self, stopped, end, most, days):
        if self.writer.away or self.writer.held > most // 2:
            stopped.wait(0.05)
            return
        self.session = Session(self.link, self.port, self.words, self.mode, self.cycle, self)
        self.session.open()
        self.tell("link", None, None)
        self.fault = None
        self.say(f"recording {len(self.session.items)} names")
        while not stopped.is_set() and (end is None or time.monotonic() < end):
            self.session.step(0.05, may_refresh=not self.writer.away)
            if time.monotonic() >= self.flushed + FLUSH or len(self.rows) >= MOST_ROWS:
                self.flush()
                self.clear(days)
            if self.writer.held > most:
                raise Ended(f"more than {most} samples wait for the database")

    def clear(self, days):
        """Takes away what is older than so many days before the newest that is known."""
        if not days or not self.until or (self.keeping and not self.keeping.done.is_set()):
            return
        if self.keeping and self.keeping.found or time.monotonic() >= self.cleared + KEEP_EACH:
            self.cleared, least = time.monotonic(), self.until - days * DAY
            self.keeping = self.writer.add(Job(lambda: self.writer.store.keep(least)))

    def leave_in_peace(self):
        self.flush()
        if self.session:
            self.session.close()
        self.writer.add(Job(self.writer.store.stop))
