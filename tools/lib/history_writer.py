"""The thread that writes a history: batches one behind another, each once, also over a database that goes and comes again."""
import collections
import threading
import time

from lib.history_store import Away, Batch
from lib.words import Ended

TRY_AGAIN, MOST_ROWS = 0.5, 100000


class Job:
    """What the thread is to do: an action of the store, or a batch that it writes."""

    def __init__(self, action, batch=None):
        self.action, self.batch, self.rows = action, batch, len(batch.rows) if batch else 0
        self.found, self.fault, self.done = None, None, threading.Event()


class Writer(threading.Thread):
    """`held` is the number of samples that wait to be written, `away` why the database takes nothing now, `broken` the Ended that ended the thread."""

    def __init__(self, store, say, stopped):
        super().__init__(daemon=True)
        self.store, self.say, self.stopped, self.jobs, self.ready = store, say, stopped, collections.deque(), threading.Condition()
        self.held, self.number, self.written, self.away, self.broken, self.ending, self.patience = 0, 0, 0, None, None, False, None

    def put(self, rows, gaps, until):
        """A batch that is to be written."""
        self.number += 1
        self.add(Job(None, Batch(self.number, rows, gaps, until)))

    def call(self, action):
        """What an action of the store gives, behind the batches that wait; it waits for that, unless the tool is to end while the database is away."""
        job = self.add(Job(action))
        while not job.done.wait(0.2):
            if self.stopped.is_set() and self.away:
                raise Ended(f"{self.store.where}: {self.away}", 16)
        if job.fault:
            raise job.fault
        return job.found

    def add(self, job):
        with self.ready:
            if self.broken or self.ending:
                raise self.broken or Ended("the database was left", 16)
            self.jobs.append(job)
            self.held += job.rows
            self.ready.notify()
        return job

    def run(self):
        while True:
            with self.ready:
                while not self.jobs and not self.ending:
                    self.ready.wait()
                if not self.jobs:
                    return
                job = self.taken()
            try:
                job.found = self.tried(job.action or (lambda batch=job.batch: self.store.write(batch)))
            except BaseException as fault:
                self.give_up(job, fault if isinstance(fault, Ended) else Ended(f"{self.store.where}: {type(fault).__name__}: {fault}", 16))
                return
            with self.ready:
                self.held -= job.rows
                self.written += job.rows
                self.ready.notify_all()
            job.done.set()

    def taken(self):
        """The next job; batches that wait are one, so that what was held is written in few transactions."""
        job = self.jobs.popleft()
        while job.batch and self.jobs and self.jobs[0].batch and job.rows + self.jobs[0].rows <= MOST_ROWS:
            first, second = job.batch, self.jobs.popleft().batch
            job = Job(None, Batch(second.number, first.rows + second.rows, first.gaps + second.gaps, second.until or first.until))
        return job

    def tried(self, action):
        """An action, again and again while the database is away; an Ended where there is no more time."""
        while True:
            try:
                found = action()
                if self.away:
                    self.say(f"{self.store.where} takes samples again")
                    self.away = None
                return found
            except Away as away:
                if not self.away:
                    self.say(f"{self.store.where}: {away}; samples are held until it comes again")
                self.away = str(away)
                if self.patience is not None and time.monotonic() > self.patience:
                    raise Ended(f"{self.store.where}: {away}; {self.held} samples were not written", 16) from None
                time.sleep(TRY_AGAIN)

    def give_up(self, job, fault):
        with self.ready:
            self.broken, left = fault, [job, *self.jobs]
            self.jobs.clear()
            self.ready.notify_all()
        for job in left:
            job.fault = fault
            job.done.set()

    def stop(self, seconds):
        """Writes what waits, at most so long; raises the Ended of what could not be written."""
        self.patience = time.monotonic() + seconds
        with self.ready:
            self.ending = True
            self.ready.notify_all()
        self.join()
        if self.broken:
            raise self.broken
