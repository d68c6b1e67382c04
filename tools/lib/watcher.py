"""The thread that keeps a table of a server's values: connects, watches, and begins again when the server is gone or has a new description."""
import concurrent.futures
import queue
import threading
import time

from lib.codes import code_text
from lib.files import read_plant
from lib.leaves import for_script
from lib.link import Refused
from lib.page_limits import dress
from lib.page_words import read_page_words, words_file
from lib.served import table_of, version_of
from lib.watching import Watched, Watching, wake_pair
from lib.words import Ended

PAUSES, MOST_JOBS, ATTEMPTS = (0.2, 0.5, 1, 2, 3), 16, 5
UNKNOWN = "the connection was lost before the answer came: whether the value was written is not known"


class Watcher(threading.Thread):
    """`publish(kind, said)` is called for each change: `table`, `values` or `state`. `words_name` names the words of a page where they are not beside the
    description."""

    def __init__(self, file, to, me, net, ports, cycle, seconds, publish, words_name=""):
        super().__init__(daemon=True)
        self.words_name, self.words_fault = words_name, None
        self.file, self.to, self.me, self.own_net, self.own_ports, self.cycle, self.seconds, self.publish = file, to, me, net, ports, cycle, seconds, publish
        self.plant, self.plant_fault, self.table, self.generation = read_plant(file), None, None, 0
        self.words = read_page_words(words_name or words_file(file), self.plant, not words_name)
        self.counts = {"requests": 0, "samples": 0, "changes": 0, "connections": 0, "tables": 0, "written": 0, "refused": 0}
        self.jobs, (self.wake, self.waker), self.is_live, self.why, self.since = queue.Queue(MOST_JOBS), wake_pair(), False, "not connected yet", time.time()

    def net(self):
        return self.own_net or self.plant.net

    def state(self):
        """What is known of the connection, for a page."""
        table = self.table
        notices = [it for it in (self.plant_fault, self.words_fault) if it] + (table.notices if table else [])
        return {"live": self.is_live, "why": self.why, "since": round(1000 * self.since), "to": self.to, "net": self.net(), "me": self.me,
                "version": table.version if table else None, "generation": self.generation, "notices": notices[:20]}

    def run(self):
        failures = 0
        while True:
            before, why = self.counts["tables"], None
            try:
                self.connect()
            except Ended as end:
                why = end.why
            except Refused as refused:
                why = f"{self.to} refuses: {code_text(refused.code)}" + (f", it has not the NetId {self.net()}" if refused.code == 7 else "")
            except Exception as fault:
                why = f"{self.to} was not understood: {type(fault).__name__}: {fault}"
            failures = 0 if self.counts["tables"] > before else failures + 1
            self.gone(why)
            self.pause(PAUSES[min(failures, len(PAUSES) - 1)])

    def gone(self, why):
        if self.is_live and self.table:
            self.table.cut(time.time())
        if self.is_live or not self.counts["tables"]:
            self.since = self.since if self.why == why else time.time()
        self.is_live, self.why = False, why
        self.publish("state", self.state())

    def pause(self, seconds):
        """Waits before the next attempt; who wants to write meanwhile is told that it can't be."""
        until = time.monotonic() + seconds
        while time.monotonic() < until:
            self.refuse_jobs()
            time.sleep(min(0.1, seconds))

    def refuse_jobs(self):
        for *_, future in self.waiting_jobs():
            future.set_result((503, f"the server can't be asked now: {self.why}"))

    def waiting_jobs(self):
        """The writes that wait, but for those that nobody waits for any more."""
        while not self.jobs.empty():
            job = self.jobs.get()
            if job[-1].set_running_or_notify_cancel():
                yield job

    def connect(self):
        self.read_plant()
        link = Watched(self.to, self.net(), self.me, self.seconds, self.counts)
        try:
            self.counts["connections"] += 1
            while True:
                self.follow(self.watching(link))
                self.read_plant()
        finally:
            link.close()

    def read_plant(self):
        """The description again; one that is refused, or can't be read, leaves the last one."""
        try:
            self.plant, self.plant_fault = read_plant(self.file), None
        except Ended as end:
            self.plant_fault = f"{end.why}; the last description that was read holds until it is right."
        try:
            self.words = read_page_words(self.words_name or words_file(self.file), self.plant, not self.words_name)
            self.words_fault = self.words.notice()
        except Ended as end:
            self.words_fault = f"{end.why}; the last units, limits and alarms that were read hold until it is right."

    def watching(self, link):
        """The values of what the server has now, once all of them have come."""
        ports = self.own_ports or list(self.plant.ports)
        for _ in range(ATTEMPTS):
            self.generation += 1
            table = table_of(link, self.plant, self.file, ports, self.generation, self.table)
            dress(table, self.words)
            it = Watching(link, table, self.cycle)
            it.subscribe()
            until = time.monotonic() + self.seconds
            it.read_summed(time.time())
            while not it.is_whole() and not it.is_over:
                it.take(link.idle(until, self.wake), time.time())
                if time.monotonic() > until and not it.is_whole():
                    raise Ended(f"{self.to} did not send its first samples in {self.seconds:g} seconds", 11)
            if not it.is_over and version_of(link, ports) == table.version:
                return self.begun(it)
            it.leave()
        raise Ended(f"{self.to} has a new description again and again", 9)

    def begun(self, watching):
        table, was = watching.table, self.table
        self.since = self.since if self.is_live else time.time()
        self.table, self.is_live, self.why = table, True, ""
        self.counts["tables"] += 1
        self.publish("table", was is not None)
        return watching

    def follow(self, it):
        """Publishes what changes, until the server has a new description."""
        ports, asked, summed = [number for number, _ in it.table.ports], time.monotonic(), time.monotonic()
        pause = max(0.5, self.cycle / 10000000)
        while True:
            until = min(asked + 1, summed + pause if it.summed else asked + 1)
            changed = it.take(it.link.idle(until, self.wake), time.time())
            if it.summed and time.monotonic() >= summed + pause:
                summed = time.monotonic()
                changed += it.read_summed(time.time())
            if changed:
                self.changed(it.table, changed)
            self.do_jobs(it)
            if it.is_over or time.monotonic() >= asked + 1:
                asked = time.monotonic()
                if version_of(it.link, ports) != it.table.version or it.is_over:
                    return it.leave()

    def changed(self, table, numbers):
        self.counts["changes"] += len(numbers)
        values = [[number, for_script(table.values[number])] for number in dict.fromkeys(numbers)]
        self.publish("values", {"g": table.generation, "o": table.order, "m": round(1000 * time.time()), "c": values})

    def do_jobs(self, it):
        for call, future in self.waiting_jobs():
            try:
                why = call(it)
            except BaseException:
                future.set_result((504, UNKNOWN))
                raise
            self.counts["refused" if why else "written"] += 1
            future.set_result((409, why) if why else (200, "written"))

    def write(self, call):
        """A write that this thread does when it comes to it, by `call` of what it watches: a future of an HTTP status and a sentence."""
        future = concurrent.futures.Future()
        try:
            self.jobs.put_nowait((call, future))
            self.waker.send(b"w")
        except queue.Full:
            future.set_result((503, f"{MOST_JOBS} values wait to be written already: try again"))
        except BlockingIOError:
            pass
        return future
