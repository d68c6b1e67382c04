"""What happens at a page: its alarms and its log of who wrote what, told to browsers and kept over a restart."""
import collections
import time

from lib.page_alarms import Alarms
from lib.page_state import State, read_state

# Writes that are kept, and that a browser gets; seconds between two times that alarms are told.
MOST_LOG, MOST_TOLD, BETWEEN = 1000, 100, 0.2


def now():
    return round(1000 * time.time())


class Record:
    """`tell(kind, said)` tells browsers, `notice` that what is kept changed its fault."""

    def __init__(self, name, tell, notice):
        self.alarms, self.log, self.tell, self.timer = Alarms(), collections.deque(maxlen=MOST_LOG), tell, None
        said = read_state(name)
        self.alarms.load(said)
        self.log.extend(said["log"][:MOST_LOG])
        self.state = State(name, notice) if name else None

    def start(self):
        if self.state:
            self.state.start()

    def faults(self):
        return [self.state.fault] if self.state and self.state.fault else []

    def save(self):
        if self.state:
            self.state.change({**self.alarms.saved(), "log": list(self.log)})

    def begin(self, table):
        with table.lock:
            changed = self.alarms.begin(table, now())
        if changed:
            self.publish()

    def look(self, loop, table, numbers):
        """Looks at values that changed; what comes and goes fast is told some times a second."""
        with table.lock:
            changed = [self.alarms.look(table, number, now()) for number in numbers]
        if any(changed) and self.timer is None:
            self.timer = loop.call_later(BETWEEN, self.publish)

    def publish(self):
        if self.timer:
            self.timer.cancel()
        self.timer = None
        self.tell("alarms", self.alarms.told())
        self.save()

    def acknowledge(self, numbers, by):
        count = self.alarms.acknowledge(numbers, by, now())
        self.publish()
        return count

    def wrote(self, **said):
        """A write that was asked for, and what became of it: `why` is empty where it was done."""
        self.log.appendleft({"at": now(), **said})
        self.tell("logged", self.log[0])
        self.save()

    def told_log(self):
        return list(self.log)[:MOST_TOLD]


def short(text):
    return text if len(text) <= 120 else text[:120] + ".."
