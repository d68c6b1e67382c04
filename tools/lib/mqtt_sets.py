"""Values from a broker on their way into the plant: the newest of each name, at a rate, and a bounded list of those
that wait; each message has its result."""
import itertools
import time

from lib import groups
from lib.codes import code_text
from lib.frames import WRITE
from lib.mqtt_words import Tally, bytes_of, line
from lib.payloads import Request
from lib.values import NoValue
from lib.words import Ended

# Names that wait, writes that are on their way together, and writes a second.
MOST, ASKED, RATE = 1000, 16, 500
NEWER = "a newer value of this name came before this one was written"
FULL = f"{MOST} names wait to be written already: send it again"
RETAINED = "a retained message sets nothing, since it would set it again at each connection"
MOST_WHY = 300


class Sets:
    """`result(topic, line)` publishes what became of a message."""

    def __init__(self, result, say):
        self.result, self.waiting, self.asked, self.numbers = result, {}, {}, itertools.count()
        self.room, self.since = ASKED, time.monotonic()
        self.tally = Tally(say, "sets refused, which came faster than they are written")

    def take(self, topic, payload, retained):
        if retained:
            self.refuse(topic, RETAINED)
            return
        if topic in self.waiting:
            self.drop(topic, NEWER)
        elif len(self.waiting) >= MOST:
            self.drop(topic, FULL)
            return
        self.waiting[topic] = payload

    def drop(self, topic, why):
        self.tally.add(why)
        self.refuse(topic, why)

    def refuse(self, topic, why):
        self.result(topic, line(result="refused", why=why[:MOST_WHY]))

    def refuse_all(self, why):
        waiting, self.waiting = self.waiting, {}
        for topic in waiting:
            self.refuse(topic, why)

    def lost(self, why):
        """The connection is over: of what was on its way nobody knows what became."""
        asked, self.asked = self.asked, {}
        for topic, _ in asked.values():
            self.result(topic, line(result="not known", why=why))

    def write(self, port, item_of, seconds):
        """Sends what may be sent now; `item_of(topic)` is the item of a session, None where there is none."""
        self.tally.tell()
        now = time.monotonic()
        self.room, self.since = min(self.room + RATE * (now - self.since), ASKED), now
        if any(moment < now - seconds for _, moment in self.asked.values()):
            raise Ended(f"the server did not answer a write in {seconds:g} seconds", 11)
        while self.waiting and self.room >= 1 and len(self.asked) < ASKED:
            topic = next(iter(self.waiting))
            payload, self.room = self.waiting.pop(topic), self.room - 1
            try:
                self.send(port, topic, item_of(topic), payload)
            except NoValue as fault:
                self.refuse(topic, str(fault))

    def send(self, port, topic, item, payload):
        if item is None:
            raise NoValue("no such name here now")
        data, number, known = bytes_of(item.known, payload), next(self.numbers), item.known
        self.asked[number] = topic, time.monotonic()
        item.stream.send(port, Request(WRITE, groups.BY_HANDLE, item.handle, 0, data),
                         lambda code, _: self.answered(number, code, known, data))

    def answered(self, number, code, known, data):
        topic, _ = self.asked.pop(number, (None, None))
        if topic and code:
            self.result(topic, line(result="refused", code=f"0x{code:X}", why=code_text(code).partition(" ")[2]))
        elif topic:
            self.result(topic, line(result="done", value=known.read(data)))
