"""Many names watched over as many connections as they need: additions by handles, their samples in order, and what a new description makes of them."""
import select
import struct
import time

from lib import groups
from lib.codes import code_text
from lib.flow_layout import Layout, stamps_in
from lib.flow_names import ask_names, wanted
from lib.flow_stream import Stream
from lib.frames import ADD, DELETE, READ, WRITE
from lib.link import Refused
from lib.payloads import BadPayload, Request
from lib.type_texts import lower
from lib.words import Ended

MODES = {"cycle": 3, "change": 4}
# A server of ours has 512 notifications and 4,096 handles a connection, and 64 connections; a TwinCAT system has 550 notifications a client and more.
EACH, STREAMS, BEAT, LIKELY, MOST_NAME = 480, 60, 10000000, 32, 1000
NONE_LEFT, STALE = 0x716, 0x711
# A moment of ADS counts 100 ns from 1601; a stamp here counts nanoseconds from 1970.
EPOCH, LAST = 116444736000000000, 2 ** 63 // 100


def ignored(code, data):
    """What an answer says that nothing hangs on."""


def unix_ns(moment):
    if not 0 <= moment - EPOCH < LAST:
        raise BadPayload(f"a notification is of the moment {moment}, which is not from 1970 to 2262")
    return 100 * (moment - EPOCH)


class Item:
    """A name that is watched: where, by which handle and notification. `own` is what the sink keeps with it; it is fresh until its first sample."""

    def __init__(self, known, stream, handle, own):
        self.known, self.stream, self.handle, self.own, self.number, self.fresh = known, stream, handle, own, None, True


class Session:
    """A sink is told: `begin(knowns)`, which gives what it keeps with each name that is watched from now on; `take(ns, pairs)`, samples, pairs of an item and
    bytes; `ended(item, why)`; `missing(words)`, what means nothing now; `refused(known, why)`. With `sink.frames` it may be told `frame(ns, layout, payload)`
    in place of `take`."""

    def __init__(self, link, port, words, mode, cycle, sink):
        """`link` are the words of a Stream: to, net, me and seconds."""
        self.link, self.port, self.words, self.mode, self.cycle, self.sink = link, port, words, MODES[mode], cycle, sink
        self.to, self.seconds = link[0], link[3]
        self.streams, self.items, self.bad, self.version, self.stale, self.polled = [], {}, {}, None, False, time.monotonic()

    # Connections.

    def connect(self):
        if len(self.streams) >= STREAMS:
            raise Ended(f"{self.to} would need more than {STREAMS} connections for so many names", 8)
        stream = Stream(*self.link, self.heard)
        stream.items, stream.layouts, stream.likely, stream.count, stream.full, stream.beat, stream.loose = {}, {}, {}, 0, False, None, []
        self.streams.append(stream)
        return stream

    def open(self):
        self.connect()
        self.refresh()
        return self

    def close(self):
        for stream in self.streams:
            stream.close()
        self.streams = []

    def step(self, wait, may_refresh=True):
        """Takes what comes within `wait` seconds; asks anew what there is where the description is another."""
        now = time.monotonic()
        if self.version is not None and now >= self.polled + 1:
            self.polled = now
            self.streams[0].send(self.port, Request(READ, groups.VERSION, 0, 1), self.told_version)
        for stream in select.select(self.streams, [], [], wait)[0]:
            stream.pump()
        silent = [it for it in self.streams if it.beat and time.monotonic() - it.since > self.seconds]
        if silent and not any(it.pump() for it in silent):
            raise Ended(f"{self.to} said nothing for {self.seconds:g} seconds", 11)
        if self.stale and may_refresh:
            self.refresh()

    def told_version(self, code, data):
        self.stale = self.stale or bool(code) or data != bytes([self.version])

    # What there is.

    def version_of(self):
        try:
            return self.streams[0].read(self.port, groups.VERSION, 0, 1, 1)[0]
        except Refused as refused:
            if refused.code in (0x6, 0x7):
                raise
            return None

    def refresh(self):
        """Asks what there is, and watches what is not watched yet; once more where the description is another behind it."""
        try:
            for _ in range(20):
                if self.refreshed() and not self.stale:
                    return
        except Refused as refused:
            raise Ended(f"{self.to} refuses port {self.port}: {code_text(refused.code)}", 8) from None
        raise Ended(f"{self.to} has a new description again and again, or grants no notifications", 7)

    def refreshed(self):
        before, self.stale = self.version_of(), False
        for stream in self.streams:
            self.release(stream)
        self.bad = self.bad if before == self.version else {}
        found, missing = wanted(self.streams[0], self.port, self.words)
        fresh = [known for key, known in found.items() if key not in self.items and key not in self.bad and self.fits(key, known)]
        granted = [(stream, known, handle) for stream, knowns in self.placed(fresh) for known, handle in self.handles(stream, knowns)]
        if self.version_of() != before:
            for stream, _, handle in granted:
                self.give_up(stream, handle)
            return False
        self.version = before
        for key, item in list(self.items.items()):
            if key not in found or not item.known.same(found[key]):
                self.stale = self.stale or key in found
                self.drop(item, "another type in the new description" if key in found else "no such symbol in the new description")
        self.add(granted)
        self.sink.missing(missing)
        return True

    def fits(self, key, known):
        """Whether a name may stand in an index of a database, and a topic; who tells a longer one tells no plant."""
        if max(len(known.name), len(known.type)) <= MOST_NAME:
            return True
        self.bad[key] = 0
        self.sink.refused(known, f"its name or its type has more than {MOST_NAME} characters")
        return False

    def placed(self, knowns):
        """Which names go over which connection."""
        found, left = [], list(knowns)
        for stream in self.streams:
            some = [] if stream.full else left[:max(EACH - stream.count, 0)]
            left = left[len(some):]
            found.append((stream, some))
        while left:
            found.append((self.connect(), left[:EACH]))
            left = left[EACH:]
        return found

    def handles(self, stream, knowns):
        """The names that have a handle now, with it."""
        found = []
        for known, (code, data) in zip(knowns, ask_names(stream, self.port, groups.HANDLE, [it.raw for it in knowns], 4)):
            if code or len(data) != 4:
                self.bad[lower(known.name)] = code
                self.sink.refused(known, f"no handle: {code_text(code)}")
                continue
            stream.count += 1
            found.append((known, struct.unpack("<I", data)[0]))
        return found

    @staticmethod
    def give_up(stream, handle):
        """The handle is released when the next refresh comes, since nothing may be asked while bytes are taken."""
        stream.count -= 1
        stream.loose.append(handle)

    def release(self, stream):
        loose, stream.loose = stream.loose, []
        stream.ask_all(self.port, [(Request(WRITE, groups.RELEASE, 0, 0, struct.pack("<I", handle)), ignored) for handle in loose])

    def forget(self, item, why):
        """A name is not watched any more."""
        item.stream.items.pop(item.number, None)
        item.stream.layouts.clear()
        self.give_up(item.stream, item.handle)
        del self.items[lower(item.known.name)]
        self.sink.ended(item, why)

    def drop(self, item, why):
        self.forget(item, why)
        if item.number is not None:
            item.stream.ask_all(self.port, [(Request(DELETE, 0, item.number), ignored)])

    # Notifications.

    def add(self, granted):
        owns = self.sink.begin([known for _, known, _ in granted])
        new = [Item(known, stream, handle, own) for (stream, known, handle), own in zip(granted, owns)]
        self.items.update((lower(item.known.name), item) for item in new)
        for stream in self.streams:
            stream.ask_all(self.port, [(self.addition(item, self.mode, self.cycle), lambda code, data, item=item: self.added(item, code, data))
                                       for item in new if item.stream is stream])
        for item in [item for item in new if item.number is None]:
            self.drop(item, "the server grants no notification of it")
        for stream in self.streams:
            first = next((item for item in stream.items.values() if item), None)
            if first and stream.beat is None:
                stream.ask_all(self.port, [(self.addition(first, MODES["cycle"], BEAT), lambda code, data, stream=stream: self.beats(stream, code, data))])

    @staticmethod
    def addition(item, mode, cycle):
        return Request(ADD, groups.BY_HANDLE, item.handle, item.known.size, b"", mode, 0, cycle)

    def added(self, item, code, data):
        if not code:
            item.number = struct.unpack("<I", data)[0]
            item.stream.items[item.number] = item
        elif code in (NONE_LEFT, STALE):
            item.stream.full, self.stale = item.stream.full or code == NONE_LEFT, True
        else:
            self.bad[lower(item.known.name)] = code
            self.sink.refused(item.known, f"no notification of its {item.known.size} bytes: {code_text(code)}")

    @staticmethod
    def beats(stream, code, data):
        """Each second a sample tells the server's moment, so that what comes before it is known to be all."""
        if not code:
            stream.beat = struct.unpack("<I", data)[0]
            stream.items[stream.beat] = None

    def heard(self, stream, payload):
        """A notification: whole by a layout where one fits, else sample by sample."""
        layout = stream.layouts.get(len(payload))
        moment = layout and layout.moment(payload)
        if moment:
            ns, stream.seen = unix_ns(moment), moment
            self.sink.frame(ns, layout, payload)
            return
        for moment, samples in stamps_in(payload):
            ns, pairs = unix_ns(moment), []
            for number, data in samples:
                item = stream.items.get(number)
                if item is None:
                    if number == stream.beat and not data:
                        stream.beat, self.stale = None, True
                elif not data:
                    self.stale = True
                    self.forget(item, "the description changed")
                elif len(data) != item.known.size:
                    raise BadPayload(f"a sample of {item.known.name} has {len(data)} bytes in place of {item.known.size}")
                else:
                    pairs.append((item, data))
            stream.seen = max(moment, stream.seen or 0)
            if pairs:
                self.sink.take(ns, pairs)
        if self.sink.frames and len(pairs) > 7 and Layout.is_of(payload, pairs):
            self.expect(stream, payload, pairs)

    @staticmethod
    def expect(stream, payload, pairs):
        """Makes a layout where the same names came in a notification of this length before."""
        names = [item.number for item, _ in pairs]
        if stream.likely.get(len(payload)) == names:
            stream.layouts[len(payload)] = Layout(payload, pairs)
        elif len(stream.likely) >= LIKELY:
            stream.likely.clear()
            stream.layouts.clear()
        stream.likely[len(payload)] = names
