"""One connection that watches all values of a server: notifications over ranges of its areas, sums for what these leave, and writes between them."""
import select
import socket
import struct
import time

from lib.codes import code_text
from lib.frames import ADD, DELETE, NOTE, READ_WRITE, WRITE, BadFrame, cut, frame_of
from lib.groups import BY_HANDLE, HANDLE, RELEASE, VERSION
from lib.link import Link, Refused
from lib.payloads import BadPayload, Request, read_samples
from lib.served import version_of
from lib.values import NoValue
from lib.words import Ended

# Bytes of a notification, notifications of a connection, unused bytes that a range may have between two symbols; parts and bytes of a sum.
MOST_WATCHED, MOST_RANGES, GAP, MOST_PARTS, MOST_SUM = 2048, 500, 32, 400, 500000
ON_CHANGE = 4


class Range:
    """Bytes of an area with the symbols that have some of them."""

    def __init__(self, port, group, start, end):
        self.port, self.group, self.start, self.end, self.symbols, self.is_known = port, group, start, end, [], False

    def place(self):
        return self.group, self.start, self.end - self.start


def ranges_of(symbols):
    """Ranges of at most so many bytes, in which all bytes of the symbols lie."""
    found = []
    for symbol in sorted(symbols, key=lambda it: (it.port, it.group, it.at)):
        at, end = symbol.at, symbol.at + symbol.size
        last = found[-1] if found else None
        if last and (last.port, last.group) == (symbol.port, symbol.group) and at - last.end <= GAP and end - last.start <= MOST_WATCHED:
            last.end = end
            last.symbols.append(symbol)
            continue
        for start in range(at, end, MOST_WATCHED):
            found.append(Range(symbol.port, symbol.group, start, min(start + MOST_WATCHED, end)))
            found[-1].symbols.append(symbol)
    return found


class Watched(Link):
    """A link that keeps the samples that come."""

    def __init__(self, to, net, me, seconds, counts):
        self.samples, self.counts = [], counts
        super().__init__(to, net, me, seconds)

    def ask(self, port, request):
        self.counts["requests"] += 1
        return super().ask(port, request)

    def noted(self, frame):
        try:
            self.samples += read_samples(frame.payload)
        except BadPayload as fault:
            raise Ended(f"{self.to} does not speak ADS: {fault}", 9) from None

    def idle(self, until, wake):
        """Waits for samples, for a wake or for a moment, whichever comes first; takes what came."""
        self.note_all()
        ready, _, _ = select.select([self.socket, wake], [], [], 0.0 if self.samples else max(0.0, until - time.monotonic()))
        if wake in ready:
            wake.recv(4096)
        if self.socket in ready:
            self.stream += self.received()
            self.note_all()
        came, self.samples = self.samples, []
        self.counts["samples"] += len(came)
        return came

    def received(self):
        try:
            piece = self.socket.recv(1 << 20)
        except OSError as fault:
            raise Ended(f"the connection to {self.to} failed: {fault.strerror or fault}", 6) from None
        if not piece:
            raise Ended(f"{self.to} closed the connection", 9)
        return piece

    def note_all(self):
        """Takes the whole frames of the stream, which are notifications, since no answer is waited for."""
        packets, self.stream, fault = cut(self.stream)
        try:
            if fault:
                raise fault
            frames = [frame_of(ams) for ams in packets]
        except BadFrame as wrong:
            raise Ended(f"{self.to} does not speak ADS: {wrong}", 9) from None
        for frame in frames:
            if frame.command != NOTE:
                raise Ended(f"{self.to} sent an answer that nobody asked for", 9)
            self.noted(frame)


class Watching:
    """The values of a table over a link: who asks for them keeps no byte of another description, for a new one ends this."""

    def __init__(self, link, table, cycle):
        self.link, self.table, self.cycle = link, table, cycle
        self.ranges, self.handles, self.summed, self.images, self.missing, self.is_over = ranges_of(table.symbols), {}, [], {}, {}, False
        for it in self.ranges:
            image = self.images.setdefault((it.port, it.group), bytearray())
            image.extend(bytes(max(0, it.end - len(image))))
            for symbol in it.symbols:
                self.missing[id(symbol)] = self.missing.get(id(symbol), 0) + 1

    def subscribe(self):
        for it in self.ranges:
            if len(self.handles) < MOST_RANGES and it.end - it.start <= MOST_WATCHED:
                try:
                    data = self.link.ask(it.port, Request(ADD, *it.place(), mode=ON_CHANGE, cycle=self.cycle))
                    self.handles[struct.unpack("<I", data)[0]] = it
                    continue
                except Refused as refused:
                    if refused.code not in (0x716, 0x717):
                        raise
            self.summed.append(it)

    def leave(self):
        """Deletes the notifications that the server may have still."""
        for handle, it in self.handles.items():
            try:
                self.link.ask(it.port, Request(DELETE, offset=handle))
            except Refused:
                pass
        self.handles, self.link.samples = {}, []

    def is_whole(self):
        return not any(self.missing.values())

    def take(self, samples, moment):
        """Takes samples, all before the values of any symbol are looked at; the numbers of the leaves that changed."""
        touched = {}
        for sample in samples:
            it = self.handles.get(sample.handle)
            if it is None:
                continue
            if not sample.data:
                self.is_over = True
            elif len(sample.data) != it.end - it.start:
                raise Ended(f"{self.link.to} sent {len(sample.data)} bytes of a notification of {it.end - it.start}", 9)
            else:
                self.put(it, sample.data, touched)
        return self.looked_at(touched, moment)

    def put(self, it, data, touched):
        self.images[it.port, it.group][it.start:it.end] = data
        for symbol in it.symbols:
            self.missing[id(symbol)] -= not it.is_known
            touched[id(symbol)] = symbol
        it.is_known = True

    def looked_at(self, touched, moment):
        changed = []
        with self.table.lock:
            for symbol in touched.values():
                if not self.missing[id(symbol)]:
                    image = self.images[symbol.port, symbol.group]
                    changed += self.table.take(symbol, bytes(image[symbol.at:symbol.at + symbol.size]), moment)
            self.table.order += bool(changed)
        return changed

    def read_summed(self, moment):
        """The ranges without a notification, in sums that tell the version, too: where it is another, nothing of the sum is taken."""
        touched, left = {}, list(self.summed)
        while left:
            some, size = [], 0
            while left and len(some) < MOST_PARTS and left[0].port == (some or left)[0].port and size < MOST_SUM:
                some.append(left.pop(0))
                size += some[-1].end - some[-1].start
            given = self.link.read_all(some[0].port, [(VERSION, 0, 1), *(it.place() for it in some)])
            if given[0] != bytes([self.table.version]):
                self.is_over = True
                return []
            for it, data in zip(some, given[1:]):
                if data is not None:
                    self.put(it, data, touched)
        return self.looked_at(touched, moment)

    def write(self, path, port, bytes_of):
        """Writes a value; a sentence where it is refused, else None."""
        found = self.table.find(path, port)
        if not found:
            return f"the server has no {path} now"
        leaf = self.table.leaves[found[1]]
        return self.write_bytes(leaf.path, found[0].port, lambda: bytes_of(leaf, self.table.words.get(found[1])))

    def write_element(self, path, port, bytes_of):
        """Writes a whole structure of an array at once."""
        found = self.table.element(path, port)
        return self.write_bytes(found.path, port, lambda: bytes_of(self.table, found)) if found else f"the server has no {path} now"

    def write_bytes(self, path, port, given_of):
        """Writes by a handle, so that a new description can't put the value elsewhere."""
        try:
            given = given_of()
            data = self.link.ask(port, Request(READ_WRITE, HANDLE, 0, 4, path.encode("latin-1")))
            handle = struct.unpack("<I", data)[0]
            try:
                if version_of(self.link, [port]) != self.table.version:
                    self.is_over = True
                    return "a new description came in between: look at the value again, and write again"
                self.link.ask(port, Request(WRITE, BY_HANDLE, handle, 0, given))
            finally:
                self.link.ask(port, Request(WRITE, RELEASE, 0, 0, data))
        except NoValue as fault:
            return str(fault)
        except struct.error:
            raise Ended(f"{self.link.to} gave a handle that is none", 9) from None
        except Refused as refused:
            return refusal(refused.code, path, self.link.me)
        return None


def refusal(code, path, me):
    """A refusal of a write in words."""
    why = {0x704: f": the route {me} has no right to write, or {path} is read-only, or its writers are others",
           0x710: ": the server has no such symbol now", 0x711: ": a new description came in between"}
    return f"the server refuses, {code_text(code)}{why.get(code, '')}"


def wake_pair():
    """What a thread that waits is woken by: the end to wait at, and the end to write a byte to."""
    here, there = socket.socketpair()
    there.setblocking(False)
    return here, there
