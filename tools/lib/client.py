"""A client of an ADS server by names: symbols and their parts with types, read and written in sums, and watched.

    client = Client((to, net, me, seconds), port, description)
    level = client.find("Tank.level")
    number = level.read(client.reading([level]).take()[0], 0)
    client.write([(level, data) for _, data in level.bytes_of(number + 1.5)], told)

Reads go by the places of symbols, with the version of the description in the same sum; writes go by handles. So a new
description, which is noticed, can put no value elsewhere.
"""
import select
import struct
import time
from typing import Any, Callable, Dict, Iterable, List, Optional, Tuple

from lib import groups
from lib.flow_names import ask_names, described, known_of
from lib.flow_session import Session
from lib.flow_stream import Stream
from lib.frames import READ_WRITE
from lib.link import Refused
from lib.named_values import given_parts, packer_of, reader_of
from lib.near import meant
from lib.payloads import Request
from lib.plant import Part, steps_of, within
from lib.served import agree
from lib.shown import shown
from lib.type_texts import lower
from lib.value_json import NoValueOf
from lib.values import printed
from lib.words import Ended

# Parts of a sum, beside the version; bytes of a sum; handles of a connection, of which a server of ours has 4,096;
# symbols of which one may be suggested for a name.
MOST_PARTS, MOST_BYTES, MOST_HANDLES, MOST_NAMES = 499, 500000, 4000, 5000
STALE, NO_SYMBOL = 0x711, 0x710


class NoSymbol(LookupError):
    """A name that the server does not have now; the text says what would be right, which takes time to find."""

    def __init__(self, path: str, why: Callable[[], str]):
        super().__init__(path)
        self.path, self.why = path, why

    def __str__(self):
        return self.why()


class NewDescription(Exception):
    """The server has another description than the one that was asked for: `describe` again."""


class Symbol:
    """A symbol of the server; its shape is the description's where the two agree."""

    def __init__(self, entry, book, port):
        """`port` is that of the description, if there is one."""
        known, part = known_of(entry, book), None
        self.name, self.raw, self.type, self.size = known.name, entry.name, known.type, known.size
        self.group, self.offset = entry.group, entry.offset
        if port and known.shape:
            part = port.find(self.name)
        is_same = bool(part) and part.shape.text() == self.type and agree(part.shape, known.shape)
        self.shape = part.shape if is_same else known.shape
        # (a server of ours tells an enumeration by its base alone)
        self.lacks_names = not is_same and bool(known.shape) and known.shape.text() != known.type


class Place:
    """A symbol, or a part of one, where the present description puts it; `at` and `end` are its bytes in the symbol."""

    def __init__(self, path: str, symbol: Symbol, at: int, shape):
        self.path, self.symbol, self.at, self.shape = path, symbol, at, shape
        self.size = shape.size() if shape else symbol.size
        self.end, self.raw = at + self.size, symbol.raw + path[len(symbol.name):].encode()
        self.handle: Optional[int] = None
        self.head = b""
        self.read: Callable[[bytes, int], Any] = reader_of(shape) if shape else self.read_bytes
        self.pack = packer_of(shape)

    def read_bytes(self, data: bytes, at: int) -> str:
        return "16#" + bytes(data[at:at + self.size]).hex()

    def is_bare_number(self) -> bool:
        """Whether it may be an enumeration of which no name is known."""
        return self.symbol.lacks_names and bool(self.shape) and self.shape.is_plain()

    def bytes_of(self, value: Any) -> List[Tuple[str, bytes]]:
        """The paths and bytes that a value gives: its own, or those of the members that a dictionary names. A NoValueOf
        where it is no value."""
        data = self.pack(value)
        if data is not None:
            return [(self.path, data)]
        if self.shape is None:
            raise NoValueOf(f"the type {self.symbol.type} of {self.path} is not known, so it can't be written")
        try:
            return given_parts(self.path, self.shape, value)
        except NoValueOf as fault:
            names = "; a --plant that the server agrees with tells the names of enumerations"
            raise NoValueOf(f"{fault}{names * (isinstance(value, str) and self.is_bare_number())}") from None


def in_sums(parts: list, size_of: Callable[[Any], int]) -> List[list]:
    """The parts in lists of which each fits a sum."""
    found, size = [], MOST_BYTES
    for it in parts:
        size += size_of(it)
        if size > MOST_BYTES or len(found[-1]) >= MOST_PARTS:
            found.append([])
            size = size_of(it)
        found[-1].append(it)
    return found


class Reading:
    """Places that are read together, in as few sums as hold them, each with the version of the description in front."""

    def __init__(self, client: "Client", places: Iterable[Place]):
        self.client, self.sums = client, [self.sum_of(it) for it in in_sums(list(places), lambda it: it.size) or [[]]]

    @staticmethod
    def sum_of(places):
        """The request, and for each place where its bytes begin and end in the answer."""
        heads = [struct.pack("<III", groups.VERSION, 0, 1)]
        heads += [struct.pack("<III", it.symbol.group, it.symbol.offset + it.at, it.size) for it in places]
        ends, at = [], 4 * len(heads) + 1
        for it in places:
            ends.append((at, at + it.size))
            at += it.size
        return Request(READ_WRITE, groups.SUM_READ, len(heads), at, b"".join(heads)), ends

    def take(self) -> List[Optional[bytes]]:
        """The bytes of each place as they are now, None where reading it is refused. A NewDescription where the places
        are no longer these."""
        client, found = self.client, []
        asked = [client.stream.send(client.port, request) for request, _ in self.sums]
        answers = [client.stream.wait(number) for number in asked]
        for (request, ends), (code, data) in zip(self.sums, answers):
            if code:
                raise Refused(code)
            if len(data) != request.length:
                raise Ended(f"{client.to} gave {len(data)} bytes of a sum where {request.length} were asked for", 9)
            codes = data[:4 * request.offset]
            if codes[:4] != bytes(4) or data[len(codes)] != client.version:
                raise NewDescription
            if codes.count(0) != len(codes):
                ends = [it if codes[4 * at:4 * at + 4] == bytes(4) else None for at, it in enumerate(ends, 1)]
            found += [data[it[0]:it[1]] if it else None for it in ends]
        client.checked = time.monotonic()
        return found


class Client:
    """A connection with one AMS port. `description` has the types of a description, for the names of enumerations."""

    def __init__(self, link, port: int, description=None):
        """`link` are to, net, me and seconds of a Stream."""
        self.link, self.to, self.port, self.description = link, link[0], port, description
        self.stream: Stream = Stream(*link, lambda stream, payload: None)
        self.session: Optional[Session] = None
        self.entries, self.book, self.version, self.checked = {}, None, None, 0.0
        self.symbols: Dict[str, Symbol] = {}
        self.places: Dict[str, Place] = {}
        self.listed: List[str] = []
        self.order: Dict[str, int] = {}
        self.held: List[int] = []
        # (writes that were refused as if the description were another one)
        self.doubtful: List[Tuple[Place, int, Callable[[Place, int], None]]] = []
        try:
            self.describe()
            self.stream.seen = 0  # (it has let us in: its end does not ask for a route)
        except BaseException:
            self.close()
            raise

    def close(self):
        self.stream.close()
        if self.session:
            self.session.close()

    # What there is.

    def describe(self):
        """Asks what the server has now. Places of before are no longer right."""
        self.release()
        for _ in range(20):
            before = self.version_of()
            try:
                found = described(self.stream, self.port)
            except (Ended, Refused):
                # (unless a new description came between two of its answers)
                if self.version_of() == before:
                    raise
                continue
            if self.version_of() == before:
                self.entries, self.book = found
                self.version, self.checked = before, time.monotonic()
                self.symbols, self.places, self.doubtful, self.order = {}, {}, [], {}
                return
        raise Ended(f"{self.to} has a new description again and again", 9)

    def version_of(self) -> int:
        return self.stream.read(self.port, groups.VERSION, 0, 1, 1)[0]

    def check(self):
        """A NewDescription where the server has another one by now."""
        Reading(self, []).take()
        doubtful, self.doubtful = self.doubtful, []
        for place, code, told in doubtful:
            told(place, code)

    def symbol(self, key: str) -> Symbol:
        if key not in self.symbols:
            port = self.description.port(self.port) if self.description else None
            self.symbols[key] = Symbol(self.entries[key], self.book, port)
        return self.symbols[key]

    def find(self, path: str) -> Place:
        """Where a name leads, in any case of letters; a NoSymbol where the server has none."""
        key = lower(path) if path.isascii() else ""
        place = self.places.get(key)
        if place is None:
            place = self.places[key] = self.found(path, key)
        return place

    def found(self, path, key):
        if key in self.entries:
            symbol = self.symbol(key)
            return Place(symbol.name, symbol, 0, symbol.shape)
        steps = steps_of(path) if key else []
        for count in range(len(steps) - 1, 0, -1):
            head = lower(".".join(steps[:count])) if all(isinstance(it, str) for it in steps[:count]) else None
            symbol = self.symbol(head) if head in self.entries else None
            part = within(Part(symbol.name, "", 0, symbol.shape), steps[count:]) if symbol and symbol.shape else None
            if part:
                return Place(part.path, symbol, part.at, part.shape)
        raise NoSymbol(path, lambda: self.why_none(path))

    def why_none(self, path):
        names = [printed(it.name) for it in self.entries.values()] if len(self.entries) <= MOST_NAMES else []
        right = meant(path, names, lambda name: self.symbol(lower(name)).shape) if path.isascii() else None
        return f"the server has no symbol {shown(path)}" + (f"; {right}" if right else "")

    def names_from(self, name: str, most: int) -> List[str]:
        """A symbol and those behind it, at most so many, in the order in which the server tells them."""
        if not self.order:
            self.listed = list(self.entries)
            self.order = {key: at for at, key in enumerate(self.listed)}
        at = self.order[lower(name)]
        return [printed(self.entries[key].name) for key in self.listed[at:at + most]]

    # Values.

    def reading(self, places: Iterable[Place]) -> Reading:
        return Reading(self, places)

    def write(self, parts: List[Tuple[Place, bytes]], told: Callable[[Place, int], None]):
        """Writes parts in sums. `told` gets the code of each that is refused, at once or when the answer comes."""
        for some in in_sums(parts, lambda it: it[0].size):
            self.grant([place for place, _ in some], told)
            some = [it for it in some if it[0].handle is not None]
            given = b"".join([place.head for place, _ in some] + [data for _, data in some])
            request = Request(READ_WRITE, groups.SUM_WRITE, len(some), 4 * len(some), given)
            if some:
                self.stream.send(self.port, request, self.answered(some, told))

    def answered(self, some, told):
        """What takes the answer of a sum of writes."""
        def take(code, data):
            if not code and len(data) != 4 * len(some):
                raise Ended(f"{self.to} gave {len(data)} bytes of a sum of {len(some)} writes", 9)
            if code or data.count(0) != len(data):
                codes = [code] * len(some) if code else struct.unpack(f"<{len(some)}I", data)
                for (place, _), own in zip(some, codes):
                    self.refused(place, own, told)
        return take

    def refused(self, place, code, told):
        if code in (STALE, NO_SYMBOL):
            self.doubtful.append((place, code, told))
        elif code:
            told(place, code)

    def grant(self, places, told):
        """Asks for the handles of places that have none."""
        if len(self.held) + len(places) > MOST_HANDLES and any(it.handle is None for it in places):
            self.release()
        fresh = [it for it in places if it.handle is None]
        given = ask_names(self.stream, self.port, groups.HANDLE, [it.raw for it in fresh], 4)
        for place, (code, data) in zip(fresh, given):
            if code or len(data) != 4:
                self.refused(place, code or NO_SYMBOL, told)
                continue
            place.handle = struct.unpack("<I", data)[0]
            place.head = struct.pack("<III", groups.BY_HANDLE, place.handle, place.size)
            self.held.append(place.handle)

    def release(self):
        """Gives all handles back."""
        held, self.held, asked = self.held, [], []
        for place in self.places.values():
            place.handle = None
        for at in range(0, len(held), MOST_PARTS):
            some = held[at:at + MOST_PARTS]
            heads = struct.pack("<III", groups.RELEASE, 0, 4) * len(some) + struct.pack(f"<{len(some)}I", *some)
            request = Request(READ_WRITE, groups.SUM_WRITE, len(some), 4 * len(some), heads)
            asked.append((request, lambda code, data: None))
        self.stream.ask_all(self.port, asked)

    # What comes by itself.

    def watch(self, names: List[str], sink):
        """Has each change of these names told to a sink, as flow_session.Session has it."""
        self.session = Session(self.link, self.port, names, "change", 0, sink)
        self.session.open()

    def wait(self, seconds: float):
        """Takes what comes within so many seconds; gives back where something does."""
        streams = [self.stream] + (self.session.streams if self.session else [])
        if self.stream in select.select(streams, [], [], seconds)[0]:
            self.stream.pump()
        if self.session:
            self.session.step(0)
