"""The values of a server by name: many read and written in sums, with the types of a description where it agrees
with the server.
"""
import struct

from lib import groups
from lib.codes import code_text
from lib.describing import READ_ONLY
from lib.flow_names import ask_names, is_pattern, wanted
from lib.flow_stream import Stream
from lib.frames import READ_WRITE
from lib.link import Refused
from lib.payloads import Request
from lib.served import agree
from lib.type_texts import lower
from lib.value_json import NoValueOf, json_of
from lib.value_parts import differing, joined, parts_of
from lib.words import Ended

SUM, MOST_BYTES = 500, 500000
NOT_PERMITTED, NO_SIZE = 0x704, 0x705


class Values:
    """A connection with one AMS port. `plant` has the types of a description, for the names of its enumerations."""

    def __init__(self, link, port, plant=None):
        self.stream, self.port, self.plant = Stream(*link, lambda stream, payload: None), port, plant
        self.to, self.link = link[0], link

    def close(self):
        self.stream.close()

    def found(self, words):
        """What names and patterns mean, by name in the order of the words; what means nothing ends it."""
        try:
            found, missing = wanted(self.stream, self.port, words)
        except Refused as refused:
            raise Ended(f"{self.to} refuses port {self.port}: {code_text(refused.code)}", 8) from None
        if missing:
            more = f", and no {len(missing) - 1} more" if missing[1:] else ""
            meant = missing[0].meant()
            raise Ended(
                f"{self.to} has no symbol {str(missing[0])!r} at port {self.port}{more}"
                + (f"; {meant}" if meant else ""),
                8,
            )
        for known in found.values():
            known.shape = self.own_shape(known) or known.shape
        return found

    def own_shape(self, known):
        """The type that the description has for a name; none where it has another text or size than the server's."""
        part = self.plant and self.plant.port(self.port).find(known.name)
        fits = part and part.shape.text() == known.type and part.shape.size() == known.size
        return part.shape if fits and (known.shape is None or agree(part.shape, known.shape)) else None

    def read(self, knowns):
        """The bytes of each, None where it is refused, with the code."""
        found, left = [], list(knowns)
        while left:
            some, size = [], 0
            while left and len(some) < SUM and (not some or size + left[0].size <= MOST_BYTES):
                size += left[0].size
                some.append(left.pop(0))
            handles = self.handles(some)
            heads = b"".join(
                struct.pack("<III", groups.BY_HANDLE, handle or 0, it.size) for it, (_, handle) in zip(some, handles)
            )
            data, at = self.sum(groups.SUM_READ, len(some), 4 * len(some) + size, heads), 4 * len(some)
            for place, (it, (refusal, _)) in enumerate(zip(some, handles)):
                code = refusal or struct.unpack_from("<I", data, 4 * place)[0]
                found.append((code, None if code else data[at : at + it.size]))
                at += it.size
            self.release(handles)
        return found

    def write(self, parts):
        """Writes parts, each a path and bytes, in sums; gives the code of each, 0 where it was accepted."""
        codes, left = [], list(parts)
        while left:
            some, size = [], 0
            while left and len(some) < SUM and (not some or size + len(left[0][1]) <= MOST_BYTES):
                size += len(left[0][1])
                some.append(left.pop(0))
            handles = self.handles_of([path.encode() for path, _ in some])
            heads = b"".join(
                struct.pack("<III", groups.BY_HANDLE, handle or 0, len(data))
                for (_, data), (_, handle) in zip(some, handles)
            )
            data = self.sum(groups.SUM_WRITE, len(some), 4 * len(some), heads + b"".join(data for _, data in some))
            codes += [
                refusal or struct.unpack_from("<I", data, 4 * place)[0] for place, (refusal, _) in enumerate(handles)
            ]
            self.release(handles)
        return codes

    def sum(self, group, count, length, data):
        given = self.asked(Request(READ_WRITE, group, count, length, data))
        if len(given) != length:
            raise Ended(f"{self.to} gave {len(given)} bytes of a sum where {length} were asked for", 9)
        return given

    def asked(self, request):
        try:
            return self.stream.ask(self.port, request)
        except Refused as refused:
            raise Ended(f"{self.to} refuses a sum at port {self.port}: {code_text(refused.code)}", 8) from None

    def handles(self, knowns):
        return self.handles_of([it.raw for it in knowns])

    def handles_of(self, names):
        """For each name the code that refuses its handle, or 0 and the handle."""
        try:
            found = ask_names(self.stream, self.port, groups.HANDLE, names, 4)
        except Refused as refused:
            raise Ended(f"{self.to} refuses a sum at port {self.port}: {code_text(refused.code)}", 8) from None
        return [(code, None if code or len(data) != 4 else struct.unpack("<I", data)[0]) for code, data in found]

    def release(self, handles):
        mine = [handle for _, handle in handles if handle is not None]
        heads = b"".join(struct.pack("<III", groups.RELEASE, 0, 4) for _ in mine)
        if mine:
            self.asked(
                Request(
                    READ_WRITE,
                    groups.SUM_WRITE,
                    len(mine),
                    4 * len(mine),
                    heads + b"".join(struct.pack("<I", it) for it in mine),
                )
            )

    def values(self, words):
        """The values of names and patterns, by name."""
        found = self.found(words)
        values = {}
        for known, (code, data) in zip(found.values(), self.read(found.values())):
            if code:
                raise Ended(f"{self.to} refuses {known.name}: {code_text(code)}", 8)
            values[known.name] = json_of(known.shape, data) if known.shape else "16#" + data.hex()
        return values

    def parts(self, given):
        """The parts that values by name give, pairs of a symbol and its parts in the order of their places: all are
        checked, and nothing is written.
        """
        pattern = next((name for name in given if is_pattern(name)), None)
        if pattern:
            raise Ended(f"{pattern!r} is a pattern, and values are set by their names; nothing was written")
        found, parts = self.found(list(given)), []
        for name, value in given.items():
            known = found[lower(name)]
            try:
                if known.shape is None:
                    raise NoValueOf(
                        f"the type {known.type} of {known.name} is not known, so its value can't be written"
                    )
                parts.append((known, sorted(parts_of(known.name, known.shape, value), key=lambda part: part.at)))
            except NoValueOf as fault:
                raise Ended(f"{fault}; nothing was written", 13) from None
        return parts

    def put(self, given):
        """Writes values by name, all checked before the first is written; gives the paths that were written and the
        code of each.
        """
        return self.put_parts(
            [part for known, parts in self.parts(given) for part in joined(known.name, known.shape, parts)]
        )

    def put_parts(self, parts):
        return list(zip([part.path for part in parts], self.write([(part.path, part.data) for part in parts])))

    def differing(self, given):
        """What of values by name differs from what there is: for each such symbol its parts, pairs of one that is
        given and the same as it is now.
        """
        parts = self.parts(given)
        found = []
        for (known, own), (code, now) in zip(parts, self.read([known for known, _ in parts])):
            if code:
                raise Ended(f"{self.to} refuses {known.name}: {code_text(code)}", 8)
            pairs = [pair for part in own for pair in differing(part, now)]
            found += [(known, pairs)] if pairs else []
        return found

    def refusals(self, knowns):
        """The code with which a write to each would be refused, 0 where it would not. Nothing is written: a write of
        no byte asks for the rights of the route alone; what is read-only the server tells, and `writers` the
        description.
        """
        codes = self.write([(known.name, b"") for known in knowns])
        port = self.plant and self.plant.port(self.port)
        barred = [
            known.flags & READ_ONLY
            or (port and self.stream.me not in (port.writers_of(known.name) or [self.stream.me]))
            for known in knowns
        ]
        return [
            NOT_PERMITTED if barred and not code else 0 if code == NO_SIZE else code
            for code, barred in zip(codes, barred)
        ]
