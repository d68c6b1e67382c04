"""The places of a line's symbols: as they say, as they were before, or one behind another at their natural alignment; and the sizes of the areas."""
import bisect

from lib.kept import differs
from lib.layout import aligned
from lib.rules_ports import AREAS
from lib.rules_types import LIMIT
from lib.type_texts import lower


class Before:
    """A description that was served before. `kept` are the symbols that a server keeps, and whose place stays; `moved`, `fresh` and `gone` are the others."""

    def __init__(self, verdict):
        self.shapes, self.ports = verdict.shapes, {port["port"]: port for port in verdict.document["port"]}
        self.found = {(number, lower(symbol["name"])): symbol for number, port in self.ports.items() for symbol in port["symbol"]}
        self.kept, self.moved, self.fresh, self.gone = [], [], [], []

    def place(self, port, symbol, shape):
        """The place that a symbol had, where the server keeps it and it stays in its area; None where it does not."""
        old = self.found.get((port["port"], lower(symbol["name"] or "")))
        return old["offset"] if old and old["area"] == symbol["area"] and is_kept(self.shapes[old], shape) else None

    def end(self, port, area):
        """The end of all that stood in an area."""
        old = self.ports.get(port["port"])
        return max((it["offset"] + self.shapes[it].size() for it in old["symbol"] if it["area"] == area), default=0) if old else 0

    def size(self, port, area):
        old = self.ports.get(port["port"])
        return old[area] if old else 0

    def compare(self, d, shapes):
        """Sorts all symbols by what a server that had the description before does with them."""
        seen = set()
        for port in d["port"]:
            for symbol in port["symbol"]:
                key = port["port"], lower(symbol["name"])
                old = self.found.get(key)
                seen.add(key)
                if old is None or not is_kept(self.shapes[old], shapes[symbol]):
                    self.fresh.append(symbol)
                elif (old["area"], old["offset"]) == (symbol["area"], symbol["offset"]):
                    self.kept.append(symbol)
                else:
                    self.moved.append(symbol)
        self.gone = [symbol for key, symbol in self.found.items() if key not in seen]


def is_kept(old, new):
    """Whether a server keeps a symbol of one type that gets the other one."""
    return old is not None and new is not None and differs(old, new) is None


class Room:
    """The bytes of an area that are taken, and where the next symbol may begin."""

    def __init__(self, floor):
        self.taken, self.floor, self.next = [], floor, floor

    def take(self, start, end):
        bisect.insort(self.taken, (start, end))

    def behind(self, end):
        self.next = max(self.floor, end)

    def free(self, unit, size):
        """The first free place from the next one on."""
        at = aligned(self.next, unit)
        while True:
            place = bisect.bisect_left(self.taken, (at,))
            clash = next((it for it in self.taken[max(place - 1, 0):place + 1] if it[0] < at + size and at < it[1]), None)
            if clash is None:
                return at
            at = aligned(clash[1], unit)


def place_all(d, shapes, before):
    for port in d["port"]:
        rooms = {area: Room(before.end(port, area) if before else 0) for area in AREAS}
        symbols = [symbol for symbol in port["symbol"] if symbol["area"] in AREAS and shapes.get(symbol) and shapes[symbol].size() <= LIMIT]
        fix(port, symbols, shapes, before, rooms)
        for symbol in symbols:
            room, size = rooms[symbol["area"]], shapes[symbol].size()
            if symbol["offset"] is None and "offset" not in symbol.lost:
                symbol.values["offset"] = room.free(min(shapes[symbol].align(), 8), size)
                room.take(symbol["offset"], symbol["offset"] + size)
            room.behind((symbol["offset"] or 0) + size)
        size_areas(port, shapes, symbols, before)


def fix(port, symbols, shapes, before, rooms):
    """Takes the places that are given, and those that symbols had before. Of a range the first stands at the offset, the others behind it."""
    ranged = {}
    for symbol in symbols:
        shape, given = shapes[symbol], symbol["offset"]
        if given is not None:
            last = ranged.get(id(symbol.raw["offset"]))
            symbol.values["offset"] = given if last is None else aligned(last, min(shape.align(), 8))
            ranged[id(symbol.raw["offset"])] = symbol["offset"] + shape.size()
        elif before and "offset" not in symbol.lost:
            symbol.values["offset"] = before.place(port, symbol, shape)
        if symbol["offset"] is not None:
            rooms[symbol["area"]].take(symbol["offset"], symbol["offset"] + shape.size())


def size_areas(port, shapes, symbols, before):
    """Makes each area whose size is not given as great as its symbols need, and no smaller than it was before."""
    for area in AREAS:
        if port[area] is None and area not in port.lost:
            ends = [it["offset"] + shapes[it].size() for it in symbols if it["area"] == area and it["offset"] is not None]
            port.values[area] = max([*ends, before.size(port, area) if before else 0, 0])
