"""An accepted description as a plant: its ports, their symbols by name, and the parts of these by path and by place."""
import bisect
import re
from typing import NamedTuple

from lib.groups import AREA_OF, BYTES
from lib.layout import Shape, part_at, step_into
from lib.type_texts import IDENTIFIER, lower

INDEX = re.compile(r"\[(-?[0-9]{1,10})(?:,(-?[0-9]{1,10}))?(?:,(-?[0-9]{1,10}))?\]")


class Part(NamedTuple):
    """A symbol or a part of it: its path as declared, its area, its offset in it, and its type."""
    path: str
    area: str
    at: int
    shape: Shape

    def group(self):
        return BYTES[self.area]


class Port:
    """A port with its symbols; `upload` is the number of bytes of the upload of these."""

    def __init__(self, number, symbols, shapes):
        self.number, self.symbols, self.placed, self.upload = number, {}, {area: [] for area in BYTES}, 0
        self.writers = {lower(symbol["name"]): symbol["writers"] for symbol in symbols if symbol["writers"]}
        for symbol in symbols:
            part = Part(symbol["name"], symbol["area"], symbol["offset"], shapes[symbol])
            self.symbols[lower(part.path)] = part
            self.placed[part.area].append((part.at, part.path, part))
            self.upload += 33 + len(part.path) + len(part.shape.text()) + len(symbol["comment"])
        for placed in self.placed.values():
            placed.sort()

    def find(self, path):
        """The part that a path names; None where there is none."""
        steps = steps_of(path)
        for count in range(1, len(steps) + 1):
            if not isinstance(steps[count - 1], str):
                break
            part = self.symbols.get(lower(".".join(steps[:count])))
            if part:
                return within(part, steps[count:])
        return None

    def symbol_of(self, path):
        """The symbol that a path begins with; None where there is none."""
        ends = [at for at, letter in enumerate(path) if letter in ".["] + [len(path)]
        return next((self.symbols[lower(path[:end])] for end in ends if lower(path[:end]) in self.symbols), None)

    def writers_of(self, path):
        """The NetIds that alone may write what a path names; none where every route with the right may."""
        symbol = self.symbol_of(path)
        return self.writers.get(lower(symbol.path), []) if symbol else []

    def at(self, group, offset, size):
        """The outermost part that has exactly these bytes; None where none has."""
        placed = self.placed.get(AREA_OF.get(group), [])
        place = bisect.bisect_right(placed, (offset, "\x7f")) - 1
        if place < 0 or offset + size > placed[place][0] + placed[place][2].shape.size():
            return None
        part = placed[place][2]
        found = part_at(part.shape, offset - part.at, size)
        return Part(part.path + found[0], part.area, offset, found[1]) if found else None


class Plant:
    """A description that was accepted."""

    def __init__(self, verdict):
        d = verdict.document
        self.net, self.routes = d["net"], [route["net"] for route in d["route"]]
        self.types = verdict.types.listed
        self.ports = {port["port"]: Port(port["port"], port["symbol"], verdict.shapes) for port in d["port"]}

    def port(self, number):
        """The port of a number; one without symbols where there is none."""
        return self.ports.get(number) or Port(number, [], {})

    def type_upload(self):
        """The bytes of the upload of the types."""
        return sum(45 + len(it.name) + len(it.base or "") + sum(
            45 + len(own.name) + len(own.shape.text()) + len(own.comment) + 8 * len(own.shape.ends) for own in it.members) for it in self.types)


def steps_of(path):
    """The steps of a path: names, and tuples of indexes; none where it is no path."""
    steps, at = [], 0
    while at < len(path) or not steps:
        index = INDEX.match(path, at) if steps else None
        name = IDENTIFIER.match(path, at + bool(steps)) if not steps or path[at:at + 1] == "." else None
        if not index and not name:
            return []
        steps.append(tuple(int(word) for word in index.groups() if word is not None) if index else name[0])
        at = (index or name).end()
    return steps


def within(part, steps):
    for step in steps:
        found = step_into(part.shape, step)
        if found is None:
            return None
        at, shape, member = found
        said = f".{member.name}" if member else f"[{','.join(map(str, step))}]"
        part = Part(part.path + said, part.area, part.at + at, shape)
    return part
