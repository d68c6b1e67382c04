"""What a server tells of itself, as a description: the symbols that it can hold, their types, and a comment for what is left out."""
import bisect

from lib.groups import AREA_OF, BYTES
from lib.rules_ports import IMAGE_LIMITS, MOST_SYMBOLS, MOST_UPLOAD
from lib.rules_types import LIMIT, LONGEST, MOST_TYPES
from lib.type_book import TypeBook, comment_of, text
from lib.type_texts import NoType, is_identifier, lower

PERSISTENT, BIT, REFERENCE, READ_ONLY = 0x1, 0x2, 0x4, 0x20
IMAGE = max(IMAGE_LIMITS.values())
PLAIN_REASONS = {BIT: "it is a bit field", REFERENCE: "it is a reference"}


class Symbol:
    def __init__(self, entry, area, shape):
        self.name, self.area, self.at, self.shape, self.entry = text(entry.name), area, entry.offset, shape, entry
        self.comment, self.initial = comment_of(entry.comment), None

    def upload(self):
        return 33 + len(self.name) + len(self.shape.text()) + len(self.comment)


class Port:
    """A port as it is described: its number, its facts, the sizes that it tells of its areas, its symbols, and remarks on what was left out."""

    def __init__(self, number, facts, sizes):
        self.number, self.facts, self.sizes = number, facts, sizes
        self.symbols, self.remarks, self.names, self.heads, self.taken = [], [], set(), set(), {area: [] for area in BYTES}

    def areas(self):
        """The sizes of the areas: as they are told, or as great as the symbols need where that is more, or where what is told is too much."""
        needed = {area: max((it.at + it.shape.size() for it in self.symbols if it.area == area), default=0) for area in BYTES}
        told = {area: max(self.sizes.get(area) or 0, needed[area]) for area in BYTES}
        return told if sum(told.values()) <= IMAGE else needed


class Describing:
    def __init__(self):
        self.book, self.ports, self.types = TypeBook(), [], []

    def port(self, number, facts, sizes, symbols, types):
        """Takes what a port tells: symbol and type entries."""
        self.book.of_port(types)
        port, room, upload = Port(number, facts, sizes), room_of(symbols), 0
        for entry in symbols:
            try:
                symbol = self.symbol(port, entry, room)
                if upload + symbol.upload() > MOST_UPLOAD or len(port.symbols) >= MOST_SYMBOLS:
                    raise NoType(f"a port has at most {MOST_SYMBOLS} symbols and {MOST_UPLOAD} bytes of upload")
                fresh = self.fresh_types(symbol.shape)
                self.put(port, symbol)
                self.types += fresh
                upload += symbol.upload()
            except NoType as fault:
                port.remarks.append(f"left out: {text(entry.name)} ({text(entry.type)}): {fault}")
        self.ports.append(port)
        return port

    def symbol(self, port, entry, room):
        area, name = AREA_OF.get(entry.group), text(entry.name)
        if area is None:
            raise NoType(f"the group 0x{entry.group:X} is none of the four areas")
        why = next((why for flag, why in PLAIN_REASONS.items() if entry.flags & flag), None)
        if why or len(name) > LONGEST or not all(is_identifier(word) for word in name.split(".")):
            raise NoType(why or "its name is not identifiers joined by full stops")
        shape = self.book.shape(text(entry.type))
        if shape.size() != entry.size or shape.count() > LIMIT or entry.size > LIMIT:
            raise NoType(f"it has {entry.size} bytes, and {shape.text()} has {shape.size()}")
        if entry.offset + entry.size > room[area]:
            raise NoType(f"it ends at {entry.offset + entry.size}, beyond the {IMAGE} bytes of a port")
        return Symbol(entry, area, shape)

    def fresh_types(self, shape):
        """The types that a shape names and no earlier one did, those first that others name."""
        fresh = []

        def visit(it):
            named = it.element[1] if it.element[0] == "named" else None
            if named is None or named in self.types or named in fresh:
                return
            for member in named.members:
                visit(member.shape)
            fresh.append(named)

        visit(shape)
        if len(self.types) + len(fresh) > MOST_TYPES:
            raise NoType(f"a description has at most {MOST_TYPES} types")
        return fresh

    @staticmethod
    def put(port, symbol):
        """A symbol behind those before it: no name begins with another, no byte has two symbols."""
        words = lower(symbol.name).split(".")
        heads = {".".join(words[:count]) for count in range(1, len(words))}
        if lower(symbol.name) in port.names or lower(symbol.name) in port.heads or heads & port.names:
            raise NoType("its name, or the name of an earlier symbol, begins with the other")
        taken, end = port.taken[symbol.area], symbol.at + symbol.shape.size()
        place = bisect.bisect_left(taken, (symbol.at,))
        other = next((it for it in taken[max(place - 1, 0):place + 1] if it[0] < end and symbol.at < it[1]), None)
        if other:
            raise NoType(f"its bytes are those of {other[2]}, too")
        taken.insert(place, (symbol.at, end, symbol.name))
        port.names.add(lower(symbol.name))
        port.heads |= heads
        port.symbols.append(symbol)


def room_of(symbols):
    """How far each area may reach so that all fit together: where they are too many bytes, the greatest is cut."""
    ends = {area: max((it.offset + it.size for it in symbols if it.group == group), default=0) for area, group in BYTES.items()}
    while sum(ends.values()) > IMAGE:
        greatest = max(ends, key=ends.get)
        ends[greatest] = max(IMAGE - sum(size for area, size in ends.items() if area != greatest), 0)
    return ends


def quoted(data):
    return '"' + data.replace("\\", "\\\\").replace('"', '\\"') + '"'


def remark(sentence):
    """A comment line; what could end it is told by its number."""
    return "# " + "".join(letter if " " <= letter <= "~" else f"\\x{ord(letter):02x}" for letter in sentence)[:400]


def type_lines(named):
    lines = ["", "[[type]]", f"name = {quoted(named.name)}"]
    if named.base:
        lines += [f"base = {quoted(named.base)}", "value = ["]
        return [*lines, *(f"  {{ name = {quoted(name)}, number = {number} }}," for name, number in named.values), "]"]
    lines.append("member = [")
    for member in named.members:
        comment = f", comment = {quoted(member.comment)}" if member.comment else ""
        lines.append(f"  {{ name = {quoted(member.name)}, type = {quoted(member.shape.text())}{comment} }},")
    return [*lines, "]"]


def symbol_lines(symbol):
    lines = ["", "[[port.symbol]]", f"name = {quoted(symbol.name)}", f"type = {quoted(symbol.shape.text())}", f"area = {quoted(symbol.area)}",
             f"offset = {symbol.at}"]
    lines += [f"comment = {quoted(symbol.comment)}"] if symbol.comment else []
    lines += [f"{key} = true" for key, flag in (("persistent", PERSISTENT), ("read_only", READ_ONLY)) if symbol.entry.flags & flag]
    return lines + ([f"initial = {quoted(symbol.initial.hex())}"] if symbol.initial is not None else [])


def port_lines(port):
    major, minor, build, name = port.facts
    lines = ["", "[[port]]", f"port = {port.number}", f"name = {quoted(name)}", f"major = {major}", f"minor = {minor}", f"build = {build}"]
    lines += [f"{area} = {size}" for area, size in port.areas().items() if size]
    for symbol in port.symbols:
        lines += symbol_lines(symbol)
    return lines + ["", *(remark(sentence) for sentence in port.remarks)] if port.remarks else lines


def description_text(describing, net, routes):
    """The description; `routes` are pairs of a NetId and rights."""
    second = any(it.base for it in describing.types) or any(sum(port.areas().values()) > IMAGE_LIMITS[1] for port in describing.ports)
    lines = ["# Written by tools/describe.py from what a server tells. No server tells its routes, its writers and its signals.",
             *(remark(note) for note in describing.book.notes), f"schema = {2 if second else 1}", f"net = {quoted(net)}"]
    for own, rights in routes:
        lines += ["", "[[route]]", f"net = {quoted(own)}", f"rights = {quoted(rights)}"]
    for named in describing.types:
        lines += type_lines(named)
    for port in describing.ports:
        lines += port_lines(port)
    return "".join(line + "\n" for line in lines)
