"""What a server serves, as a table of values: its symbols as it tells them itself, with the types of a description where the two agree."""
import bisect
import math
import threading
import time
from array import array
from typing import NamedTuple

from describe import counts_of, facts_of, upload
from lib.codes import code_text
from lib.describing import PERSISTENT, READ_ONLY
from lib.entries import read_symbols, read_types
from lib.groups import AREA_OF
from lib.leaves import enum_name, grow, number_in, typed, whole_value
from lib.link import Refused
from lib.type_book import TypeBook, comment_of, text
from lib.type_texts import NoType, lower
from lib.values import printed, value_text
from lib.words import Ended

# Plain values that are shown of a symbol, and of all together; points that are kept of one value, and of all together.
MOST_OF_SYMBOL, MOST_LEAVES, MOST_POINTS, MOST_KEPT = 4096, 50000, 6000, 2000000


class Symbol:
    """A symbol of the table, with the numbers of its first leaf and of the one behind its last."""

    def __init__(self, port, area, entry, shape):
        self.port, self.area, self.at, self.size, self.flags = port, area, entry.offset, entry.size, entry.flags
        self.name, self.group, self.type_id, self.shape = printed(entry.name), entry.group, entry.type_id, shape
        self.comment, self.node, self.first, self.end, self.data = comment_of(entry.comment), None, 0, 0, None
        self.section = ""

    def told(self):
        """The symbol for a page."""
        it = {**self.node.told(), "port": self.port, "group": f"0x{self.group:X}", "at": self.at}
        it.update({"section": self.section} if self.section else {})
        return {**it, **({"flags": "read-only" if self.flags & READ_ONLY else "persistent"} if self.flags & (READ_ONLY | PERSISTENT) else {})}


class Past:
    """The last points of a value: moments in seconds, and numbers."""

    def __init__(self):
        self.times, self.numbers = array("d"), array("d")

    def add(self, moment, value, most):
        self.times.append(moment)
        self.numbers.append(number_in(value))
        if len(self.times) > most:
            del self.times[:most // 4], self.numbers[:most // 4]


class Element(NamedTuple):
    """A structure in an array: where it stands in its symbol, and the numbers of its plain values."""
    path: str
    symbol: Symbol
    at: int
    size: int
    values: dict


def collect(node, path, found):
    if node.leaf is not None:
        found[path.lstrip(".")] = node.leaf
    for part in node.parts:
        collect(part, path + part.name, found)


class Table:
    """The values of a server between two descriptions. What changes and what is read of it goes through `lock`."""

    def __init__(self, generation, version):
        self.generation, self.version, self.notices, self.ports, self.symbols = generation, version, [], [], []
        self.leaves, self.values, self.changed, self.past, self.found = [], [], [], {}, {}
        self.lock, self.order, self.most = threading.Lock(), 0, MOST_POINTS
        # What a page shows beside the values: words by leaf, and each of them once.
        self.words, self.all_words = {}, []

    def add(self, symbol):
        symbol.first = len(self.leaves)
        room = min(symbol.first + MOST_OF_SYMBOL, MOST_LEAVES)
        symbol.node = grow(symbol.name, symbol.name, symbol.shape, symbol.comment, 0, self.leaves, room)
        symbol.end = len(self.leaves)
        self.symbols.append(symbol)
        for number in range(symbol.first, symbol.end):
            self.found[symbol.port, lower(self.leaves[number].path)] = symbol, number

    def close(self, before):
        """The table is whole: values are not known yet, and what is the same in the table before keeps its past."""
        self.values, self.changed = [None] * len(self.leaves), [0.0] * len(self.leaves)
        self.firsts = [symbol.first for symbol in self.symbols]
        self.most = max(100, min(MOST_POINTS, MOST_KEPT // max(1, len(self.leaves))))
        if before:
            for key, (_, number) in self.found.items():
                old = before.found.get(key)
                if old and old[1] in before.past and before.leaves[old[1]].shape.text() == self.leaves[number].shape.text():
                    self.past[number] = before.past[old[1]]

    def port_of(self, number):
        """The port of the symbol that a leaf is of."""
        return self.symbols[bisect.bisect_right(self.firsts, number) - 1].port

    def find(self, path, port=None):
        """The symbol and the number of the leaf that a path names, at a port or at the first that has it; None where there is none."""
        for number in [port] if port else [number for number, _ in self.ports]:
            if (number, lower(path)) in self.found:
                return self.found[number, lower(path)]
        return None

    def element(self, path, port):
        """A structure in a symbol that is an array of them, with its plain values by their paths in it; None where there is none, or not all are shown."""
        name, bracket, _ = path.rpartition("[")
        symbol = next((it for it in self.symbols if it.port == port and lower(it.name) == lower(name)), None)
        node = next((it for it in symbol.node.parts if it.name == path[len(name):]), None) if symbol and bracket else None
        if node is None or node.leaf is not None or node.more or symbol.data is None:
            return None
        found = {}
        collect(node, "", found)
        return Element(symbol.name + node.name, symbol, min(self.leaves[number].at for number in found.values()), node.shape.size(), found)

    def take(self, symbol, data, moment):
        """The bytes of a symbol: the numbers of the leaves that changed, which are given their values."""
        old, symbol.data = symbol.data, data
        if old == data:
            return []
        numbers = []
        for number in range(symbol.first, symbol.end):
            leaf = self.leaves[number]
            end = leaf.at + leaf.size
            if old is None or old[leaf.at:end] != data[leaf.at:end]:
                self.put(number, typed(leaf, data[leaf.at:end]), moment, old is not None)
                numbers.append(number)
        return numbers

    def put(self, number, value, moment, is_change):
        self.values[number] = value
        if is_change:
            self.changed[number] = moment
        if self.leaves[number].kind != "text":
            self.past.setdefault(number, Past()).add(moment, value, self.most)

    def cut(self, moment):
        """The values are not known from here on."""
        with self.lock:
            for past in self.past.values():
                past.add(moment, math.nan, self.most)

    def points(self, number):
        """The moments in milliseconds and the numbers of a value, None where it was not known; a value that is known stands until now."""
        with self.lock:
            past = self.past.get(number) or Past()
            return [round(1000 * moment) for moment in past.times], [None if it != it else it for it in past.numbers]

    def records(self):
        """All values, as /values.json has them."""
        with self.lock:
            return [self.record(symbol) for symbol in self.symbols if symbol.data is not None]

    def record(self, symbol):
        """A symbol with its value, with the text that `ads get` prints, and with when it changed last."""
        changed = max(self.changed[symbol.first:symbol.end], default=0.0)
        it = {"name": symbol.name, "port": symbol.port, "type": symbol.shape.text(), "value": whole_value(symbol.node, self.values)}
        if symbol.node.leaf is not None and self.leaves[symbol.node.leaf].kind == "enum":
            it["word"] = enum_name(symbol.shape, it["value"])
        if symbol.node.more:
            it["left_out"] = symbol.node.more
        # (of an array some servers tell the type of an element)
        said = "16#" + symbol.data.hex() if symbol.shape.ends else value_text(symbol.type_id, symbol.data)
        return {**it, "text": said, "changed": date(changed) if changed else None}


def date(moment):
    return time.strftime("%Y-%m-%dT%H:%M:%S", time.gmtime(moment)) + f".{int(moment * 1000) % 1000:03d}Z"


def agree(own, told, seen=None):
    """Whether a type of a description lies in memory as the one that the server tells; it tells an enumeration by its base alone."""
    seen = set() if seen is None else seen
    (kind, it), (other, that) = own.element, told.element
    if list(own.ends) != list(told.ends):
        return False
    if kind != "named":
        return (kind, it) == (other, that)
    if it.base:
        return (other, that) == ("plain", it.base.upper()) or (other == "named" and that.base == it.base.upper())
    if other != "named" or [(m.name, m.at) for m in it.members] != [(m.name, m.at) for m in that.members]:
        return False
    if (it.name, that.name) in seen:
        return True
    seen.add((it.name, that.name))
    return all(agree(a.shape, b.shape, seen) for a, b in zip(it.members, that.members))


def own_shape(plant, port, entry, told):
    """The type that the description has for an entry, where it has that symbol at that place; else the one that the server tells."""
    own = plant.ports[port].symbols.get(lower(text(entry.name))) if plant and port in plant.ports else None
    same = own and (own.path, own.group(), own.at, own.shape.text()) == (text(entry.name), entry.group, entry.offset, text(entry.type))
    return own.shape if same and agree(own.shape, told) else None


def take_port(table, link, plant, port, differing, book):
    """Takes the symbols that the server has at a port."""
    facts = facts_of(link, port)
    symbols, symbol_bytes, types, type_bytes = counts_of(link, port)
    entries = upload(link, port, "symbols", 0xF00B, symbols, symbol_bytes, read_symbols)
    book.of_port(upload(link, port, "types", 0xF00E, types, type_bytes, read_types))
    table.ports.append((port, facts[3]))
    for entry in entries:
        name = printed(entry.name)
        try:
            told = book.shape(text(entry.type))
        except NoType as fault:
            table.notices.append(f"{name} is not shown: {fault}")
            continue
        if told.size() != entry.size or entry.group not in AREA_OF or entry.offset + entry.size > 4194304:
            table.notices.append(f"{name} is not shown: it has {entry.size} bytes at {entry.offset} of group 0x{entry.group:X}")
            continue
        shape = own_shape(plant, port, entry, told)
        if shape is None and plant:
            differing.append(name)
        table.add(Symbol(port, AREA_OF[entry.group], entry, shape or told))


def table_of(link, plant, file, ports, generation, before):
    """The table of what a server has now; `ports` are those that are shown."""
    table, differing, book = Table(generation, version_of(link, ports)), [], TypeBook()
    for port in ports:
        try:
            take_port(table, link, plant, port, differing, book)
        except Refused as refused:
            table.notices.append(f"port {port} is not shown: the server says {code_text(refused.code)}")
    if not table.ports:
        raise Ended(table.notices[0] if table.notices else f"{link.to} has no port that is shown", 8)
    if differing:
        table.notices.append(f"The server serves something else than {file} says: {len(differing)} of {len(table.symbols)} symbols differ, among them "
                             f"{differing[0]}. Their types are shown as the server tells them, enumerations as numbers.")
    hidden = sum(symbol.node.more for symbol in table.symbols)
    if hidden:
        table.notices.append(f"{hidden:,} values of long arrays are not shown: at most {MOST_OF_SYMBOL:,} of a symbol and {MOST_LEAVES:,} in all.")
    table.close(before)
    return table


def version_of(link, ports):
    """The version of the description that the server has."""
    last = None
    for port in ports:
        try:
            return link.read(port, 0xF008, 0, 1, 1)[0]
        except Refused as refused:
            last = refused
    if last is None:
        raise Ended("no port is shown", 8)
    raise last
