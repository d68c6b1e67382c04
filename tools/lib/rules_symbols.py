"""Description rules 10 to 14: symbols, counted through all ports. Each gives all broken items in order, with what is broken there."""
import bisect
import re

from lib.initial_fault import initial_fault
from lib.layout import aligned
from lib.rules_nets import NO_NET, is_net, near, net_meant
from lib.rules_ports import AREAS
from lib.rules_types import LIMIT, LONGEST, comment_fault, comment_meant
from lib.shown import shown
from lib.type_meant import type_meant
from lib.type_texts import NoType, is_identifier, lower

MOST_WRITERS = 64


def all_broken(d, faults_in_port):
    """The faults that a walk through the symbols of each port gives; `faults_in_port` gives a function of one symbol."""
    place = 0
    for port in d["port"]:
        faults_of = faults_in_port(port)
        for symbol in port["symbol"]:
            for broken in faults_of(symbol):
                yield place, broken
            place += 1


class Names:
    """The names of one port, as a tree of their identifiers."""

    def __init__(self, port):
        self.tree = {}

    def __call__(self, symbol):
        name = symbol["name"]
        if name is None:
            return
        words = name.split(".")
        if len(name.encode()) > LONGEST or not all(is_identifier(word) for word in words):
            yield symbol.broken("name", f"{shown(name)} is no name: identifiers joined by full stops, at most {LONGEST} bytes", None, path_meant(name))
            return
        node, fresh = self.tree, False
        for word in words:
            if None in node:
                why = f"it begins with the whole name {shown(node[None]['name'])} of an earlier symbol"
                yield symbol.broken("name", why, node[None], "a symbol's parts are members of its type, no symbols of their own")
                return
            fresh = lower(word) not in node
            node = node.setdefault(lower(word), {})
        if fresh:
            node[None] = symbol
            return
        other, inner = None, node
        while other is None:
            other, inner = inner.get(None), next(iter(inner.values()))
        same = lower(other["name"]) == lower(name)
        why = "an earlier symbol has the name, ASCII case aside" if same else f"the name {shown(other['name'])} of an earlier symbol begins with it"
        yield symbol.broken("name", why, other, "give one of them another name")


def path_meant(name):
    """A name like a text that is none."""
    words = [re.sub("[^A-Za-z0-9_]", "_", word.strip()) for word in name.split(".") if word.strip()]
    meant = ".".join(word if is_identifier(word) else "_" + word for word in words)
    return f"as {meant}" if words and len(meant) <= LONGEST and meant != name and any(letter.isalnum() for letter in meant) else None


def wrong_name(d):
    return all_broken(d, Names)


def wrong_type(d, types, shapes):
    """Fills `shapes` with the type of each symbol as far as they are known."""
    names = types.names()

    def faults_of(symbol):
        text = symbol["type"]
        try:
            shape = shapes[symbol] = types.shape(text) if text is not None else None
        except NoType as fault:
            yield symbol.broken("type", str(fault).replace(" before it", " in this description"), None, lambda: type_meant(text, names))
            return
        if shape is not None and shape.count() > LIMIT:
            yield symbol.broken("type", f"the array has {shape.count()} elements", None, f"at most {LIMIT}")
        elif shape is not None and shape.size() > LIMIT:
            yield symbol.broken("type", f"it has {shape.size()} bytes", None, f"at most {LIMIT}")
    return all_broken(d, lambda port: faults_of)


class Places:
    """The bytes of one port that symbols have: for each area the places in order, with their symbols."""

    def __init__(self, port, shapes):
        self.port, self.shapes, self.taken = port, shapes, {area: [] for area in AREAS}

    def __call__(self, symbol):
        area, at, shape = symbol["area"], symbol["offset"], self.shapes.get(symbol)
        if area is not None and area not in AREAS:
            yield symbol.broken("area", f"{shown(area)} is none of {', '.join(AREAS)}", None, near(area, AREAS))
        if at is not None and at < 0:
            yield symbol.broken("offset", f"{at} is below 0", None, lambda: self.free_for(symbol, shape))
        if area not in AREAS or at is None or at < 0 or shape is None or shape.size() > LIMIT:
            return
        size, room = shape.size(), self.port[area]
        other = self.overlapped(area, at, size)
        if room is not None and at + size > room:
            has = f"{area} has {room} bytes" if room else f"{area} has no bytes: {self.port.who} has no key `{area}`"
            right = f"{'let it be' if room else 'write'} {area} = {aligned(at + size, 8)}"
            yield symbol.broken("offset", f"it ends at byte {at + size}, and {has}", None, right)
        if other:
            start, end, _, entry = other
            why = f"it has the bytes {at} to {at + size - 1} of {area}, and {start} to {end - 1} are those of {entry.who}"
            yield symbol.broken("offset", why, entry, lambda: self.free_for(symbol, shape))
        else:
            bisect.insort(self.taken[area], (at, at + size, symbol.at, symbol))

    def overlapped(self, area, at, size):
        """The place of a symbol that has one of these bytes; None where none has."""
        taken = self.taken[area]
        place = bisect.bisect_left(taken, (at,))
        return next((it for it in taken[max(place - 1, 0):place + 1] if it[0] < at + size and at < it[1]), None)

    def free_for(self, symbol, shape):
        """The first place behind the own one at which the symbol would fit, once all places are known."""
        if symbol["area"] not in AREAS or shape is None:
            return None
        unit, size = min(shape.align(), 8), shape.size()
        at = aligned(max(symbol["offset"], 0), unit)
        for start, end, _, _ in self.taken[symbol["area"]]:
            if start < at + size and at < end:
                at = aligned(end, unit)
        room = self.port[symbol["area"]]
        return f"{at} is free" + (f", with {symbol['area']} = {aligned(at + size, 8)}" if room is not None and at + size > room else "")


def wrong_place(d, shapes):
    return all_broken(d, lambda port: Places(port, shapes))


def content_faults(symbol, shape, types):
    if shape is not None and "initial" in symbol.raw and shape.size() <= LIMIT:
        found = initial_fault(symbol, shape, types)
        if found:
            yield found
    why = comment_fault(symbol["comment"]) if symbol["comment"] is not None else None
    if why:
        yield symbol.broken("comment", why, None, comment_meant(symbol["comment"]))
    writers = symbol["writers"]
    if writers is None:
        return
    if "writers" not in symbol.lost and not 1 <= len(writers) <= MOST_WRITERS:
        yield symbol.broken("writers", f"there are {len(writers)} writers", None, "without the key every route with the right may write" if not writers else
                            f"at most {MOST_WRITERS}")
    seen = set()
    for net in writers:
        if not is_net(net) or net in seen:
            yield symbol.broken("writers", f"{shown(net)} stands there twice" if is_net(net) else f"{shown(net)} {NO_NET}", None,
                                None if is_net(net) else net_meant(net))
        seen.add(net)


def wrong_content(d, shapes, types):
    return all_broken(d, lambda port: lambda symbol: content_faults(symbol, shapes.get(symbol), types))


def wrong_signal(d, shapes, signals):
    seen = {}

    def free():
        unused = [str(it) for it in range(signals) if it not in seen]
        return f"free: {', '.join(unused)}" if unused else "all are taken: leave it out"

    def faults_of(symbol):
        signal, shape = symbol["signal"], shapes.get(symbol)
        if signal is None:
            return
        if not 0 <= signal < signals:
            said = getattr(signals, "said", f"there are {signals}, numbered from 0")
            yield symbol.broken("signal", f"there is no signal {signal}; {said}", None, free)
        elif signal in seen:
            yield symbol.broken("signal", f"{seen[signal].who} has the signal {signal}", seen[signal], free)
        elif shape is not None and not shape.is_plain():
            yield symbol.broken("signal", f"{shape.text()} is no plain type")
        else:
            seen[signal] = symbol
    return all_broken(d, lambda port: faults_of)
