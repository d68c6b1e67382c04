"""The persistent values of a server: read before a change, kept in a file, and set again behind it."""
import hashlib
import json
import os
import re
import time
from typing import NamedTuple, Optional

from lib.codes import code_text
from lib.describing import PERSISTENT
from lib.files import read_bytes, write_new
from lib.flow_names import described, known_of
from lib.kept import form
from lib.layout import Shape
from lib.link import Refused
from lib.plant import Plant
from lib.recipes import of_json
from lib.type_texts import lower
from lib.value_json import NoValueOf, json_of
from lib.value_parts import differing, joined, parts_of
from lib.words import Ended


# What stands behind the name of a description in that of a file of its values: the moment, the port, and a number
# where there are more.
MOMENT = r"\.values-([0-9]{8}T[0-9]{6})-([0-9]+)(?:-([0-9]+))?\.json"


NO_PORT = 0x6


class Saved(NamedTuple):
    """A persistent symbol before a change; no bytes where its value is not known."""

    port: int
    name: str
    shape: Shape
    data: Optional[bytes]


def bar_of(symbol, me, rights):
    """Why a value of a description can't be set by a route; None where it can, or where nobody is asked for."""
    if symbol["read_only"]:
        return "no client may write it, as it is read-only: the description may have it as `initial`"
    if me and symbol["writers"] and me not in symbol["writers"]:
        return f"{me} is none of its `writers`: values.py restore sets it, with --me {symbol['writers'][0]}"
    if me and rights == "read":
        return f"{me} may only read: values.py restore sets it, with another --me"
    return None


def rights_of(verdict, me):
    return next((it["rights"] for it in verdict.document["route"] if it["net"] == me), None)


def digest_of(given):
    return hashlib.sha256(given).hexdigest()


def mark_of(verdict, given):
    """What tells a description from others by its symbols alone, so that one with another route has the same; of a
    file that is none, what tells its bytes.
    """
    if verdict is None:
        return digest_of(given)
    rows = [
        (port, name, form(verdict.shapes[it]), begun(it, verdict.shapes[it]).hex(), it["persistent"])
        for (port, name), it in symbols_of(verdict).items()
    ]
    names = [(it.name, it.values) for it in verdict.types.listed if it and it.base]
    return digest_of(json.dumps([sorted(rows), sorted(names)]).encode())


def begun(symbol, shape):
    """The bytes with which a symbol of a description begins."""
    if symbol["initial"] is not None:
        return bytes.fromhex(symbol["initial"])
    named = shape.named()
    return named.number_bytes(named.values[0][1]) if named and named.base else bytes(shape.size())


def symbols_of(verdict):
    """The symbols of a description by port and name."""
    return (
        {(port["port"], lower(it["name"])): it for port in verdict.document["port"] for it in port["symbol"]}
        if verdict
        else {}
    )


class Persistent:
    """The persistent symbols of a port of a server; none where it has no such port."""

    def __init__(self, values):
        self.values = values
        try:
            entries, book = described(values.stream, values.port)
        except Refused as refused:
            if refused.code != NO_PORT:
                raise Ended(f"{values.to} refuses port {values.port}: {code_text(refused.code)}", 8) from None
            entries, book = {}, None
        self.knowns = [known_of(entry, book) for entry in entries.values() if entry.flags & PERSISTENT]
        for known in self.knowns:
            known.shape = values.own_shape(known) or known.shape or Shape([(0, known.size - 1)], ("plain", "BYTE"))

    def read(self, keys=None):
        """The values as they are now: all, or those of some ports and names."""
        these = [it for it in self.knowns if keys is None or (self.values.port, lower(it.name)) in keys]
        found = []
        for known, (code, data) in zip(these, self.values.read(these)):
            if code:
                raise Ended(f"{self.values.to} refuses {known.name}: {code_text(code)}", 8)
            found.append(Saved(self.values.port, known.name, known.shape, data))
        return found


def saved_in(before, entries):
    """The persistent values of a description: without their bytes, or with those that a store has of them."""
    stored = {(it.port, lower(it.name), it.form): it.value for it in entries or ()}
    found = []
    for (port, name), symbol in symbols_of(before).items():
        if symbol["persistent"]:
            shape = before.shapes[symbol]
            data = stored.get((port, name, form(shape)))
            found.append(
                Saved(port, symbol["name"], shape, data if data is not None and len(data) == shape.size() else None)
            )
    return found


def spelled(shape, data):
    """A value of JSON that is read as these very bytes: in hexadecimal where its words are not."""
    value, now = json_of(shape, data), data
    try:
        if not any(True for part in parts_of("", shape, value) for _ in differing(part, now)):
            return value
    except NoValueOf:
        pass
    return data.hex()


def file_text(net, port, saved, restored, marks):
    """The file of the values of a port: those of before, and those that the change loses, by the paths that they
    have behind it.
    """
    head = {"netid": net, "port": port, "taken": time.strftime("%Y-%m-%dT%H:%M:%SZ", time.gmtime()), **marks}
    values = {it.name: spelled(it.shape, it.data) for it in saved} or restored
    data = {it.name: it.data.hex() for it in saved}
    return (
        json.dumps({**head, "values": values, "restore": restored, "bytes": data}, ensure_ascii=False, indent=2) + "\n"
    )


def keep(place, net, saved, restored, marks):
    """Writes a file for each port beside the description, which is never written again; gives their names."""
    names, moment = [], time.strftime("%Y%m%dT%H%M%S", time.gmtime())
    for port in dict.fromkeys([*(it.port for it in saved), *restored]):
        own = [it for it in saved if it.port == port]
        text = file_text(net, port, own, restored.get(port, {}), marks)
        names.append(write_new(f"{place}.values-{moment}-{port}", ".json", text))
    return names


class Kept(NamedTuple):
    """A file of values, as it is read."""

    name: str
    port: int
    marks: dict
    restored: dict
    data: dict


def read_kept(name):
    text = read_bytes(name).decode("utf-8", "replace")
    recipe = of_json(text, name)
    found = json.loads(text)
    try:
        data = {lower(own): bytes.fromhex(text) for own, text in found["bytes"].items()}
        marks = {key: str(found[key]) for key in ("taken", "from", "to", "me")}
        port, restored = recipe.port + 0, dict(recipe.restored)
    except (KeyError, ValueError, TypeError, AttributeError):
        raise Ended(f"{name} was not written by tools/deploy.py", 4) from None
    return Kept(name, port, marks, restored, data)


def earlier(place, old, new):
    """The files that were written last before a description with the mark `new` came over the one with `old`, by
    their ports.
    """
    folder, head = os.path.split(place)
    names = [it for it in map(re.compile(re.escape(head) + MOMENT).fullmatch, os.listdir(folder)) if it]
    found = {}
    for name in sorted(names, key=lambda it: (it[1], int(it[3] or 1))):
        try:
            it = read_kept(os.path.join(folder, name[0]))
        except Ended:
            continue
        if (it.marks["from"], it.marks["to"]) == (old, new):
            found[it.port] = it
    return found


class Restoring:
    """The values of a file, to be set on a server that has the description of `verdict`."""

    def __init__(self, kept, verdict):
        self.kept, self.verdict, self.symbols, self.shapes = kept, verdict, symbols_of(verdict), verdict.shapes
        self.plant = Plant(verdict).port(kept.port)
        self.set, self.refused, self.newer = [], [], []

    def parts(self):
        """The parts of each symbol that are to be set, by its name."""
        found = {}
        for path, value in self.kept.restored.items():
            part = self.plant.find(path)
            own = part and self.plant.symbol_of(path)
            if own is None:
                raise Ended(f"{self.kept.name}: the description has no {path}", 4)
            try:
                found.setdefault(own.path, []).extend(parts_of(path, part.shape, value, part.at - own.at))
            except NoValueOf as fault:
                raise Ended(f"{self.kept.name}: {fault}", 4) from None
        return {name: sorted(parts, key=lambda part: part.at) for name, parts in found.items()}

    def is_served(self, values):
        """Whether the server has the types of the description."""
        try:
            entries, book = described(values.stream, self.kept.port)
        except Refused:
            return False
        knowns = {name: known_of(entries[lower(name)], book) for name in self.parts() if lower(name) in entries}
        return len(knowns) == len(self.parts()) and all(values.own_shape(known) for known in knowns.values())

    def settable(self, me):
        """Those of the parts that `me` may set; the others are refused."""
        parts, rights = self.parts(), rights_of(self.verdict, me)
        for name in list(parts):
            bar = bar_of(self.symbols[self.kept.port, lower(name)], me, rights)
            if bar:
                self.refused.append((name, bar))
                del parts[name]
        return parts

    def run(self, values):
        """Sets what still has the value with which it began; what was written since keeps that."""
        parts = self.settable(values.stream.me)
        if not parts:
            return
        found, writes = values.found(list(parts)), []
        for known, (code, now) in zip(found.values(), values.read(found.values())):
            own = parts[known.name]
            if code or not values.own_shape(known):
                why = code_text(code) if code else "the server has another type than the description"
                self.refused.append((known.name, why))
                continue
            fresh = self.fresh(known.name, own, now)
            writes += joined(known.name, known.shape, fresh)
        codes = values.put_parts(writes)
        self.refused += [(path, code_text(code)) for path, code in codes if code]
        self.set += [path for path, code in codes if not code]

    def fresh(self, name, parts, now):
        """Those parts that differ from what is there now, and stand as they began."""
        symbol, found = self.symbols[self.kept.port, lower(name)], []
        first = begun(symbol, self.shapes[symbol])
        for new, old in (pair for part in parts for pair in differing(part, now)):
            if old.data == first[old.at : old.at + len(old.data)]:
                found.append(new)
            else:
                self.newer.append(old)
        return found
