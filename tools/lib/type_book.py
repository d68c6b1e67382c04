"""The types of a server, made out of the entries that it tells: structures, enumerations whose values are told, and what stands in the place of the others."""
import re
import struct

from lib.layout import Named, Shape, aligned
from lib.rules_types import DEEPEST, LIMIT, MOST_PARTS, name_fault
from lib.type_meant import STANDING
from lib.type_texts import BASES, PLAIN, WORDS, NoType, lower, read_type

# Flags of type entries, and what a member with one of them is.
REFERENCE, BITS, STATIC = 0x4, 0x20, 0x20000
ODD = {REFERENCE: "a reference", BITS: "a bit field", STATIC: "a static variable"}
GUID, COPY_MASK, METHODS, ATTRIBUTES, VALUES = 0x80, 0x200, 0x800, 0x1000, 0x2000


def text(data):
    return data.decode("latin-1")


class TypeBook:
    """`notes` are sentences about what was changed or left out, each once."""

    def __init__(self):
        self.entries, self.built, self.notes, self.listed = {}, {}, {}, []

    def of_port(self, entries):
        """The types that the next shapes name."""
        self.entries = {}
        for entry in entries:
            self.entries.setdefault(lower(text(entry.name)), entry)

    def note(self, sentence):
        self.notes[sentence] = None

    def shape(self, said, ends=()):
        """The type that a text names; a NoType where the profile can't hold it."""
        word = re.sub(r",\s+", ",", said.strip())
        if ends and lower(word[:5]) != "array":
            word = f"ARRAY [{','.join(f'{low}..{high}' for low, high in ends)}] OF {word}"
        if lower(word.split("(")[0].split(" ")[0]) in ("pointer", "reference", "wstring", "pvoid", "interface"):
            raise NoType(f"{word} is no type of a description")
        bounds, (kind, it) = read_type(word)
        if kind != "named":
            return Shape(bounds, (kind, it))
        inner = self.named(it)
        if isinstance(inner, Named):
            return Shape(bounds, ("named", inner))
        if bounds and inner.ends:
            raise NoType(f"{word} is an array of arrays")
        return Shape(bounds or inner.ends, inner.element)

    def named(self, name):
        """A structure or an enumeration, or the shape that stands in its place."""
        entry, key = self.entries.get(lower(name)), lower(name)
        if entry is None and name.upper() in STANDING:
            self.note(f"type {name.upper()}: {STANDING[name.upper()]} stands in its place")
            return Shape([], ("plain", STANDING[name.upper()]))
        if entry is None:
            raise NoType(f"the server tells of no type {name}")
        if key not in self.built:
            self.built[key] = entry, NoType("it contains itself")
            try:
                self.built[key] = entry, self.made(entry)
            except NoType as fault:
                self.built[key] = entry, fault
            except RecursionError:
                self.built[key] = entry, NoType("it is nested too deep")
        known, made = self.built[key]
        if known is not entry and known._replace(rest=b"") != entry._replace(rest=b""):
            raise NoType(f"another port has another type {name}")
        if isinstance(made, NoType):
            raise NoType(f"the type {name} can't be held: {made}")
        return made

    def made(self, entry):
        name = text(entry.name)
        fault = name_fault(name) or (f"{name} is a word of type texts" if name.upper() in WORDS else None)
        if entry.subs:
            if fault:
                raise NoType(fault)
            return self.structure(name, entry)
        values = [] if fault else values_of(entry)
        base = text(entry.type).upper()
        if values and base in BASES and PLAIN[base][0] == entry.size:
            return Named.enumeration(name, base, values)
        inner = self.shape(text(entry.type), entry.ends)
        if inner.size() != entry.size:
            raise NoType(f"it has {entry.size} bytes, and {inner.text()} has {inner.size()}")
        self.note(f"type {name}: the server tells no parts and no values of it; {inner.text()} stands in its place")
        return inner

    def structure(self, name, entry):
        """A structure with the members that a description can hold, each at its place: bytes stand where one is left out."""
        members, seen, end = [], set(), 0
        for sub in entry.subs:
            own, shape = self.member(name, sub, seen)
            if shape is None:
                continue
            if sub.offset > end and sub.offset != aligned(end, min(shape.align(), 8)):
                end = self.filled(members, seen, end, sub.offset)
            if sub.offset != aligned(end, min(shape.align(), 8)):
                raise NoType(f"its member {own} stands at {sub.offset}, where a description can't put {shape.text()}: it is packed, or shares bytes")
            members.append((own, shape, comment_of(sub.comment)))
            end = sub.offset + sub.size
        if not members:
            raise NoType("it has no member that a description can hold")
        if Named.structure(name, members).size < entry.size:
            self.filled(members, seen, end, entry.size)
        made = Named.structure(name, members)
        if made.size != entry.size or made.size > LIMIT or made.depth > DEEPEST or len(members) > MOST_PARTS:
            raise NoType(f"it has {entry.size} bytes in {len(members)} members, nested {made.depth} deep, and a description gives it {made.size} bytes")
        return made

    def member(self, name, sub, seen):
        """The name and the shape of a member; no shape where it is left out."""
        own = text(sub.name)
        try:
            why = next((word for flag, word in ODD.items() if sub.flags & flag), None) or name_fault(own)
            why = why or ("an earlier member has its name" if lower(own) in seen else None if sub.size else "it has no bytes")
            if why:
                raise NoType(why)
            shape = self.shape(text(sub.type), sub.ends)
            if shape.size() != sub.size or shape.count() > LIMIT:
                raise NoType(f"it has {sub.size} bytes, and {shape.text()} has {shape.size()}")
        except NoType as fault:
            self.note(f"member {own} of type {name} is left out, and bytes stand in its place: {fault}")
            return own, None
        seen.add(lower(own))
        return own, shape

    @staticmethod
    def filled(members, seen, end, upto):
        """Bytes as a member, from the end of the one before up to a place."""
        if upto - end > LIMIT:
            raise NoType(f"its bytes from {end} to {upto} have no member")
        name, count = f"fill_{len(members)}", upto - end
        while lower(name) in seen:
            name += "_"
        seen.add(lower(name))
        members.append((name, Shape([(0, count - 1)], ("plain", "BYTE")), ""))
        return upto


def comment_of(data):
    """A comment of at most 255 printable bytes."""
    return "".join(chr(byte) if 0x20 <= byte <= 0x7E else "?" for byte in data)[:255]


def values_of(entry):
    """The names and numbers of an enumeration, where the bytes behind its entry's texts are those that a controller writes; none where they are not."""
    if not entry.flags & VALUES or entry.size not in (1, 2, 4, 8):
        return []
    try:
        at = 16 * bool(entry.flags & GUID) + entry.size * bool(entry.flags & COPY_MASK)
        if entry.flags & METHODS:
            at = behind_methods(entry.rest, at)
        if entry.flags & ATTRIBUTES:
            at = behind_attributes(entry.rest, at)
        return values_at(entry, at)
    except (struct.error, IndexError):
        return []


def behind_methods(rest, at):
    count = struct.unpack("<H", rest[at:at + 2])[0]
    at += 2
    for _ in range(count):
        at += struct.unpack("<I", rest[at:at + 4])[0]
    return at


def behind_attributes(rest, at):
    count = struct.unpack("<H", rest[at:at + 2])[0]
    at += 2
    for _ in range(count):
        at += 2 + rest[at] + 1 + rest[at + 1] + 1
    return at


def values_at(entry, at):
    count, signed, found = struct.unpack("<H", entry.rest[at:at + 2])[0], text(entry.type).upper() in ("SINT", "INT", "DINT", "LINT"), []
    at += 2
    for _ in range(count):
        length = entry.rest[at]
        name, data = entry.rest[at + 1:at + 1 + length], entry.rest[at + length + 2:at + length + 2 + entry.size]
        if len(data) != entry.size or entry.rest[at + 1 + length] or name_fault(text(name)):
            return []
        found.append((text(name), int.from_bytes(data, "little", signed=signed)))
        at += 1 + length + 1 + entry.size
    names, numbers = {lower(name) for name, _ in found}, {number for _, number in found}
    return found if len(names) == len(numbers) == len(found) <= MOST_PARTS else []
