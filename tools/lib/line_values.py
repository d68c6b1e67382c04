"""Values as a line of tools/plant.py writes them, and as why.py takes them for meant: TOML values of a type, with every fault."""
import difflib
import math
import re
import struct

from lib.document import Broken
from lib.durations import NoDuration, milliseconds_of
from lib.keys import TOML_WORDS
from lib.letters import bytes_of
from lib.shown import shown
from lib.type_texts import lower
from lib.value_words import FLOATS, SIGNED

HEX = re.compile("(?:[0-9A-Fa-f]{2})*")
LONG = re.compile("0|[1-9][0-9]{18,19}")
COMMA = re.compile(r"\s*([-+]?[0-9]{1,40}),([0-9]{1,40})\s*")
MOST_DIGITS = 40
TRUTH = {"true": 1, "false": 0}


class LineValues:
    """Reads values. `faults` are all that is wrong; `defaults` has the bytes with which a structure begins where they are not zeros."""

    def __init__(self, who, key, defaults=None):
        self.who, self.key, self.defaults, self.faults = who, key, {} if defaults is None else defaults, []

    def fault(self, at, path, why, right=None):
        self.faults.append(Broken(at, self.who + (f", part {path}" if path else ""), self.key, why, None, right))

    def begun(self, shape):
        """What a value begins with that is not written."""
        kind, it = shape.element
        begun = self.defaults.get(it) if kind == "named" else None
        return begun * shape.count() if begun else bytes(shape.size())

    def bytes(self, shape, value, path=""):
        """The bytes of a value; zeros where it is none, and the fault is told. What can't be read was told before."""
        if value.kind == "broken":
            return bytes(shape.size())
        if value.kind == "string" and len(value.data) == 2 * shape.size() and HEX.fullmatch(value.data):
            return self.hexadecimal(shape, value, path)
        if shape.ends:
            return self.array(shape, value, path)
        kind, it = shape.element
        if kind == "text":
            return self.text(it, value, path)
        if kind == "named":
            return self.enumeration(it, value, path) if it.base else self.structure(it, value, path)
        if it == "BOOL":
            return self.truth(value, path)
        return self.real(it, value, path) if it in FLOATS else self.number(it, shape.size(), value, path)

    def hexadecimal(self, shape, value, path):
        data, named = bytes.fromhex(value.data), shape.named()
        if named and named.base:
            own = own_number(named, value.data)
            if own is not None and named.number_bytes(own) != data:
                self.fault(value.at, path, f"{shown(value.data)} is the name of a value of {named.name}, and the bytes of another number, too", f"write {own}")
        return data

    def wrong_kind(self, shape_text, wanted, value, path, size):
        comma = COMMA.fullmatch(value.data) if value.kind == "string" and wanted.startswith("a number") else None
        if comma and (shape_text in FLOATS or not comma[2].strip("0")):
            right = f"write {comma[1]}" + (f".{comma[2]}" if shape_text in FLOATS else "")
            self.fault(value.at, path, f"{shape_text} wants {wanted}, and {shown(value.data)} has a comma", right)
        else:
            what = f"the text {shown(value.data)}" if value.kind == "string" else TOML_WORDS[value.kind]
            self.fault(value.at, path, f"{shape_text} wants {wanted}, and {what} stands there", self.or_bytes(size))
        return bytes(size)

    @staticmethod
    def or_bytes(size):
        return f"or {2 * size} hexadecimal digits in quotes, its bytes" if size <= 16 else None

    def number(self, word, size, value, path):
        low = -2 ** (8 * size - 1) if word in SIGNED else 0
        high, number = low + 2 ** (8 * size) - 1, value.data
        if value.kind == "string" and word == "TIME":
            return self.duration(value, path)
        if value.kind == "string" and size == 8 and LONG.fullmatch(number):
            number = int(number)
        elif value.kind == "float" and math.isfinite(number) and number == int(number):
            self.fault(value.at, path, f"{word} wants a number without point and exponent, and {shown(str(number))} stands there", f"write {int(number)}")
            return bytes(size)
        elif value.kind != "integer":
            wanted = "a number without quotes" if word != "TIME" else "a duration as \"T#1m30s\", or a number of milliseconds"
            return self.wrong_kind(word, wanted, value, path, size)
        if not low <= number <= high:
            self.fault(value.at, path, f"{in_short(number)} is no number of {word}, {low} to {high}", wider(word, number))
            return bytes(size)
        return number.to_bytes(size, "little", signed=word in SIGNED)

    def duration(self, value, path):
        try:
            number = milliseconds_of(value.data)
        except NoDuration:
            right = "write it as T#1m30s, of d, h, m, s and ms in this order, or as a number of milliseconds"
            self.fault(value.at, path, f"{shown(value.data)} is no duration", right)
            return bytes(4)
        if number != int(number) or not 0 <= number < 2 ** 32:
            self.fault(value.at, path, f"TIME has whole milliseconds from 0 to {2 ** 32 - 1} (49 days), and {shown(value.data)} is none of these")
            return bytes(4)
        return int(number).to_bytes(4, "little")

    def real(self, word, value, path):
        size = 4 if word == "REAL" else 8
        if value.kind not in ("integer", "float"):
            return self.wrong_kind(word, "a number, as 1.5 or 20", value, path, size)
        try:
            return struct.pack(FLOATS[word], value.data)
        except (OverflowError, struct.error):
            self.fault(value.at, path, f"{in_short(value.data)} is greater than a {word} can be")
            return bytes(size)

    def truth(self, value, path):
        if value.kind == "boolean" or (value.kind == "integer" and value.data in (0, 1)):
            return bytes([value.data])
        if value.kind == "string" and value.data.lower() in TRUTH:
            return bytes([TRUTH[value.data.lower()]])
        self.fault(value.at, path, f"BOOL wants true or false, and {TOML_WORDS[value.kind]} stands there")
        return bytes(1)

    def text(self, most, value, path):
        if value.kind != "string":
            return self.wrong_kind(f"STRING({most})", "a text in quotes", value, path, most + 1)
        data, odd = bytes_of(value.data)
        if odd is not None:
            self.fault(value.at, path, f"the letter {shown(odd)} is none of Windows-1252, which a STRING has")
        elif 0 in data:
            self.fault(value.at, path, "a text can't have a NUL: it ends there")
        elif len(data) > most:
            self.fault(value.at, path, f"the text has {len(data)} letters, and STRING({most}) holds {most}", f"make it STRING({len(data)}), or shorten it")
        return data[:most].ljust(most + 1, b"\0")

    def enumeration(self, named, value, path):
        number = value.data if value.kind == "integer" else own_number(named, value.data) if value.kind == "string" else None
        if number is not None and number in [own for _, own in named.values]:
            return named.number_bytes(number)
        said = shown(value.data) if value.kind == "string" else str(value.data) if value.kind == "integer" else TOML_WORDS[value.kind]
        self.fault(value.at, path, f"{said} is no value of {named.name}", values_meant(named, value.data if value.kind == "string" else ""))
        return bytes(named.size)

    def array(self, shape, value, path):
        inner, count = shape.of_element(), shape.count()
        if value.kind == "table":
            return self.each(shape, value, path)
        if value.kind != "array":
            return self.wrong_kind(shape.text(), "its elements in brackets, as [1, 2, 3], or { each = 1 }", value, path, shape.size())
        found = list(elements_of(value, len(shape.ends), shape.ends))
        if len(found) > count or any(place is None for place, _ in found):
            self.fault(value.at, path, f"{shape.text()} has {count} elements, and {len(found)} stand there", "leave the others out, or make the array greater")
            return bytes(shape.size())
        size, data = inner.size(), bytearray(self.begun(shape))
        for place, one in found:
            data[place * size:(place + 1) * size] = self.bytes(inner, one, path + index_text(shape.ends, place))
        return bytes(data)

    def each(self, shape, value, path):
        """One value for all elements."""
        if list(value.data) != ["each"]:
            self.fault(value.at, path, f"{shape.text()} is no structure", "write its elements in brackets, as [1, 2, 3], or { each = 1 } for the same in all")
            return bytes(shape.size())
        return self.bytes(shape.of_element(), value.data["each"], path + "[each]") * shape.count()

    def structure(self, named, value, path):
        if value.kind != "table":
            first = named.members[0].name
            return self.wrong_kind(named.name, f"its members in braces, as {{ {first} = .. }}", value, path, named.size)
        data, seen = bytearray(self.defaults.get(named) or bytes(named.size)), set()
        for key, one in value.data.items():
            own, inside = named.member(key), f"{path}.{key}" if path else key
            if own is None or own in seen:
                near = difflib.get_close_matches(lower(key), [lower(it.name) for it in named.members], 1)
                meant = f"is `{named.member(near[0]).name}` meant?" if near and own is None else f"it has {', '.join(it.name for it in named.members)}"[:200]
                self.fault(one.at, path, f"{named.name} has no member {shown(key)}" if own is None else f"the member {own.name} stands there twice", meant)
                continue
            seen.add(own)
            data[own.at:own.at + own.shape.size()] = self.bytes(own.shape, one, inside)
        return bytes(data)


def in_short(number):
    text = str(number)
    return text if len(text) <= MOST_DIGITS else f"{text[:MOST_DIGITS]}.."


def own_number(named, text):
    """The number of a value of an enumeration by its name, with or without the enumeration's own."""
    for mark in (".", "#"):
        head, found, rest = text.partition(mark)
        text = rest if found and lower(head) == lower(named.name) else text
    return next((number for name, number in named.values if lower(name) == lower(text)), None)


def values_meant(named, text):
    near = difflib.get_close_matches(lower(text), [lower(name) for name, _ in named.values], 1)
    if near:
        return f"is {next(name for name, _ in named.values if lower(name) == near[0])} meant?"
    said = ", ".join(name for name, _ in named.values[:12])
    return f"it has {said}{', ..' if len(named.values) > 12 else ''}"


def wider(word, number):
    for other in ("USINT", "UINT", "UDINT", "ULINT") if number >= 0 and word not in SIGNED else ("SINT", "INT", "DINT", "LINT"):
        bits = {"S": 8, "U": 8}.get(other[0], 0) if other in ("SINT", "USINT") else {"INT": 16, "UINT": 16, "DINT": 32, "UDINT": 32}.get(other, 64)
        low = -2 ** (bits - 1) if other in SIGNED else 0
        if low <= number < low + 2 ** bits:
            return f"{other} holds it"
    return None


def elements_of(value, deep, ends):
    """The elements of an array with their places: in one list, or in lists of lists. The place is None where a list is too long."""
    if deep == 1 or not (value.data and all(one.kind == "array" for one in value.data)):
        yield from enumerate(value.data)
        return
    inner = 1
    for low, high in ends[1:]:
        inner *= high - low + 1
    for row, one in enumerate(value.data):
        for place, own in elements_of(one, deep - 1, ends[1:]):
            yield (row * inner + place if place is not None and place < inner else None), own


def index_text(ends, place):
    indexes = []
    for low, high in reversed(ends):
        place, own = divmod(place, high - low + 1)
        indexes.insert(0, str(low + own))
    return f"[{','.join(indexes)}]"
