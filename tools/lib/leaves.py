"""The plain values in a type, and each of them as a value of JSON: numbers, truth, and texts of Windows-1252."""
import math
import struct
from typing import List, NamedTuple, Optional, Tuple

from lib.layout import Shape

# The plain words whose values are read as bits rather than as a count.
BIT_WORDS = ("BYTE", "WORD", "DWORD", "LWORD")


class Leaf(NamedTuple):
    """A plain value in a symbol: its path, its place in the symbol, its type, and what kind of value it has."""
    path: str
    at: int
    size: int
    shape: Shape
    kind: str


class Node:
    """A symbol or a part of it: a leaf, by its number, or its parts; `more` plain values in it are not among these."""

    def __init__(self, name, shape, comment):
        self.name, self.shape, self.comment, self.leaf, self.at, self.parts, self.more = name, shape, comment, None, 0, [], 0
        # (which of the words of a page are its own)
        self.words = None

    def told(self):
        """The node for a page."""
        it = {"n": self.name, "t": self.shape.text()}
        it.update({"c": self.comment} if self.comment else {})
        it.update({"w": self.words} if self.words is not None else {})
        if self.leaf is not None:
            return {**it, "l": self.leaf, "a": self.at}
        it.update({"more": self.more} if self.more else {})
        return {**it, "p": [part.told() for part in self.parts]}


def kind_of(shape):
    """What kind of value a type without parts has."""
    kind, it = shape.element
    if kind != "plain":
        return "text" if kind == "text" else "enum"
    return {"BOOL": "bool", "REAL": "real", "LREAL": "real", "TIME": "time"}.get(it) or ("bits" if it in BIT_WORDS else "number")


def is_whole(shape):
    """Whether a type has no parts: a plain type, a text or an enumeration."""
    named = shape.named()
    return not shape.ends and (named is None or bool(named.base))


def count_of(shape, known=None):
    """The number of plain values in a type."""
    known = {} if known is None else known
    kind, it = shape.element
    if kind != "named" or it.base:
        return shape.count()
    if id(it) not in known:
        known[id(it)] = sum(count_of(member.shape, known) for member in it.members)
    return shape.count() * known[id(it)]


def indexes_of(ends):
    """The indexes of an array's elements, in the order of their places."""
    if not ends:
        yield ()
        return
    for low in range(ends[0][0], ends[0][1] + 1):
        for rest in indexes_of(ends[1:]):
            yield (low, *rest)


def grow(name, path, shape, comment, at, leaves, most):
    """The node of a symbol or a part of it, and its plain values among the leaves, of which there are at most so many."""
    node = Node(name, shape, comment)
    if is_whole(shape):
        node.leaf, node.at = len(leaves), at
        leaves.append(Leaf(path, at, shape.size(), shape, kind_of(shape)))
        return node
    first = len(leaves)
    for step, own, place, told in steps_in(shape):
        if len(leaves) >= most:
            break
        node.parts.append(grow(step, path + step, own, told, at + place, leaves, most))
    node.more = count_of(shape) - (len(leaves) - first)
    return node


def steps_in(shape):
    """The parts of a type: the step that leads there, its type, its place and its comment."""
    if shape.ends:
        inner = shape.of_element()
        for place, index in enumerate(indexes_of(shape.ends)):
            yield f"[{','.join(map(str, index))}]", inner, place * inner.size(), ""
    else:
        for member in shape.named().members:
            yield "." + member.name, member.shape, member.at, member.comment


def letters():
    """The letter of each byte in Windows-1252; the five bytes that it leaves open are the control characters of these numbers."""
    for byte in range(256):
        try:
            yield bytes([byte]).decode("cp1252")
        except UnicodeDecodeError:
            yield chr(byte)


LETTERS = tuple(letters())
BYTE_OF = {letter: byte for byte, letter in enumerate(LETTERS)}


def shortest(data):
    """A REAL as the shortest decimal number that has these bytes."""
    value = struct.unpack("<f", data)[0]
    for digits in range(6, 9):
        near = float(f"{value:.{digits}g}")
        if abs(near) < 3.5e38 and packed("<f", near) == data:
            return near
    return value


def packed(form, value) -> Optional[bytes]:
    try:
        return struct.pack(form, value)
    except OverflowError:
        return None


def typed(leaf, data):
    """The bytes of a plain value as a value of JSON; a number that is none (REAL, LREAL) is the text NaN, Infinity or -Infinity."""
    if leaf.kind == "bool":
        return data != b"\0"
    if leaf.kind == "text":
        return "".join(LETTERS[byte] for byte in data.split(b"\0")[0])
    if leaf.kind == "real":
        value = struct.unpack("<d" if leaf.size == 8 else "<f", data)[0]
        if not math.isfinite(value):
            return "NaN" if value != value else "Infinity" if value > 0 else "-Infinity"
        return value if leaf.size == 8 else shortest(data)
    return int.from_bytes(data, "little", signed=is_signed(leaf.shape))


def is_signed(shape):
    kind, it = shape.element
    word = it.base if kind == "named" else it
    return word in ("SINT", "INT", "DINT", "LINT")


def for_script(value):
    """A value for a script of a browser, whose numbers have 53 bits: a greater one is a text."""
    return str(value) if type(value) is int and abs(value) >= 2 ** 53 else value


def number_in(value) -> float:
    """A value of JSON as a number for a plot; what is none is not a number."""
    if isinstance(value, str):
        return math.nan
    return float(value)


def whole_value(node, values):
    """The value of a node: that of its leaf, or a list or an object of its parts'."""
    if node.leaf is not None:
        return values[node.leaf]
    if node.shape.ends:
        return [whole_value(part, values) for part in node.parts]
    return {part.name[1:]: whole_value(part, values) for part in node.parts}


def enum_name(shape, number) -> Optional[str]:
    return next((name for name, own in shape.element[1].values if own == number), None)


def values_of(shape) -> List[Tuple[str, int]]:
    return shape.element[1].values if kind_of(shape) == "enum" else []
