"""The values of a type in Python: numbers, texts, enumerations by name, arrays as lists, structures as dicts."""
import struct
from typing import Any, Callable, List, Optional, Tuple

from lib.durations import duration_text
from lib.flow_values import LETTERS
from lib.layout import Shape
from lib.letters import letters_of
from lib.value_json import NoValueOf
from lib.value_parts import joined, parts_of

DEEPEST = 20


def reader_of(shape: Shape) -> Callable[[bytes, int], Any]:
    """A function of bytes and of a place in them. It gives what `json_of` does, but reals as they are."""
    if shape.ends:
        return array_reader(shape)
    kind, it = shape.element
    if kind == "text":
        return lambda data, at: letters_of(bytes(data[at:at + it + 1]).split(b"\0")[0])
    if kind == "named":
        return enumeration_reader(it) if it.base else structure_reader(it)
    if it == "BOOL":
        return lambda data, at: data[at] != 0
    take = struct.Struct("<" + LETTERS[it]).unpack_from
    if it == "TIME":
        return lambda data, at: duration_text(take(data, at)[0])
    return lambda data, at: take(data, at)[0]


def array_reader(shape):
    (low, high), rest = shape.ends[0], Shape(shape.ends[1:], shape.element)
    count, kind, it = high - low + 1, *shape.element
    if not rest.ends and kind == "plain" and it not in ("BOOL", "TIME"):
        take = struct.Struct(f"<{count}{LETTERS[it]}").unpack_from
        return lambda data, at: list(take(data, at))
    read, size = reader_of(rest), rest.size()
    return lambda data, at: [read(data, place) for place in range(at, at + count * size, size)]


def enumeration_reader(named):
    take, names = struct.Struct("<" + LETTERS[named.base]).unpack_from, {}
    for name, number in named.values:
        names.setdefault(number, name)

    def read(data, at):
        number = take(data, at)[0]
        return names.get(number, number)
    return read


def structure_reader(named):
    parts = [(own.name, own.at, reader_of(own.shape)) for own in named.members]
    return lambda data, at: {name: read(data, at + place) for name, place, read in parts}


def packer_of(shape: Optional[Shape]) -> Callable[[Any], Optional[bytes]]:
    """A function that gives the bytes of a plain value at once, and None of all that is to be looked at."""
    kind, it = shape.element if shape and not shape.ends else ("none", None)
    if kind == "named" and it.base:
        names = {name: it.number_bytes(number) for name, number in it.values}
        return lambda value: names.get(value) if type(value) is str else None
    if kind != "plain" or it == "TIME":
        return lambda value: None
    if it == "BOOL":
        return lambda value: (b"\1" if value else b"\0") if type(value) is bool else None
    pack, kinds = struct.Struct("<" + LETTERS[it]).pack, (int, float) if it in ("REAL", "LREAL") else (int,)

    def packed(value):
        try:
            return pack(value) if type(value) in kinds else None
        except (struct.error, OverflowError):
            return None
    return packed


def plain(value: Any, deep: int = DEEPEST) -> Any:
    """A value as the readers of values take it; a NoValueOf where it is of no kind that a symbol has."""
    if isinstance(value, bool) or (value is None and deep < DEEPEST):
        return value
    for kind in (int, float, str):
        if isinstance(value, kind):
            return kind(value)
    if isinstance(value, (list, tuple, dict)):
        if not deep:
            raise NoValueOf(f"it is nested more than {DEEPEST} deep")
        if isinstance(value, dict):
            return {str(name): plain(one, deep - 1) for name, one in value.items()}
        return [plain(one, deep - 1) for one in value]
    what = "None" if value is None else f"what Python calls {type(value).__name__}"
    raise NoValueOf(f"{what} is no value of a symbol")


def given_parts(path: str, shape: Shape, value: Any) -> List[Tuple[str, bytes]]:
    """The fewest parts to which a value gives bytes: a dictionary gives the members that it names, a list its elements.
    A NoValueOf says why it is no value of the type."""
    kind, it = shape.element
    try:
        value = plain(value)
        if isinstance(value, float) and not shape.ends and kind == "plain" and it not in ("REAL", "LREAL", "BOOL"):
            raise NoValueOf(f"{it} wants a whole number, and {value!r} is none; int(..) or round(..) makes one")
    except NoValueOf as fault:
        raise NoValueOf(f"{path}: {fault}") from None
    try:
        parts = sorted(parts_of(path, shape, value), key=lambda part: part.at)
    except ValueError:  # (a number of thousands of digits, or half a letter)
        raise NoValueOf(f"{path}: {shape.text()} has no such value") from None
    return [(part.path, part.data) for part in joined(path, shape, parts)]
