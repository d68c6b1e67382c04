"""The bytes of a value as a value of Python: numbers, texts, and structures and arrays as dictionaries and lists."""
import json
import math
import struct

from lib.layout import Shape
from lib.type_texts import PLAIN, NoType

# The letter of `struct` for each plain type; a BOOL is any byte but 0.
LETTERS = {"BOOL": "B", "SINT": "b", "USINT": "B", "BYTE": "B", "INT": "h", "UINT": "H", "WORD": "H", "DINT": "i", "UDINT": "I", "DWORD": "I", "TIME": "I",
           "LINT": "q", "ULINT": "Q", "LWORD": "Q", "REAL": "f", "LREAL": "d"}
IDS = {one: {size: word for word, (size, own) in PLAIN.items() if own == one} for one in (16, 17, 2, 18, 3, 19, 20, 21, 4, 5, 33)}


def text_of(data):
    """The text of a STRING: UTF-8 where it is that, else Windows-1252, as TwinCAT writes it."""
    data = bytes(data).split(b"\0")[0]
    for code in ("utf-8", "cp1252"):
        try:
            return data.decode(code)
        except UnicodeDecodeError:
            pass
    return data.decode("latin-1")


def wide_text_of(data):
    data = bytes(data[:len(data) & ~1]).decode("utf-16-le", "replace")
    return data.split("\0")[0]


def plain_of(shape):
    """The plain type that a shape is, an enumeration its base; None where it is no number."""
    if shape is None or shape.ends:
        return None
    kind, it = shape.element
    return it if kind == "plain" else it.base if kind == "named" else None


def reader_of(shape, plain=lambda shape, read: read):
    """A function of the bytes of a value; it gives numbers, True and False, texts, lists and dictionaries. `plain` may put another in the place of one that
    reads numbers."""
    word = plain_of(shape)
    if word == "BOOL":
        return lambda data: data[0] != 0
    if word:
        one = struct.Struct("<" + LETTERS[word])
        return plain(shape, lambda data: one.unpack(data)[0])
    if shape.ends:
        return array_reader(shape.ends, shape.of_element(), plain)
    kind, it = shape.element
    if kind == "text":
        return text_of
    parts = [(own.name, own.at, own.at + own.shape.size(), reader_of(own.shape, plain)) for own in it.members]
    return lambda data: {name: read(data[at:end]) for name, at, end, read in parts}


def array_reader(ends, inner, plain):
    (low, high), rest = ends[0], ends[1:]
    inner_shape = Shape(rest, inner.element)
    read, size = reader_of(inner_shape, plain), inner_shape.size()
    return lambda data: [read(data[size * place:size * (place + 1)]) for place in range(high - low + 1)]


def shape_by_id(type_id, size):
    """The plain shape of a type id and a size; None where there is none."""
    word = IDS.get(type_id, {}).get(size)
    return Shape([], ("plain", word)) if word else Shape([], ("text", size - 1)) if type_id == 30 and size else None


def shape_of(book, type_text, type_id, size):
    """The shape of an entry: by the text of its type, else by its type id; None where neither says one of this size."""
    try:
        shape = book.shape(type_text)
        if shape.size() == size and shape.count() <= 1 << 20:
            return shape
    except (NoType, RecursionError):
        pass
    return shape_by_id(type_id, size)


def plain_json(value):
    """The same, with a text in place of each number that JSON has not: NaN and the infinities."""
    if isinstance(value, float) and not math.isfinite(value):
        return "NaN" if value != value else "Infinity" if value > 0 else "-Infinity"
    if isinstance(value, list):
        return [plain_json(it) for it in value]
    return {name: plain_json(it) for name, it in value.items()} if isinstance(value, dict) else value


def json_text(value):
    return json.dumps(plain_json(value), ensure_ascii=False, separators=(",", ":"))


def leaves(path, shape, most):
    """The paths and shapes of the plain parts of a value, at most `most` of them."""
    found, left = [], [(path, shape)]
    while left and len(found) < most:
        path, shape = left.pop()
        named = shape.named()
        if shape.ends:
            inner, paths = shape.of_element(), [""]
            for low, high in shape.ends:
                paths = [f"{it}{',' if it else ''}{index}" for it in paths[:most] for index in range(low, min(high, low + most) + 1)]
            left += [(f"{path}[{it}]", inner) for it in reversed(paths[:most])]
        elif named and not named.base:
            left += [(f"{path}.{own.name}", own.shape) for own in reversed(named.members)]
        else:
            found.append((path, shape))
    return found
