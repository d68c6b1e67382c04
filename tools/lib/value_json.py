"""Values as JSON has them, and back: numbers, truth, texts, durations as T#1m30s, enumerations by name, arrays as lists and structures as objects."""
import json
import math
import struct

from lib.durations import duration_text
from lib.layout import Shape
from lib.letters import letters_of
from lib.line_values import LineValues
from lib.toml_text import Value
from lib.value_words import FLOATS, SIGNED, real_words


# No type of a description is nested so deep.
DEEPEST = 64


class NoValueOf(Exception):
    """Why something is no value of a type, and what would be right."""


def json_of(shape, data):
    """The value of bytes, as `json` writes it."""
    if shape.ends:
        (low, high), rest = shape.ends[0], Shape(shape.ends[1:], shape.element)
        size = rest.size()
        return [json_of(rest, data[place * size:(place + 1) * size]) for place in range(high - low + 1)]
    kind, it = shape.element
    if kind == "text":
        return letters_of(data.split(b"\0")[0])
    if kind == "named" and not it.base:
        return {own.name: json_of(own.shape, data[own.at:own.at + own.shape.size()]) for own in it.members}
    word = it if kind == "plain" else it.base
    if word == "BOOL":
        return data != b"\0"
    if word in FLOATS:
        return real_of(word, data)
    number = int.from_bytes(data, "little", signed=word in SIGNED)
    if kind == "named":
        return next((name for name, own in it.values if own == number), number)
    return duration_text(number) if word == "TIME" else number


def real_of(word, data):
    number = struct.unpack(FLOATS[word], data)[0]
    return float(real_words(FLOATS[word], data)) if math.isfinite(number) else "NaN" if number != number else "Infinity" if number > 0 else "-Infinity"


class Raw(str):
    """What somebody wrote: JSON where it is that, a text as it stands where a text is wanted."""


def text_of(value):
    """A value in one line: JSON, but a text or a word alone without quotes."""
    return value if isinstance(value, str) else json.dumps(value, ensure_ascii=False)


def value_in(shape, text):
    """What somebody wrote for a type: a text as it stands where one is wanted, else what JSON says."""
    return text if shape.element[0] == "text" and not shape.ends and not text.startswith('"') else parsed(text)


def pairs_of(pairs):
    """An object of JSON, in which each key stands once."""
    found = dict(pairs)
    if len(found) < len(pairs):
        names = [name for name, _ in pairs]
        raise NoValueOf(f"{next(name for name in names if names.count(name) > 1)!r} stands there twice")
    return found


def json_in(text):
    """What a text of JSON says; a ValueError where it is none, a NoValueOf where a key stands twice."""
    try:
        return json.loads(text, object_pairs_hook=pairs_of)
    except RecursionError:
        raise NoValueOf("it is nested too deep") from None


def parsed(text):
    """What somebody wrote: JSON where it is that, else a text."""
    try:
        return json_in(text)
    except ValueError:
        return text


def written(value, deep=0):
    """A value of JSON as the reader of lines takes it."""
    if deep > DEEPEST:
        raise NoValueOf("it is nested too deep")
    if isinstance(value, bool):
        return Value("boolean", value, 0)
    if isinstance(value, (int, float)):
        return Value("integer" if isinstance(value, int) else "float", value, 0)
    if isinstance(value, list):
        return Value("array", [written(it, deep + 1) for it in value], 0)
    if isinstance(value, dict):
        return Value("table", {name: written(it, deep + 1) for name, it in value.items()}, 0)
    if value is None:
        raise NoValueOf("null is no value")
    return Value("string", value, 0)


def bytes_of(shape, value):
    """The bytes of a value of JSON; a NoValueOf where it is none of the type."""
    kind, it = shape.element
    if not shape.ends and isinstance(value, str) and kind == "plain" and it in FLOATS and value.lower().lstrip("-") in ("nan", "infinity", "inf"):
        return struct.pack(FLOATS[it], float(value))
    reader = LineValues("the value", "value")
    data = reader.bytes(shape, written(value))
    if reader.faults:
        fault = reader.faults[0]
        part = fault.who.partition(", part ")[2]
        raise NoValueOf((f"part {part}: " if part else "") + fault.why + (f"; {fault.right}" if getattr(fault, "right", None) else ""))
    return data
