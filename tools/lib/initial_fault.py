"""What is wrong with the `initial` of a description's symbol, and the bytes that would be right."""
import re

from lib.line_values import LineValues
from lib.shown import shown
from lib.toml_text import Reader, TomlFault
from lib.value_words import words_of

HEX = re.compile("(?:[0-9A-Fa-f]{2})*")
MOST_DIGITS, MOST_WORDS = 128, 60
BUILDS = "tools/plant.py build takes it as it stands, and writes the bytes"


def initial_fault(symbol, shape, types):
    """The fault; None where there is none."""
    text, named = symbol["initial"], shape.named()
    if text is None:
        return None
    if not HEX.fullmatch(text):
        return symbol.broken("initial", f"{shown(text)} is no hexadecimal text, two digits a byte", None, lambda: initial_meant(symbol, shape))
    if len(text) != 2 * shape.size():
        why = f"it has {len(text) // 2} bytes, and {shape.text()} has {shape.size()}"
        return symbol.broken("initial", why, None, lambda: length_meant(symbol, shape))
    if named and named.base and named in types.whole and bytes.fromhex(text) not in [named.number_bytes(number) for _, number in named.values]:
        known = ", ".join(f'{name} is "{named.number_bytes(number).hex()}"' for name, number in named.values[:8])
        return symbol.broken("initial", f"it is the number of no value of {named.name}", None, known)
    return None


def initial_meant(symbol, shape):
    """The bytes of the value that stands there in words; None where it is none."""
    data = bytes_meant(symbol.raw["initial"], shape)
    if data is None:
        return f"{shape.text()} has {shape.size()} bytes" if shape.size() < 1000 else None
    return f'write "{data.hex()}"' if 2 * len(data) <= MOST_DIGITS else BUILDS


def bytes_meant(value, shape):
    for one in (inside(value), value) if value.kind == "string" else (value,):
        reading = LineValues("", "")
        data = reading.bytes(shape, one) if one is not None and one.kind != "broken" else None
        if data is not None and not reading.faults:
            return data
    return None


def inside(value):
    """The value that a text in quotes writes; None where it writes none."""
    text = value.data.strip()
    try:
        one, end = Reader(text).value(0, 4)
    except (TomlFault, RecursionError):
        return None
    return one if end == len(text) and one.kind != "string" else None


def length_meant(symbol, shape):
    """The bytes filled with zeros, or without what is too much, and the number that the digits may be."""
    text, size, found = symbol["initial"], shape.size(), {}
    filled = bytes.fromhex(text)[:size].ljust(size, b"\0")
    if 0 < len(text) < 2 * size or (text and not any(bytes.fromhex(text)[size:])):
        found[filled] = words_of(shape, filled)
    data = bytes_meant(symbol.raw["initial"], shape)
    if data is not None:
        found[data] = words_of(shape, data)
    said = [f'"{data.hex()}" for {words}' for data, words in found.items() if len(words) <= MOST_WORDS and 2 * len(data) <= MOST_DIGITS]
    return f"write {' or '.join(said)}" if said else None
