"""A value that somebody typed in a form, as the bytes of its type: what is taken is told in the sentence for what is not."""
import re

from lib.leaves import BYTE_OF, is_signed, packed, values_of
from lib.shown import shown
from lib.values import NoValue

NUMBER = re.compile(r"[-+]?[0-9]{1,40}")
DECIMAL = re.compile(r"[-+]?(?:[0-9]{1,400}(?:\.[0-9]{0,400})?|\.[0-9]{1,400})(?:[eE][-+]?[0-9]{1,5})?")
SPAN = re.compile(r"(?:T|TIME)#(?:([0-9]{1,10})d)?(?:([0-9]{1,10})h)?(?:([0-9]{1,10})m(?!s))?(?:([0-9]{1,10})s)?(?:([0-9]{1,10})ms)?", re.IGNORECASE)
UNITS = (86400000, 3600000, 60000, 1000, 1)
GREATEST_REAL = {"REAL": "3.4028235e38", "LREAL": "1.7976931348623157e308"}


def typed_bytes(leaf, text):
    """The bytes of a value for a leaf; a NoValue, which says what is wanted, where the text is none."""
    if leaf.kind == "text":
        return text_bytes(leaf, text)
    text = text.strip()
    if not text:
        raise NoValue("no value was typed")
    return {"bool": bool_bytes, "real": real_bytes, "time": time_bytes, "enum": enum_bytes}.get(leaf.kind, number_bytes)(leaf, text)


def text_bytes(leaf, text):
    foreign = next((letter for letter in text if letter not in BYTE_OF or letter == "\0"), None)
    if foreign:
        raise NoValue(f"a STRING has the letters of Windows-1252, and {shown(foreign)} is none of them")
    if len(text) >= leaf.size:
        raise NoValue(f"this text has {len(text)} letters, and {leaf.shape.text()} has room for {leaf.size - 1}")
    return bytes(BYTE_OF[letter] for letter in text).ljust(leaf.size, b"\0")


def bool_bytes(_, text):
    truth = {"TRUE": b"\1", "1": b"\1", "FALSE": b"\0", "0": b"\0"}.get(text.upper())
    if truth is None:
        raise NoValue(f"a BOOL is TRUE or FALSE, and {shown(text)} is neither")
    return truth


def number_bytes(leaf, text):
    """A whole number in its range."""
    bits, signed = 8 * leaf.size, is_signed(leaf.shape)
    low = -2 ** (bits - 1) if signed else 0
    high = low + 2 ** bits - 1
    if not NUMBER.fullmatch(text):
        raise NoValue(f"{leaf.shape.text()} is a whole number in decimal digits, from {low} to {high}, and {shown(text)} is none")
    if not low <= int(text) <= high:
        raise NoValue(f"{leaf.shape.text()} is a number from {low} to {high}, and {shown(text)} is outside of it")
    return int(text).to_bytes(leaf.size, "little", signed=signed)


def real_bytes(leaf, text):
    word = leaf.shape.text()
    if "," in text:
        raise NoValue(f"{shown(text)} has a comma: write a full stop, as in 1.5")
    if not DECIMAL.fullmatch(text):
        raise NoValue(f"{word} is a number such as 1.5 or 2e-3, and {shown(text)} is none")
    data, value = packed("<d" if leaf.size == 8 else "<f", float(text)), float(text)
    if data is None or value in (float("inf"), float("-inf")):
        raise NoValue(f"{shown(text)} is beyond a {word}, which goes to {GREATEST_REAL[word]}")
    return data


def time_bytes(_, text):
    """A number of milliseconds, or T#1h2m3s4ms."""
    it, plain = SPAN.fullmatch(text), re.fullmatch("[0-9]{1,40}", text)
    if not plain and not (it and any(it.groups())):
        raise NoValue(f"a TIME is written as T#1m30s or T#250ms, or as a number of milliseconds, and {shown(text)} is neither")
    span = int(text) if plain else sum(unit * int(count) for unit, count in zip(UNITS, it.groups()) if count)
    if span >= 2 ** 32:
        raise NoValue(f"a TIME has at most 4294967295 ms (T#49d17h2m47s295ms), and {shown(text)} has more")
    return span.to_bytes(4, "little")


def enum_bytes(leaf, text):
    """The name of a value, or its number."""
    values = values_of(leaf.shape)
    found = next((number for name, number in values if name.lower() == text.lower() or str(number) == text), None)
    if found is None:
        names = ", ".join(f"{name} ({number})" for name, number in values[:12]) + (", .." if len(values) > 12 else "")
        raise NoValue(f"{leaf.shape.text()} is one of {names}, and {shown(text)} is none of them")
    return leaf.shape.element[1].number_bytes(found)
