"""Literals of IEC 61131-3 as the bytes of a type."""
import re
import struct
from datetime import datetime, timezone
from fractions import Fraction

from lib.durations import NoDuration, milliseconds_of
from lib.layout import step_into
from lib.letters import bytes_of, letters_of
from lib.line_values import own_number
from lib.shown import shown
from lib.type_texts import lower
from lib.value_words import FLOATS, SIGNED

BASED = re.compile(r"([+-]?)(2|8|16)#([0-9A-Fa-f_]+)")
TYPED = re.compile(r"(?:S|US|U|D|UD|L|UL)?INT#|(?:BYTE|WORD|DWORD|LWORD|BOOL|L?REAL)#", re.IGNORECASE)
DECIMAL = re.compile(r"[+-]?[0-9][0-9_]*")
REAL = re.compile(r"[+-]?[0-9][0-9_]*(?:\.[0-9_]*)?(?:[eE][+-]?[0-9]+)?")
HOURS = r"([0-9]{1,2}):([0-9]{1,2})(?::([0-9]{1,2})(?:\.([0-9]{1,9}))?)?"
DAY = re.compile(rf"(l?dt|l?d|date_and_time|date|ldate)#([0-9]{{4}})-([0-9]{{1,2}})-([0-9]{{1,2}})(?:-{HOURS})?", re.IGNORECASE)
CLOCK = re.compile(rf"(l?tod|time_of_day|ltod)#{HOURS}", re.IGNORECASE)
LETTER = re.compile(r"\$([0-9A-Fa-f]{2}|[$'LlNnPpRrTt])")
LETTERS = {"$": "$", "'": "'", "l": "\n", "n": "\r\n", "p": "\f", "r": "\r", "t": "\t"}
STEP = re.compile(r"\.([A-Za-z_][A-Za-z0-9_]*)|\[([-0-9, ]+)\]|#([0-9]+)\*([0-9]+)")


class NoLiteral(Exception):
    """Why a literal is no value of a type."""


def literal_bytes(shape, text):
    """The bytes of a literal; a NoLiteral where it is none of the type."""
    if shape.ends:
        raise NoLiteral(f"{shown(text)} is no array")
    kind, it = shape.element
    if kind == "text":
        return text_bytes(it, text)
    text = text.strip()
    if kind == "named" and not it.base:
        raise NoLiteral(f"{shown(text)} is no structure")
    if kind == "named":
        number = own_number(it, text.rpartition(".")[2].rpartition("#")[2])
        number = whole(text) if number is None else number
        if number not in [own for _, own in it.values]:
            raise NoLiteral(f"{shown(text)} is no value of {it.name}")
        return it.number_bytes(number)
    return plain_bytes(it, shape.size(), TYPED.sub("", text, 1) if TYPED.match(text) else text)


def plain_bytes(word, size, text):
    if word in FLOATS:
        if not REAL.fullmatch(text):
            raise NoLiteral(f"{shown(text)} is no number")
        try:
            return struct.pack(FLOATS[word], float(text.replace("_", "")))
        except OverflowError:
            raise NoLiteral(f"{shown(text)} is greater than a {word} can be") from None
    if word == "BOOL":
        if text.upper() not in ("TRUE", "FALSE", "0", "1"):
            raise NoLiteral(f"{shown(text)} is neither TRUE nor FALSE")
        return bytes([text.upper() in ("TRUE", "1")])
    number = whole(text)
    if number is None:
        number = moment(text, size)
    low = -2 ** (8 * size - 1) if word in SIGNED else 0
    if number is None or not low <= number < low + 2 ** (8 * size):
        raise NoLiteral(f"{shown(text)} is no value of {word}")
    return number.to_bytes(size, "little", signed=word in SIGNED)


def whole(text):
    """A number without a point; None where it is none."""
    it = BASED.fullmatch(text)
    try:
        return int(it[1] + it[3].replace("_", ""), int(it[2])) if it else int(text.replace("_", "")) if DECIMAL.fullmatch(text) and len(text) < 40 else None
    except ValueError:
        return None


def moment(text, size):
    """A duration, a date or a time of day as the number that a controller has: of 4 bytes in milliseconds and seconds, of 8 in nanoseconds."""
    day, clock = DAY.fullmatch(text), CLOCK.fullmatch(text)
    try:
        if day:
            year, month, date, hour, minute, second = (int(part or 0) for part in day.groups()[1:7])
            total = Fraction(int(datetime(year, month, date, hour, minute, second, tzinfo=timezone.utc).timestamp())) + part_of_second(day[8])
            return int(total if size == 4 else total * 10 ** 9)
        if clock:
            hour, minute, second = (int(part or 0) for part in clock.groups()[1:4])
            total = (hour * 60 + minute) * 60 + second + part_of_second(clock[5])
            return int(total * 1000 if size == 4 else total * 10 ** 9) if hour < 24 and minute < 60 and second < 60 else None
        total = milliseconds_of(text)
        return int(total if size == 4 else total * 10 ** 6)
    except (ValueError, NoDuration):
        return None


def part_of_second(digits):
    return Fraction(int(digits), 10 ** len(digits)) if digits else Fraction(0)


def text_bytes(most, text):
    said = text.strip()
    if len(said) >= 2 and said[0] == said[-1] == "'":
        said = LETTER.sub(lambda it: LETTERS.get(it[1].lower()) or letters_of(bytes([int(it[1], 16)])), said[1:-1])
    else:
        said = text
    data, odd = bytes_of(said)
    data = data.partition(b"\0")[0]
    if odd is not None or len(data) > most:
        raise NoLiteral(f"{shown(said)} has a letter that is none of Windows-1252" if odd else f"{shown(said)} has more than {most} letters")
    return data.ljust(most + 1, b"\0")


def initial_bytes(shape, initial, begun):
    """The bytes of an initial value, and why parts of it are not carried over. `begun` gives the bytes with which a type begins."""
    if isinstance(initial, str):
        try:
            return literal_bytes(shape, initial), []
        except NoLiteral as fault:
            return begun(shape), [str(fault)]
    data, faults = bytearray(begun(shape)), []
    for path, text in initial:
        try:
            put(data, shape, path, text)
        except NoLiteral as fault:
            faults.append(f"{path}: {fault}")
    return bytes(data), faults


def put(data, shape, path, text):
    """Puts the value of one part, or of a run of equal elements."""
    places, rest = [(0, shape)], path if path[:1] in ".[#" else "." + path
    while rest:
        it = STEP.match(rest)
        if not it:
            raise NoLiteral("it is no path")
        rest, found = rest[it.end():], []
        for at, inner in places:
            found += steps(at, inner, it)
        places = found
        if len(places) > 1048576:
            raise NoLiteral("it is too many elements")
    for at, inner in places:
        own = literal_bytes(inner, text)
        data[at:at + len(own)] = own


def steps(at, shape, it):
    """The places to which one step leads."""
    if it[3]:
        inner, first, count = shape.of_element(), int(it[3]), int(it[4])
        if not shape.ends or first + count > shape.count():
            raise NoLiteral("there are fewer elements")
        return [(at + place * inner.size(), inner) for place in range(first, first + count)]
    try:
        step = lower(it[1]) if it[1] else tuple(int(word) for word in it[2].split(","))
    except ValueError:
        raise NoLiteral("it is no path") from None
    found = step_into(shape, step)
    if found is None:
        raise NoLiteral("there is no such part")
    return [(at + found[0], found[1])]
