"""The topics and the texts of values on a broker: what is published of a name, and what bytes a text that was sent to
it means."""
import datetime
import json
import re
import struct
import time

from lib.flow_values import LETTERS, plain_json, plain_of, reader_of
from lib.shown import told
from lib.type_texts import lower
from lib.value_json import real_of
from lib.values import NoValue, value_bytes

EPOCH, MOST, TELL = datetime.datetime(1970, 1, 1), 65536, 10.0
WHOLE = {word: (8 * struct.calcsize("<" + letter), letter.islower()) for word, letter in LETTERS.items()
         if word not in ("BOOL", "REAL", "LREAL")}


def level(name):
    """A name as one level of a topic: what a topic can't hold stands as % and two hexadecimal digits."""
    return re.sub(r"[/+#%\x00-\x1f\x7f]|^\$", lambda it: f"%{ord(it[0]):02X}", name) or "%"


def time_text(ns):
    moment = EPOCH + datetime.timedelta(seconds=ns // 10 ** 9)
    return moment.strftime("%Y-%m-%dT%H:%M:%S") + f".{ns // 100 % 10 ** 7:07d}Z"


def line(**words):
    return json.dumps(plain_json(words), ensure_ascii=False).encode("utf-8", "replace")


class Tally:
    """What is passed over again and again: each reason is told at once, then at most each ten seconds, with how often."""

    def __init__(self, say, what):
        self.say, self.what, self.counts, self.told = say, what, {}, {}

    def add(self, why):
        self.counts[why] = self.counts.get(why, 0) + 1
        self.tell()

    def tell(self, last=False):
        now = time.monotonic()
        for why in [why for why in self.counts if last or now >= self.told.get(why, now - TELL) + TELL]:
            self.told[why] = now
            self.say(f"{self.what}: {self.counts.pop(why):,}, {why}")


def as_people_say(shape, read):
    """For `reader_of`: a REAL in its shortest form, an enumeration by name."""
    named = shape.named()
    if named:
        names = {number: name for name, number in reversed(named.values)}
        return lambda data: names.get(read(data), read(data))
    return (lambda data: real_of("REAL", data)) if plain_of(shape) == "REAL" else read


def in_words(known, port):
    """What is known of a name, with the names that a port of a description has for its numbers, where it has the same
    type."""
    part = port.find(known.name) if port else None
    if part and part.shape.text() == known.type and part.shape.size() == known.size:
        known.shape = part.shape
    if known.shape:
        known.read = reader_of(known.shape, as_people_say)
    return known


def value_line(known, ns, data):
    """What is published of a sample."""
    value = known.read(data)
    return line(value=data.hex() if value is None else value, type=known.type, time=time_text(ns))


def bytes_of(known, payload):
    """The bytes of the value that was sent to a name: JSON, an object with a `value`, or as `ads set` reads it; a NoValue
    where it is none."""
    if len(payload) > MOST:
        raise NoValue(f"a value has at most {MOST} bytes")
    try:
        text = payload.decode("utf-8")
    except UnicodeDecodeError:
        raise NoValue("it is no UTF-8 text") from None
    try:
        value = json.loads(text)
    except (ValueError, RecursionError):
        text = text.strip()
        if is_enumeration(known) and not text.startswith("16#"):
            return packed(known, text)
        return value_bytes(known.type_id, known.size, text)
    value = value["value"] if isinstance(value, dict) and "value" in value else value
    return packed(known, value)


def is_enumeration(known):
    named = known.shape.named() if known.shape else None
    return bool(named and named.base)


def number_of(known, value):
    """The number of an enumeration's name, which may stand behind the enumeration's own and a full stop; any other value
    as it is."""
    if not is_enumeration(known) or not isinstance(value, str):
        return value
    named = known.shape.named()
    own, stop, name = value.rpartition(".")
    if not stop or lower(own) == lower(named.name):
        for word, number in named.values:
            if lower(word) == lower(name):
                return number
    words = ", ".join(word for word, _ in named.values)[:200]
    raise NoValue(f"{named.name} takes one of {words} or a number, and {told(value)} is none")


def packed(known, value):
    word, value = known.plain, number_of(known, value)
    if word == "BOOL" and isinstance(value, bool):
        return bytes([value])
    if word in WHOLE and isinstance(value, int) and not isinstance(value, bool):
        bits, signed = WHOLE[word]
        least = -2 ** (bits - 1) if signed else 0
        if not least <= value < least + 2 ** bits:
            raise NoValue(f"{word} is a number from {least} to {least + 2 ** bits - 1}")
        return value.to_bytes(bits // 8, "little", signed=signed)
    if word in ("REAL", "LREAL") and not isinstance(value, bool):
        if isinstance(value, (int, float)) or value in ("NaN", "Infinity", "-Infinity"):
            try:
                return struct.pack("<" + LETTERS[word], float(value))
            except (OverflowError, ValueError):
                raise NoValue(f"{word} holds no such number") from None
    if known.shape and not known.shape.ends and known.shape.element[0] == "text" and isinstance(value, str):
        return text_bytes(value, known.size)
    kind = known.type or "16#.."
    takes = f"takes {wanted(known)}" if word or known.type_id == 30 else "is not set as a whole: set its parts"
    raise NoValue(f"{kind} {takes}")


def wanted(known):
    word = known.plain
    if word:
        return "true or false" if word == "BOOL" else "a whole number" if word in WHOLE else "a number"
    return "a text in quotes"


def text_bytes(value, size):
    """The bytes of a text: Windows-1252, as TwinCAT has it, or UTF-8 where that has not its letters."""
    try:
        data = value.encode("cp1252")
    except UnicodeEncodeError:
        data = value.encode("utf-8", "surrogatepass")
    if b"\0" in data or len(data) >= size:
        raise NoValue(f"a text has at most {size - 1} bytes here, and no NUL")
    return data.ljust(size, b"\0")
