"""The bytes of a value in words: as a line of tools/plant.py writes it, so that what it says is read back as the same bytes."""
import struct

from lib.durations import duration_text
from lib.letters import letters_of, quoted

SIGNED = ("SINT", "INT", "DINT", "LINT")
BITS = ("BYTE", "WORD", "DWORD", "LWORD")
FLOATS = {"REAL": "<f", "LREAL": "<d"}
GREATEST = {"<f": struct.unpack("<f", b"\xff\xff\x7f\x7f")[0], "<d": float("inf")}


def hex_words(data):
    return f'"{data.hex()}"'


def real_words(code, data):
    """The shortest number that is read back as these bytes."""
    number = struct.unpack(code, data)[0]
    for digits in range(1, 18):
        said = float(f"{number:.{digits}g}")
        if said != said or abs(said) <= GREATEST[code] or said == number:
            if struct.pack(code, said) == data:
                return repr(said)
    return hex_words(data)


def plain_words(word, data):
    if word == "BOOL":
        return {b"\0": "false", b"\1": "true"}.get(data) or hex_words(data)
    if word in FLOATS:
        return real_words(FLOATS[word], data)
    number = int.from_bytes(data, "little", signed=word in SIGNED)
    if word == "TIME":
        return f'"{duration_text(number)}"'
    if number >= 2 ** 63:
        return f'"{number}"'
    return f"0x{number:0{2 * len(data)}x}" if word in BITS else str(number)


def text_words(data):
    text, _, rest = data.partition(b"\0")
    return quoted(letters_of(text)) if len(text) < len(data) and not any(rest) else hex_words(data)


def enumeration_words(named, data):
    return next((f'"{name}"' for name, number in named.values if named.number_bytes(number) == data), hex_words(data))


def words_of(shape, data):
    """All of it in one line. Where filling bytes are not zero no words say it, and it is hexadecimal."""
    if shape.ends:
        inner, size = shape.of_element(), shape.of_element().size()
        if shape.count() > 4 and data == data[:size] * shape.count():
            return f"{{ each = {words_of(inner, data[:size])} }}"
        return "[" + ", ".join(words_of(inner, data[at:at + size]) for at in range(0, len(data), size)) + "]"
    kind, it = shape.element
    if kind == "plain":
        return plain_words(it, data)
    if kind == "text":
        return text_words(data)
    if it.base:
        return enumeration_words(it, data)
    if has_filling(it, data):
        return hex_words(data)
    return "{ " + ", ".join(f"{own.name} = {words_of(own.shape, data[own.at:own.at + own.shape.size()])}" for own in it.members) + " }"


def has_filling(named, data):
    """Whether bytes of a structure that no member has are other than zero."""
    end = 0
    for own in named.members:
        if any(data[end:own.at]):
            return True
        end = own.at + own.shape.size()
    return any(data[end:])


def spare_words(shape, data, begun):
    """The same without what is there anyway: members and last elements that are as `begun` makes those of a type."""
    if shape.ends:
        inner, size = shape.of_element(), shape.of_element().size()
        parts = [data[at:at + size] for at in range(0, len(data), size)]
        if len(parts) > 4 and parts == parts[:1] * len(parts):
            return f"{{ each = {spare_words(inner, parts[0], begun)} }}"
        while parts and parts[-1] == begun(inner):
            parts.pop()
        said, mark = [spare_words(inner, part, begun) for part in parts], ",\n  " if inner.named() and inner.named().members else ", "
        return "[\n  " + mark.join(said) + ",\n]" if mark != ", " and len(said) > 1 else "[" + mark.join(said) + "]"
    named = shape.named()
    if not named or named.base:
        return words_of(shape, data)
    if has_filling(named, data):
        return hex_words(data)
    own, found = begun(shape), []
    for it in named.members:
        end = it.at + it.shape.size()
        if data[it.at:end] != own[it.at:end]:
            found.append(f"{it.name} = {spare_words(it.shape, data[it.at:end], begun)}")
    return "{ " + ", ".join(found) + " }" if found else "{}"
