"""Members of one bit: a description has none, so bits in one byte become a byte with their names."""
from lib.import_model import Part
from lib.page_words import MOST_TEXT
from lib.type_texts import lower


def is_bit(part):
    return part.why is None and not part.ends and part.text.upper() == "BIT"


def with_bytes(parts):
    """The members of a structure, with a byte in the place of bits that stand in one."""
    found, names = [], {lower(part.name) for part in parts}
    for part in parts:
        if not is_bit(part):
            found.append(part)
            continue
        last = found[-1] if found and found[-1].named else None
        number = part.at % 8 if part.at is not None else len(last.named) % 8 if last else 0
        if not (last and has_room(last, part, number)):
            last = byte_for(part, number, len(found), names)
            found.append(last)
        take(last, part, number)
    return found


def has_room(byte, part, number):
    place = None if part.at is None else part.at - number
    return byte.at == place and number not in byte.named and lower(part.name) not in map(lower, byte.named.values())


def byte_for(part, number, place, names):
    name = f"bits_{place}"
    while lower(name) in names:
        name += "_"
    names.add(lower(name))
    byte = Part(name, "BYTE", part.line)
    byte.bits, byte.at = 8, None if part.at is None else part.at - number
    return byte


def take(byte, part, number):
    byte.named[number] = "".join(it if it.isprintable() else "?" for it in part.name)[:MOST_TEXT] or f"bit {number}"
    if part.comment:
        byte.comment = "; ".join(filter(None, [byte.comment, f"{part.name}: {part.comment}"]))
    if isinstance(part.initial, str) and part.initial.strip().upper() in ("TRUE", "1"):
        byte.initial = str(int(byte.initial or "0") | 1 << number)
