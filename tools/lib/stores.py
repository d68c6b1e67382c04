"""The file of persistent values that `keep` writes: two slots, of which the one with the greater number counts."""
import struct
from typing import NamedTuple

SECOND, LONGEST = 1048592, 1048576


class Stored(NamedTuple):
    """One persistent symbol as it was saved."""
    port: int
    name: str
    form: str
    value: bytes


class NoBody(Exception):
    """Why bytes are no body of a store."""


def entries_of(body):
    """The entries of a body text; a NoBody where it is none."""
    def take(count):
        nonlocal at
        if at + count > len(body):
            raise NoBody("it ends within an entry")
        at += count
        return body[at - count:at]

    at, found = 0, []
    for _ in range(struct.unpack("<I", take(4))[0]):
        port, length = struct.unpack("<HH", take(4))
        name = take(length).decode("latin-1")
        form = take(struct.unpack("<Q", take(8))[0]).decode("latin-1")
        found.append(Stored(port, name, form, take(struct.unpack("<I", take(4))[0])))
    if at != len(body):
        raise NoBody("bytes stand behind its last entry")
    return found


def slot_of(data, start):
    """The number and the entries of a slot that counts; None where it does not."""
    if len(data) < start + 13 or data[start] != 1:
        return None
    number, length = struct.unpack("<QI", data[start + 1:start + 13])
    body = data[start + 13:start + 13 + length]
    try:
        return (number, entries_of(body)) if length <= LONGEST and len(body) == length else None
    except NoBody:
        return None


def standing(data):
    """What a store stands for: the number of its save and its entries; None where nothing stands in it."""
    slots = [it for it in (slot_of(data, 0), slot_of(data, SECOND)) if it]
    return max(slots, key=lambda it: it[0]) if slots else None
