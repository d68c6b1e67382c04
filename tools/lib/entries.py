"""Symbol and type entries, as uploads have them. What stands behind the fields that are known here is passed over, up to the length of the entry."""
import struct
from typing import List, NamedTuple, Tuple

from lib.values import printed


class BadEntry(Exception):
    """Why bytes are no entry."""


class SymbolEntry(NamedTuple):
    group: int
    offset: int
    size: int
    type_id: int
    flags: int
    name: bytes
    type: bytes
    comment: bytes

    def line(self):
        """The entry as `ads list` prints it."""
        return f"{printed(self.name)} 0x{self.group:X} {self.offset} {self.size} 0x{self.flags:X} {printed(self.type)}"


class TypeEntry(NamedTuple):
    size: int
    offset: int
    type_id: int
    flags: int
    name: bytes
    type: bytes
    comment: bytes
    ends: List[Tuple[int, int]]
    subs: list
    rest: bytes

    def line(self):
        parts = ", ".join(f"{printed(sub.name)} {sub.offset} {sub.size} {printed(sub.type)}" for sub in self.subs)
        return f"{printed(self.name)} {self.size} " + (f"({parts})" if self.subs else printed(self.type))


def entries_in(given, head):
    """The bytes of each entry of an upload, behind its length; `head` is the least that an entry has."""
    at, found = 0, []
    while at < len(given):
        length = struct.unpack("<I", given[at:at + 4])[0] if len(given) - at >= 4 else 0
        if not head <= length <= len(given) - at:
            raise BadEntry(f"an entry says that it has {length} bytes, where {len(given) - at} are left")
        found.append(given[at + 4:at + length])
        at += length
    return found


def texts_at(given, at, lengths):
    """Texts with a NUL behind each, and where they end."""
    texts = []
    for length in lengths:
        if given[at + length:at + length + 1] != b"\0":
            raise BadEntry("a text of an entry has not its NUL where its length says")
        texts.append(given[at:at + length])
        at += length + 1
    return texts, at


def read_symbols(given):
    found = []
    for entry in entries_in(given, 33):
        fields = struct.unpack("<IIIIIHHH", entry[:26])
        found.append(SymbolEntry(*fields[:5], *texts_at(entry, 26, fields[5:])[0]))
    return found


def read_types(given, deep=8):
    """Type entries; sub entries may have sub entries of their own, `deep` deep."""
    found = []
    for entry in entries_in(given, 45):
        _, _, _, size, offset, type_id, flags, *lengths, dims, subs = struct.unpack("<IIIIIIIHHHHH", entry[:38])
        texts, at = texts_at(entry, 38, lengths)
        if len(entry) - at < 8 * dims:
            raise BadEntry("an entry has fewer dimensions than it says")
        bounds = [struct.unpack("<iI", entry[at + 8 * place:at + 8 * place + 8]) for place in range(dims)]
        inner, at = subs_at(entry, at + 8 * dims, subs, deep)
        found.append(TypeEntry(size, offset, type_id, flags, *texts, [(low, low + count - 1) for low, count in bounds], inner, entry[at:]))
    return found


def subs_at(entry, at, count, deep):
    """So many sub entries, and where they end."""
    if count and not deep:
        raise BadEntry("sub entries are nested too deep")
    found = []
    for _ in range(count):
        length = struct.unpack("<I", entry[at:at + 4])[0] if len(entry) - at >= 4 else 0
        if not 45 <= length <= len(entry) - at:
            raise BadEntry(f"a sub entry says that it has {length} bytes, where {len(entry) - at} are left")
        found += read_types(entry[at:at + length], deep - 1)
        at += length
    return found, at
