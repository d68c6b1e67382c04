"""Which symbols of a server a list of names and patterns means, and what is known of each: its type, its size and how its bytes are read."""
import re
import struct

from lib import groups
from lib.entries import BadEntry, read_symbols, read_types
from lib.flow_values import json_text, leaves, plain_of, reader_of, shape_of, wide_text_of
from lib.frames import READ_WRITE
from lib.link import GREATEST, Refused
from lib.near import meant
from lib.payloads import Request
from lib.type_book import TypeBook, text
from lib.type_texts import lower
from lib.values import printed
from lib.words import Ended

SUM, MOST_LEAVES = 500, 100000
MOST_ENTRY = 2048
MOST_TRIES = 5


class Known:
    """A symbol, or a part of one, as the server describes it now."""

    def __init__(self, name, raw, type_text, type_id, size, shape, flags=0):
        self.name, self.raw, self.type, self.type_id, self.size, self.shape, self.flags = name, raw, type_text, type_id, size, shape, flags
        self.plain = plain_of(shape)
        wide = type_text.upper().startswith("WSTRING")
        self.read = reader_of(shape) if shape else wide_text_of if wide else lambda data: None
        self.stored = self.read if self.plain not in (None, "ULINT", "LWORD") else lambda data: stored(self.read(data))

    def same(self, other):
        return (self.type, self.type_id, self.size) == (other.type, other.type_id, other.size)


def stored(value):
    """A value as a column takes it: a number, a text, the JSON text of a structure or an array; a number that 64 bits with a sign do not hold as a float."""
    if isinstance(value, (list, dict)):
        return json_text(value)
    return float(value) if isinstance(value, int) and value >= 2 ** 63 else value


def is_pattern(word):
    return "*" in word or "?" in word


def pattern_of(word):
    return re.compile("".join(".*" if it == "*" else "." if it == "?" else re.escape(it) for it in lower(word)), re.DOTALL)


def uploaded(stream, port, group, count, size, read, what):
    if size > GREATEST - 1024:
        raise Ended(f"{stream.to} says that its {what} have {size} bytes; more than {GREATEST - 1024} are not asked for", 9)
    try:
        found = read(stream.read(port, group, 0, size, size)) if size else []
    except (BadEntry, struct.error) as fault:
        raise Ended(f"{stream.to} sends no {what} of port {port}: {fault}", 9) from None
    if len(found) != count:
        raise Ended(f"{stream.to} says that port {port} has {count} {what}, and sends {len(found)}", 9)
    return found


def counts_of(stream, port):
    """How many symbols and types a port has, and how many bytes they are: what comes in front of asking for them."""
    try:
        return stream.read(port, groups.TYPE_COUNTS, 0, 24, 24)[:16]
    except Refused:
        return stream.read(port, groups.COUNTS, 0, 8, 8) + bytes(8)


def described(stream, port):
    """The symbol entries of a port by their names in lower case, and a book of its types. Where a new description comes
    between the counts and what they count, both are asked for again."""
    for _ in range(MOST_TRIES - 1):
        counts = counts_of(stream, port)
        try:
            return described_by(stream, port, counts)
        except (Ended, Refused):
            if counts_of(stream, port) == counts:
                raise
    return described_by(stream, port, counts_of(stream, port))


def described_by(stream, port, counts):
    symbols, symbol_bytes, types, type_bytes = struct.unpack("<IIII", counts)
    listed = uploaded(stream, port, groups.SYMBOLS, symbols, symbol_bytes, read_symbols, "symbols")
    book, found = TypeBook(), {}
    book.of_port(uploaded(stream, port, groups.TYPES, types, type_bytes, read_types, "types"))
    for entry in listed:
        found.setdefault(lower(printed(entry.name)), entry)
    return found, book


def known_of(entry, book, name=None, raw=None):
    kind = printed(entry.type)
    shape = shape_of(book, text(entry.type), entry.type_id, entry.size)
    return Known(name or printed(entry.name), raw or entry.name, kind, entry.type_id, entry.size, shape, entry.flags)


def matches(pattern, entries, book):
    """What a pattern means: the symbols whose names it matches; where there is none, the plain parts of symbols."""
    found = [known_of(entry, book) for name, entry in entries.items() if pattern.fullmatch(name)]
    if found:
        return found
    for entry in entries.values():
        whole = known_of(entry, book)
        if whole.shape and not whole.plain and len(found) < MOST_LEAVES:
            for path, shape in leaves(whole.name, whole.shape, MOST_LEAVES):
                if pattern.fullmatch(lower(path)):
                    raw = entry.name + path[len(whole.name):].encode()
                    found.append(Known(path, raw, shape.text(), shape.type_id(), shape.size(), shape, entry.flags))
    return found[:MOST_LEAVES]


def ask_names(stream, port, group, names, length):
    """The answers of many ReadWrites by name, in sums: the code and the data of each."""
    found = []
    for at in range(0, len(names), SUM):
        some = names[at:at + SUM]
        heads = b"".join(struct.pack("<IIII", group, 0, length, len(name) + 1) for name in some)
        data = stream.ask(port, Request(READ_WRITE, groups.SUM_ASK, len(some), (8 + length) * len(some), heads + b"".join(name + b"\0" for name in some)))
        place = 8 * len(some)
        if len(data) < place:
            raise Ended(f"{stream.to} gave {len(data)} bytes of a sum of {len(some)}", 9)
        for part in range(len(some)):
            code, count = struct.unpack_from("<II", data, 8 * part)
            if count > length or place + count > len(data):
                raise Ended(f"{stream.to} gave a sum whose parts have more bytes than it", 9)
            found.append((code, data[place:place + count]))
            place += count
    return found


def parts(stream, port, names, book):
    """The parts of symbols that have these names; None for each that is not there."""
    found = []
    for name, (code, data) in zip(names, ask_names(stream, port, groups.ENTRY, [name.encode("utf-8", "replace") for name in names], MOST_ENTRY)):
        try:
            entry = None if code else read_symbols(data)[0]
        except (BadEntry, struct.error, IndexError):
            raise Ended(f"{stream.to} sends no entry of {name}", 9) from None
        found.append(entry and known_of(entry, book, name, name.encode()))
    return found


class Missing(str):
    """A word that names nothing; `meant` says which name is near, nothing where none is."""
    entries, book = {}, None

    def meant(self):
        names = {printed(entry.name): entry for entry in self.entries.values()}
        return None if is_pattern(self) else meant(self, names, lambda name: known_of(names[name], self.book).shape)

    def said(self):
        right = self.meant()
        return f"{self} ({right})" if right else str(self)


def missing_of(word, entries, book):
    it = Missing(word)
    it.entries, it.book = entries, book
    return it


def wanted(stream, port, words):
    """What names and patterns mean now, by the printed name, and the words that mean nothing."""
    entries, book = described(stream, port)
    found, missing, asked = {}, [], []
    for word in words:
        if is_pattern(word):
            these = matches(pattern_of(word), entries, book)
        elif lower(word) in entries:
            these = [known_of(entries[lower(word)], book)]
        else:
            asked.append(word)
            continue
        missing += [] if these else [missing_of(word, entries, book)]
        for it in these:
            found.setdefault(lower(it.name), it)
    for word, it in zip(asked, parts(stream, port, asked, book)):
        missing += [] if it else [missing_of(word, entries, book)]
        if it:
            found.setdefault(lower(it.name), it)
    return found, missing
