"""Requests in words, both ways: `read Main.count` is a request, and the request is `read Main.count`.

| words | command, and index group where it has one |
|---|---|
| info; state; control ADS DEVICE [16#DATA] | ReadDeviceInfo; ReadState; WriteControl |
| read PLACE; write PLACE VALUE | Read, Write |
| add PLACE change or cycle CYCLE; delete NUMBER | AddDeviceNotification, DeleteDeviceNotification |
| handle NAME; get NAME; place NAME; entry NAME | ReadWrite 0xF003, 0xF004, 0xF007, 0xF009 |
| release HANDLE | Write 0xF006 |
| version; size AREA; counts; symbols; typecounts; types | Read 0xF008; 0x4045 and its like; 0xF00C; 0xF00B; 0xF00F; 0xF00E |
| sum read PLACE ..; sum write PLACE=VALUE ..; sum handle NAME .. | ReadWrite 0xF080; 0xF081; 0xF082, also with get, place and entry |
| ask GROUP:OFFSET:LENGTH 16#DATA; send COMMAND 16#DATA | any ReadWrite; any payload |

A PLACE is a name of the description; `#3`, handle 3; `0x4040:8:2`, a group, an offset and a length; the first two with `:N` for their first N bytes.
"""
import re
import struct
from typing import NamedTuple, Optional

from lib import groups
from lib.frames import ADD, CONTROL, DELETE, INFO, READ, READ_WRITE, STATE, WRITE
from lib.layout import Shape
from lib.near import meant_in
from lib.payloads import Request
from lib.shown import shown
from lib.value_json import NoValueOf, bytes_of, value_in
from lib.values import NoValue, value_bytes, value_text

MODES = {"cycle": 3, "change": 4}
# The group of each word that asks by name, and the length that is asked for; None for the size of what is named.
BY_NAME = {"handle": (groups.HANDLE, 4), "get": (groups.VALUE, None), "place": (groups.PLACE, 12), "entry": (groups.ENTRY, 65536)}
# The group of each word that reads what is fixed, and its length; None for what the description says.
FIXED = {"version": (groups.VERSION, 1), "counts": (groups.COUNTS, 8), "symbols": (groups.SYMBOLS, None), "typecounts": (groups.TYPE_COUNTS, 24),
         "types": (groups.TYPES, None)}
NAME = re.compile(rb"[!-&(-9;-~]+")


class NoRequest(Exception):
    """Why words are no request."""


class Place(NamedTuple):
    """What an access names, and the type of what stands there, where it is known."""
    group: int
    offset: int
    length: int
    shape: Optional[Shape]

    def value(self, data):
        return shape_text(self.shape, data)


def shape_text(shape, data):
    return value_text(shape.type_id(), data) if shape and len(data) == shape.size() else "16#" + data.hex()


def written_bytes(place, text):
    """The bytes of a value: as the program writes it, or in the words of tools/values.py."""
    try:
        return value_bytes(place.shape.type_id(), place.length, text)
    except NoValue as fault:
        try:
            value = value_in(place.shape, text)
            data = bytes_of(place.shape, value) if not (isinstance(value, dict) and place.shape.named()) else b""
        except NoValueOf:
            data = b""
        if len(data) != place.length:
            raise fault
        return data


def number(text, what):
    if not re.fullmatch("0x[0-9A-Fa-f]{1,8}|[0-9]{1,10}", text) or int(text, 0 if text.startswith("0x") else 10) >= 2 ** 32:
        raise NoRequest(f"{shown(text)} is no {what}")
    return int(text, 0 if text.startswith("0x") else 10)


def data_of(text):
    if not re.fullmatch("16#([0-9A-Fa-f]{2})*", text):
        raise NoRequest(f"{shown(text)} is no data: 16# and two hexadecimal digits a byte")
    return bytes.fromhex(text[3:])


# Places.

def place_of(client, text):
    """The place that a word names on a connection."""
    words = text.split(":")
    if len(words) == 3:
        group, offset, length = (number(word, "number") for word in words)
        part = client.port.at(group, offset, length)
        return Place(group, offset, length, part and part.shape)
    if words[0].startswith("#"):
        handle = number(words[0][1:], "handle")
        group, offset, part = groups.BY_HANDLE, handle, client.handle(handle)
    else:
        part = client.port.find(words[0])
        group, offset = (part.group(), part.at) if part else (None, None)
    if group is None:
        no_name = f"the description has no {words[0]}{meant_in(client.port, words[0])}"
        raise NoRequest(f"{shown(text)} is not GROUP:OFFSET:LENGTH" if text[:1].isdigit() else no_name)
    if part is None and len(words) == 1:
        raise NoRequest(f"no name was asked for on this connection as the handle {words[0]}: say {words[0]}:LENGTH")
    length = number(words[1], "length") if len(words) == 2 else part.shape.size()
    return Place(group, offset, length, part.shape if part and length == part.shape.size() else None)


def place_words(client, group, offset, length):
    """The word for a place, and the place."""
    if group == groups.BY_HANDLE:
        part = client.handle(offset)
        whole = part is not None and part.shape.size() == length
        return f"#{offset}" + ("" if whole else f":{length}"), Place(group, offset, length, part.shape if whole else None)
    part = client.port.at(group, offset, length)
    return part.path if part else f"0x{group:X}:{offset}:{length}", Place(group, offset, length, part and part.shape)


def written(client, word, value):
    """A place and the bytes that are written there."""
    place = place_of(client, word)
    if place.shape is None or value.startswith("16#"):
        data = data_of(value)
        return place._replace(length=len(data)), data
    try:
        return place, written_bytes(place, value)
    except NoValue as fault:
        raise NoRequest(str(fault)) from None


# Words to requests.

def request_of(client, verb, words):
    """The request that words write."""
    try:
        return WRITERS[verb](client, *words) if verb in WRITERS else named_or_fixed(client, verb, words)
    except TypeError:
        raise NoRequest(f"{verb} has not {len(words)} words behind it") from None


def named_or_fixed(client, verb, words):
    if verb in BY_NAME and len(words) == 1:
        name, _, length = words[0].partition(":")
        return Request(READ_WRITE, BY_NAME[verb][0], 0, number(length, "length") if length else asked(client, verb, name), name.encode())
    if verb in FIXED and not words:
        group, length = FIXED[verb]
        return Request(READ, group, 0, client.fixed(verb) if length is None else length)
    raise NoRequest(f"{shown(verb)} is no request" if verb not in {**BY_NAME, **FIXED} else f"{verb} has not {len(words)} words behind it")


def asked(client, verb, name):
    """How many bytes a request by name asks for."""
    if BY_NAME[verb][1] is not None:
        return BY_NAME[verb][1]
    part = client.port.find(name)
    if part is None:
        raise NoRequest(f"the description has no {name}; say {name}:LENGTH to ask for it all the same")
    return part.shape.size()


def read(client, word):
    place = place_of(client, word)
    return Request(READ, place.group, place.offset, place.length)


def write(client, word, value):
    place, data = written(client, word, value)
    return Request(WRITE, place.group, place.offset, 0, data)


def add(client, word, mode, cycle):
    place = place_of(client, word)
    return Request(ADD, place.group, place.offset, place.length, b"", MODES[mode] if mode in MODES else number(mode, "mode"), 0, number(cycle, "cycle"))


def sum_of(client, kind, *words):
    if kind == "read":
        places = [place_of(client, word) for word in words]
        heads = b"".join(struct.pack("<III", *place[:3]) for place in places)
        return Request(READ_WRITE, groups.SUM_READ, len(places), sum(4 + place.length for place in places), heads)
    if kind == "write":
        parts = [written(client, *word.partition("=")[::2]) for word in words]
        heads = b"".join(struct.pack("<III", place.group, place.offset, len(data)) for place, data in parts)
        return Request(READ_WRITE, groups.SUM_WRITE, len(parts), 4 * len(parts), heads + b"".join(data for _, data in parts))
    if kind not in BY_NAME:
        raise NoRequest(f"a sum is of read, write, {', '.join(BY_NAME)}, and {shown(kind)} is none of them")
    asks = [named_or_fixed(client, kind, [word]) for word in words]
    heads = b"".join(struct.pack("<IIII", ask.group, ask.offset, ask.length, len(ask.data)) for ask in asks)
    return Request(READ_WRITE, groups.SUM_ASK, len(asks), sum(8 + ask.length for ask in asks), heads + b"".join(ask.data for ask in asks))


def ask(client, place, data):
    words = place.split(":")
    if len(words) != 3:
        raise NoRequest(f"{shown(place)} is not GROUP:OFFSET:LENGTH")
    return Request(READ_WRITE, *(number(word, "number") for word in words), data_of(data))


def size(client, area):
    if area not in groups.SIZES:
        raise NoRequest(f"{shown(area)} is none of {', '.join(groups.SIZES)}")
    return Request(READ, groups.SIZES[area], 0, 4)


WRITERS = {
    "info": lambda client: Request(INFO), "state": lambda client: Request(STATE),
    "control": lambda client, ads, device, data="16#": Request(CONTROL, number(ads, "state") % 65536, number(device, "state") % 65536, 0, data_of(data)),
    "read": read, "write": write, "add": add, "delete": lambda client, note: Request(DELETE, offset=number(note, "notification")),
    "release": lambda client, handle: Request(WRITE, groups.RELEASE, 0, 0, struct.pack("<I", number(handle, "handle"))),
    "size": size, "sum": sum_of, "ask": ask,
}


# Requests to words.

def words_of(client, request):
    """The words that write a request; where no others do, `ask` and `read` with numbers. None where not even these do."""
    command, group, offset = request.command, request.group, request.offset
    if command in (INFO, STATE):
        return "info" if command == INFO else "state"
    if command == CONTROL:
        return f"control {group} {offset}" + (f" 16#{request.data.hex()}" if request.data else "")
    if command == DELETE:
        return f"delete {offset}"
    if command == ADD:
        mode = next((word for word, mode in MODES.items() if mode == request.mode), str(request.mode))
        return None if request.delay else f"add {place_words(client, group, offset, request.length)[0]} {mode} {request.cycle}"
    if command == READ:
        return fixed_words(client, request) or f"read {place_words(client, group, offset, request.length)[0]}"
    if command == WRITE and group == groups.RELEASE and offset == 0 and len(request.data) == 4:
        return f"release {struct.unpack('<I', request.data)[0]}"
    if command == WRITE:
        return "write " + " ".join(written_words(client, group, offset, request.data))
    return ask_words(client, request) or sum_words(client, request) or f"ask 0x{group:X}:{offset}:{request.length} 16#{request.data.hex()}"


def written_words(client, group, offset, data):
    word, place = place_words(client, group, offset, len(data))
    return word, place.value(data)


def fixed_words(client, request):
    if request.group in groups.SIZED and (request.offset, request.length) == (0, 4):
        return f"size {groups.SIZED[request.group]}"
    for verb, (group, length) in FIXED.items():
        if (group, 0, client.fixed(verb) if length is None else length) == (request.group, request.offset, request.length):
            return verb
    return None


def ask_words(client, request):
    for verb, (group, length) in BY_NAME.items():
        if group == request.group and request.offset == 0 and NAME.fullmatch(request.data):
            name = request.data.decode()
            part = client.port.find(name) if length is None else None
            usual = length if length is not None else part.shape.size() if part else None
            return f"{verb} {name}" + ("" if usual == request.length else f":{request.length}")
    return None


def sum_words(client, request):
    """The words of a sum whose parts fit; None where these words would not write it again."""
    parts = sum_parts(request)
    if parts is None:
        return None
    if request.group == groups.SUM_READ:
        words = [place_words(client, *part[:3])[0] for part in parts]
        words, usual = ["read", *words], 4 * len(parts) + sum(part[2] for part in parts)
    elif request.group == groups.SUM_WRITE:
        words, usual = ["write", *("=".join(written_words(client, part[0], part[1], part[3])) for part in parts)], 4 * len(parts)
    else:
        asks = [ask_words(client, Request(READ_WRITE, *part)) for part in parts]
        if not asks or None in asks or len({it.split(" ")[0] for it in asks}) > 1:
            return None
        words, usual = [asks[0].split(" ")[0], *(it.split(" ")[1] for it in asks)], 8 * len(parts) + sum(part[2] for part in parts)
    return "sum " + " ".join(words) if usual == request.length else None


def sum_parts(request):
    """The parts of a sum: group, offset, length to read, and what is written; None where its data do not add up."""
    width = {groups.SUM_READ: 12, groups.SUM_WRITE: 12, groups.SUM_ASK: 16}.get(request.group)
    if width is None or len(request.data) < width * request.offset:
        return None
    at, parts = width * request.offset, []
    for place in range(request.offset):
        head = struct.unpack(f"<{width // 4}I", request.data[width * place:width * (place + 1)])
        count = 0 if request.group == groups.SUM_READ else head[-1]
        parts.append((head[0], head[1], 0 if request.group == groups.SUM_WRITE else head[2], request.data[at:at + count]))
        at += count
    return parts if at == len(request.data) else None
