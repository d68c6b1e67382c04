"""Answers in words: what a reply says to the request that it answers, and the samples of notifications."""
import struct

from lib import groups
from lib.codes import code_text
from lib.entries import BadEntry, read_symbols, read_types
from lib.frames import ADD, INFO, READ, READ_WRITE, STATE
from lib.payloads import BadPayload, read_reply
from lib.values import printed
from lib.verbs import place_words, shape_text, sum_parts


def answer_lines(client, request, frame):
    """The lines that say what a response frame answers; `client` is that of the moment of the request."""
    if frame.error:
        return [f"error {code_text(frame.error)}"]
    try:
        result, data = read_reply(frame.command, frame.payload)
    except BadPayload as fault:
        return [f"no answer: {fault}: 16#{frame.payload.hex()}"]
    if result:
        return [f"refused {code_text(result)}"]
    if request is None:
        return [f"ok 16#{data.hex()}"]
    try:
        return told(client, request, data)
    except (struct.error, BadEntry):
        return [f"ok 16#{data.hex()}"]


def told(client, request, data):
    command, group = request.command, request.group
    if command == INFO:
        major, minor, build = struct.unpack("<BBH", data[:4])
        return [f"name {printed(data[4:])} version {major}.{minor}.{build}"]
    if command == STATE:
        return ["ads {} device {}".format(*struct.unpack("<HH", data))]
    if command == ADD:
        return [f"notification {struct.unpack('<I', data)[0]}"]
    if command == READ:
        return fixed_lines(group, data) or [place_words(client, group, request.offset, len(data))[1].value(data)]
    if command == READ_WRITE and group in (groups.SUM_READ, groups.SUM_WRITE, groups.SUM_ASK):
        return [", ".join(sum_answers(client, request, data))]
    return [ask_answer(client, group, request.data, data)] if command == READ_WRITE else ["ok"]


def fixed_lines(group, data):
    if group == groups.VERSION:
        return [f"version {data[0]}"]
    if group in groups.SIZED:
        return ["size {}".format(*struct.unpack("<I", data))]
    if group == groups.COUNTS:
        return ["symbols {} bytes {}".format(*struct.unpack("<II", data))]
    if group == groups.TYPE_COUNTS:
        return ["symbols {} bytes {} types {} bytes {}".format(*struct.unpack("<IIII", data[:16]))]
    if group == groups.SYMBOLS:
        return [it.line() for it in read_symbols(data)] or ["no symbol"]
    if group == groups.TYPES:
        return [it.line() for it in read_types(data)] or ["no type"]
    return None


def ask_answer(client, group, name, data):
    if group == groups.HANDLE:
        return "handle {}".format(*struct.unpack("<I", data))
    if group == groups.PLACE:
        return "group 0x{:X} offset {} size {}".format(*struct.unpack("<III", data))
    if group == groups.ENTRY:
        return "; ".join(it.line() for it in read_symbols(data))
    part = client.port.find(name.decode("latin-1").rstrip("\0")) if group == groups.VALUE else None
    return shape_text(part and part.shape, data)


def sum_answers(client, request, data):
    """What each part of a sum is answered."""
    parts, asking = sum_parts(request), request.group == groups.SUM_ASK
    width = 8 if asking else 4
    at, found = width * len(parts), []
    for place, (group, offset, length, given) in enumerate(parts):
        head = data[width * place:width * (place + 1)]
        result = struct.unpack("<I", head[:4])[0]
        count = struct.unpack("<I", head[4:])[0] if asking else length
        own, at = data[at:at + count], at + count
        if result:
            found.append(f"refused {code_text(result)}")
        elif asking:
            found.append(ask_answer(client, group, given, own))
        else:
            found.append("ok" if request.group == groups.SUM_WRITE else place_words(client, group, offset, count)[1].value(own))
    return found
