"""The payloads of the ADS commands: of requests as they are written, and of requests and replies as they are read."""
import struct
from typing import NamedTuple

from lib.frames import ADD, CONTROL, DELETE, INFO, READ, READ_WRITE, STATE, WRITE


class BadPayload(Exception):
    """Why bytes are no payload of their command."""


class Request(NamedTuple):
    """A request: group, offset and length mean what they mean to its command; `data` is what is written."""
    command: int
    group: int = 0
    offset: int = 0
    length: int = 0
    data: bytes = b""
    mode: int = 0
    delay: int = 0
    cycle: int = 0

    def bytes(self):
        if self.command in (INFO, STATE):
            return b""
        if self.command == CONTROL:
            return struct.pack("<HHI", self.group, self.offset, len(self.data)) + self.data
        if self.command == DELETE:
            return struct.pack("<I", self.offset)
        if self.command == READ:
            return struct.pack("<III", self.group, self.offset, self.length)
        if self.command == WRITE:
            return struct.pack("<III", self.group, self.offset, len(self.data)) + self.data
        if self.command == ADD:
            return struct.pack("<IIIIII", self.group, self.offset, self.length, self.mode, self.delay, self.cycle) + bytes(16)
        return struct.pack("<IIII", self.group, self.offset, self.length, len(self.data)) + self.data


# The fields in front of the data of each request; the last is the length of the data where data follows.
FIELDS = {INFO: "", READ: "III", WRITE: "III", STATE: "", CONTROL: "HHI", ADD: "IIIIII16x", DELETE: "I", READ_WRITE: "IIII"}
WITH_DATA = (WRITE, CONTROL, READ_WRITE)


def read_request(command, given):
    """The request that a payload is; a BadPayload where it is none."""
    if command not in FIELDS:
        raise BadPayload(f"{command} is no command of a request")
    width = struct.calcsize("<" + FIELDS[command])
    if len(given) < width:
        raise BadPayload("it is too short")
    words, data = struct.unpack("<" + FIELDS[command], given[:width]), given[width:]
    if len(data) != (words[-1] if command in WITH_DATA else 0):
        raise BadPayload("its data have not the stated length")
    if command == DELETE:
        return Request(command, offset=words[0])
    if command == ADD:
        return Request(command, words[0], words[1], words[2], b"", *words[3:])
    if command in (WRITE, CONTROL):
        return Request(command, words[0], words[1], 0, data)
    return Request(command, *words[:3], data)


# The bytes of each reply behind its result; None where they are a length and so many bytes.
REPLIES = {INFO: 20, READ: None, WRITE: 0, STATE: 4, CONTROL: 0, ADD: 4, DELETE: 0, READ_WRITE: None}


def read_reply(command, given):
    """The result of a reply and its data; a BadPayload where it is no reply of this command."""
    if command not in REPLIES or len(given) < 4:
        raise BadPayload("an answer is too short to have a result")
    result, data = struct.unpack("<I", given[:4])[0], given[4:]
    if REPLIES[command] is None:
        if len(data) < 4 or struct.unpack("<I", data[:4])[0] != len(data) - 4:
            raise BadPayload("an answer has not as many data bytes as it says")
        return result, data[4:]
    if len(data) != REPLIES[command] and not (result and not data):
        raise BadPayload(f"an answer has {len(data)} bytes behind its result in place of {REPLIES[command]}")
    return result, data


class Sample(NamedTuple):
    time: int
    handle: int
    data: bytes


def read_samples(given):
    """The samples of a notification, by stamps."""
    found, at = [], 8
    try:
        length, stamps = struct.unpack("<II", given[:8])
        for _ in range(stamps):
            time, count = struct.unpack("<QI", given[at:at + 12])
            at += 12
            for _ in range(count):
                handle, size = struct.unpack("<II", given[at:at + 8])
                if len(given) - at - 8 < size:
                    raise BadPayload("a sample has fewer bytes than it says")
                found.append(Sample(time, handle, given[at + 8:at + 8 + size]))
                at += 8 + size
    except struct.error:
        raise BadPayload("a notification is too short") from None
    if at != len(given) or length not in (at - 4, at):
        raise BadPayload("a notification has not the stated length")
    return found
