"""Frames of AMS/TCP: six bytes with a length, the AMS header of 32 bytes, and the payload. Every number is little-endian."""
import struct
from typing import NamedTuple

LEAST, GREATEST = 32, 2097152
REQUEST, RESPONSE = 0x0004, 0x0005
INFO, READ, WRITE, STATE, CONTROL, ADD, DELETE, NOTE, READ_WRITE = range(1, 10)


class BadFrame(Exception):
    """Why bytes begin no frame."""


class Address(NamedTuple):
    """An AMS address: a NetId as text, and an AMS port."""
    net: str
    port: int

    def bytes(self):
        return bytes(int(word) for word in self.net.split(".")) + struct.pack("<H", self.port)


def address_in(given):
    return Address(".".join(str(byte) for byte in given[:6]), struct.unpack("<H", given[6:8])[0])


class Frame(NamedTuple):
    target: Address
    source: Address
    command: int
    flags: int
    error: int
    id: int
    payload: bytes

    def bytes(self):
        ams = self.target.bytes() + self.source.bytes()
        ams += struct.pack("<HHIII", self.command, self.flags, len(self.payload), self.error, self.id) + self.payload
        return struct.pack("<HI", 0, len(ams)) + ams


def frame_in(ams):
    """The frame of an AMS packet, whatever length its header states for its payload."""
    command, flags, _, error, number = struct.unpack("<HHIII", ams[16:32])
    return Frame(address_in(ams), address_in(ams[8:]), command, flags, error, number, ams[32:])


def frame_of(ams):
    """The frame of an AMS packet; a BadFrame where its payload has not the stated length."""
    length = struct.unpack("<I", ams[20:24])[0]
    if length != len(ams) - 32:
        raise BadFrame(f"an AMS header says that {length} bytes follow it, and {len(ams) - 32} do")
    return frame_in(ams)


def packet_length(head, greatest=GREATEST):
    """The length of the AMS packet behind these six bytes."""
    reserved, length = struct.unpack("<HI", head)
    if reserved:
        raise BadFrame("a frame begins with two bytes that are not zero")
    if not LEAST <= length <= greatest:
        raise BadFrame(f"a frame says that it has {length} bytes, and {LEAST} to {greatest} are taken")
    return length


def cut(stream):
    """The AMS packets at the front of a stream of bytes, the rest that is no whole frame, and the BadFrame that the rest begins with, if it does."""
    packets, at = [], 0
    while len(stream) - at >= 6:
        try:
            length = packet_length(stream[at:at + 6])
        except BadFrame as fault:
            return packets, stream[at:], fault
        if len(stream) - at < 6 + length:
            break
        packets.append(stream[at + 6:at + 6 + length])
        at += 6 + length
    return packets, stream[at:], None
