"""Datagrams of UDP 48899, by which routers find each other and ask for routes. Every number is little-endian.

From knowledge of Beckhoff's AdsLib and of pyads, which agree; no TwinCAT was at hand.
"""
import struct
from typing import NamedTuple

from lib.frames import Address, address_in
from lib.letters import letters_of

UDP_PORT, SYSTEM_PORT, COOKIE, LONGEST = 48899, 10000, 0x71146603, 2048
IDENTIFY, ADD_ROUTE, RESPONSE = 1, 6, 0x80000000
STATUS, PASSWORD, VERSION, COMPUTER, NET, OPTIONS, ROUTE, USER, FINGERPRINT = 1, 2, 3, 5, 7, 9, 12, 13, 18
HEAD = struct.Struct("<III8sI")
# The longest name that an answer can have: no answer is longer than three times the shortest question.
MOST_OF_NAME = 2 * HEAD.size - 13


class BadDatagram(Exception):
    """Why bytes are no datagram of this kind."""


class Datagram(NamedTuple):
    """`source` is the AMS address of who sends it; `tags` are pairs of a number and bytes."""
    invoke: int
    service: int
    source: Address
    tags: list

    def bytes(self):
        tags = b"".join(struct.pack("<HH", tag, len(data)) + data for tag, data in self.tags)
        return HEAD.pack(COOKIE, self.invoke, self.service, self.source.bytes(), len(self.tags)) + tags

    def data(self, tag):
        """The bytes of the first such tag; None where there is none."""
        return next((data for number, data in self.tags if number == tag), None)

    def text(self, tag):
        """The text of the first such tag, with its NUL or without; UTF-8, or else as Windows writes it."""
        data = (self.data(tag) or b"").split(b"\0")[0]
        try:
            return data.decode("utf-8")
        except UnicodeDecodeError:
            return letters_of(data)

    def net(self):
        """The NetId that a tag names; None where none does."""
        data = self.data(NET)
        return address_in(data + b"\0\0").net if data and len(data) == 6 else None


def datagram_of(given):
    """The datagram that bytes are; tags that reach past its end make it none."""
    if len(given) < HEAD.size:
        raise BadDatagram(f"it has {len(given)} bytes, and its head alone has {HEAD.size}")
    if len(given) > LONGEST:
        raise BadDatagram(f"it has more than {LONGEST} bytes")
    cookie, invoke, service, source, count = HEAD.unpack_from(given)
    if cookie != COOKIE:
        raise BadDatagram("it does not begin with 03 66 14 71")
    tags, at = [], HEAD.size
    for _ in range(count):
        tag, length = struct.unpack_from("<HH", given, at) if len(given) - at >= 4 else (0, len(given))
        if len(given) - at - 4 < length:
            raise BadDatagram("its tags reach past its end")
        tags.append((tag, given[at + 4:at + 4 + length]))
        at += 4 + length
    return Datagram(invoke, service, address_in(source), tags)


def texted(text):
    """A text as a tag has it, with its NUL."""
    return text.encode() + b"\0"


def identity(asked, net, name, version):
    """The answer to a search."""
    tags = [(COMPUTER, texted(name)), (VERSION, struct.pack("<BBH", *version))]
    return Datagram(asked.invoke, IDENTIFY | RESPONSE, Address(net, SYSTEM_PORT), tags)


def outcome(asked, net, code):
    """The answer to a request for a route: pyads wants these 32 bytes, and no other tag."""
    tags = [(STATUS, struct.pack("<I", code))]
    return Datagram(asked.invoke, ADD_ROUTE | RESPONSE, Address(net, SYSTEM_PORT), tags)


def search():
    """A question for who is there, as AdsLib asks it. Its invoke id is 0, as AdsLib and pyads want it back."""
    return Datagram(0, IDENTIFY, Address("0.0.0.0.0.0", 0), [])


def wish(net, address, name, user, password):
    """A request for a route to `net` at `address`: the tags in the order of AdsLib and pyads."""
    tags = [(ROUTE, texted(name)), (NET, Address(net, 0).bytes()[:6]), (USER, texted(user)),
            (PASSWORD, texted(password)), (COMPUTER, texted(address))]
    return Datagram(0, ADD_ROUTE, Address(net, SYSTEM_PORT), tags)
