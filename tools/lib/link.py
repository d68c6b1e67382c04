"""A connection to an ADS server over TCP: one request after another, and a sentence for whatever goes wrong."""
import socket
import struct
import time

from lib.codes import code_text
from lib.frames import NOTE, READ, READ_WRITE, REQUEST, RESPONSE, Address, BadFrame, Frame, frame_of, packet_length
from lib.payloads import BadPayload, Request, read_reply
from lib.rules_nets import is_net
from lib.words import Ended, number

TCP_PORT, OWN_PORT = 48898, 32905
# The greatest AMS packet that is taken, and how many times as long as its first bytes a whole answer may take.
GREATEST, PATIENCE = 67108864, 12


class Refused(Exception):
    """The server refused a request."""

    def __init__(self, code):
        super().__init__(code_text(code))
        self.code = code


def host_of(text):
    """The host and the TCP port of `--to`."""
    host, colon, port = text.rpartition(":")
    host, port = (host, port) if colon else (text, str(TCP_PORT))
    if not host:
        raise Ended(f"--to is HOST or HOST:PORT, and {text!r} is neither")
    return host, number(port, "the port of --to", 1, 65535)


def net_of(text, name):
    if not is_net(text):
        raise Ended(f"{name} is a NetId, six numbers from 0 to 255 joined by full stops, and {text!r} is none")
    return text


class Link:
    """Connected with a server that has a NetId; `me` is the own NetId, which must be a route of the server."""

    def __init__(self, to, net, me, seconds=5.0):
        self.to, self.net, self.me, self.seconds, self.id, self.stream = to, net, me, seconds, 0, b""
        try:
            self.socket = socket.create_connection(host_of(to), timeout=seconds)
            self.socket.setsockopt(socket.IPPROTO_TCP, socket.TCP_NODELAY, 1)
        except (OSError, UnicodeError) as fault:
            raise Ended(f"{to} can't be reached: {getattr(fault, 'strerror', None) or fault}", 6) from None

    def close(self):
        self.socket.close()

    def take(self, count, until):
        """So many bytes of the stream."""
        pieces, have = [self.stream], len(self.stream)
        while have < count:
            left = until - time.monotonic()
            try:
                if left <= 0:
                    raise TimeoutError
                self.socket.settimeout(min(left, self.seconds))
                piece = self.socket.recv(1 << 20)
            except (TimeoutError, socket.timeout):
                silent = f"answer in {self.seconds:g}" if left >= self.seconds else f"end its answer in {PATIENCE * self.seconds:g}"
                raise Ended(f"{self.to} did not {silent} seconds", 11) from None
            except OSError as fault:
                raise Ended(f"the connection to {self.to} failed: {fault.strerror}", 6) from None
            if not piece:
                raise Ended(f"{self.to} closed the connection: is {self.me} one of its routes?", 9)
            pieces.append(piece)
            have += len(piece)
        got = b"".join(pieces)
        self.stream = got[count:]
        return got[:count]

    def frame(self, until):
        try:
            return frame_of(self.take(packet_length(self.take(6, until), GREATEST), until))
        except BadFrame as fault:
            raise Ended(f"{self.to} does not speak ADS: {fault}", 9) from None

    def ask(self, port, request):
        """The data of the answer to a request."""
        self.id += 1
        asked = Frame(Address(self.net, port), Address(self.me, OWN_PORT), request.command, REQUEST, 0, self.id, request.bytes())
        try:
            self.socket.settimeout(self.seconds)
            self.socket.sendall(asked.bytes())
        except OSError as fault:
            raise Ended(f"the connection to {self.to} failed: {fault.strerror or fault}", 6) from None
        until = time.monotonic() + PATIENCE * self.seconds
        for _ in range(10000):
            frame = self.frame(until)
            if (frame.command, frame.flags, frame.id) == (asked.command, RESPONSE, asked.id):
                return self.data_of(frame)
            if frame.command != NOTE:
                raise Ended(f"{self.to} sent a frame that answers nothing: command {frame.command}, flags 0x{frame.flags:X}, invoke id {frame.id}", 9)
            self.noted(frame)
        raise Ended(f"{self.to} sends notifications in place of an answer", 9)

    def noted(self, frame):
        """A notification that comes in front of an answer: passed over, unless a link watches."""

    def data_of(self, frame):
        if frame.error:
            raise Refused(frame.error)
        try:
            result, data = read_reply(frame.command, frame.payload)
        except BadPayload as fault:
            raise Ended(f"{self.to} does not speak ADS: {fault}", 9) from None
        if result:
            raise Refused(result)
        return data

    def read(self, port, group, offset, length, exactly=None):
        """The bytes that a Read gives: at most so many, or exactly `exactly`."""
        data = self.ask(port, Request(READ, group, offset, length))
        if len(data) > length or exactly not in (None, len(data)):
            raise Ended(f"{self.to} gave {len(data)} bytes of 0x{group:X} where {exactly or length} were asked for", 9)
        return data

    def read_all(self, port, places):
        """The bytes at each of these places, triples of group, offset and length, in sums; None where one is refused."""
        heads = b"".join(struct.pack("<III", *place) for place in places)
        length = sum(4 + place[2] for place in places)
        data = self.ask(port, Request(READ_WRITE, 0xF080, len(places), length, heads))
        if len(data) != length:
            raise Ended(f"{self.to} gave {len(data)} bytes of a sum where {length} were asked for", 9)
        found, at = [], 4 * len(places)
        for place, (_, _, size) in enumerate(places):
            result = struct.unpack("<I", data[4 * place:4 * place + 4])[0]
            found.append(None if result else data[at:at + size])
            at += size
        return found
