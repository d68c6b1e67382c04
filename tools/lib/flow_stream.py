"""A connection to an ADS server that notifications come over beside the answers: requests in flight together, and the samples in their order."""
import select
import socket
import struct
import time

from lib.frames import NOTE, REQUEST, RESPONSE, Address, BadFrame, Frame, packet_length
from lib.link import GREATEST, OWN_PORT, Link, Refused
from lib.payloads import BadPayload, read_reply
from lib.words import Ended

HEAD = struct.Struct("<HHIII")
IN_FLIGHT, PIECE, PIECES = 64, 1 << 18, 8


class Stream(Link):
    """`heard(stream, payload)` is called for each notification, in the order of the connection; `seen` is the last moment that came, in 100 ns."""

    def __init__(self, to, net, me, seconds, heard):
        super().__init__(to, net, me, seconds)
        self.heard, self.rest, self.answers, self.asked, self.seen, self.since = heard, b"", {}, {}, None, time.monotonic()

    def fileno(self):
        return self.socket.fileno()

    def pump(self, wait=0.0):
        """Takes what has come, or comes within `wait` seconds; gives whether anything did."""
        if not select.select([self.socket], [], [], wait)[0]:
            return False
        for count in range(PIECES):
            try:
                self.socket.settimeout(0 if count else self.seconds)
                piece = self.socket.recv(PIECE)
            except (BlockingIOError, InterruptedError):
                return True
            except (TimeoutError, socket.timeout):
                return False
            except OSError as fault:
                raise Ended(f"the connection to {self.to} failed: {fault.strerror}", 6) from None
            if not piece:
                raise Ended(f"{self.to} closed the connection: is {self.me} one of its routes?" if self.seen is None else f"{self.to} closed the connection", 9)
            self.since = time.monotonic()
            self.cut(piece)
            if len(piece) < PIECE:
                return True
        return True

    def cut(self, piece):
        data, at = self.rest + piece if self.rest else piece, 0
        try:
            while len(data) - at >= 6:
                end = at + 6 + packet_length(data[at:at + 6], GREATEST)
                if len(data) < end:
                    break
                command, flags, length, error, number = HEAD.unpack_from(data, at + 22)
                if length != end - at - 38:
                    raise BadFrame(f"an AMS header says that {length} bytes follow it, and {end - at - 38} do")
                if command == NOTE:
                    self.heard(self, data[at + 38:end])
                else:
                    self.answer(command, flags, error, number, data[at + 38:end])
                at = end
        except (BadFrame, BadPayload) as fault:
            raise Ended(f"{self.to} does not speak ADS: {fault}", 9) from None
        self.rest = data[at:]

    def answer(self, command, flags, error, number, payload):
        asked, then = self.asked.pop(number, (None, None))
        if flags != RESPONSE or asked != command:
            raise Ended(f"{self.to} sent a frame that answers nothing: command {command}, flags 0x{flags:X}, invoke id {number}", 9)
        result, data = (error, b"") if error else read_reply(command, payload)
        if then:
            then(result, data)
        else:
            self.answers[number] = result, data

    def send(self, port, request, then=None):
        """Sends a request; gives its invoke id. `then(code, data)` is called where its answer stands among what comes; without it `wait` gives the answer."""
        self.id = self.id % 0xFFFFFFFF + 1
        self.asked[self.id] = request.command, then
        asked = Frame(Address(self.net, port), Address(self.me, OWN_PORT), request.command, REQUEST, 0, self.id, request.bytes())
        try:
            self.socket.settimeout(self.seconds)
            self.socket.sendall(asked.bytes())
        except OSError as fault:
            raise Ended(f"the connection to {self.to} failed: {fault.strerror or fault}", 6) from None
        return self.id

    def wait(self, number):
        """The code and the data of the answer to a request that was sent; none where it was given to its `then`."""
        until = time.monotonic() + self.seconds
        while number in self.asked:
            self.pump(min(max(until - time.monotonic(), 0), 0.5))
            if number in self.asked and time.monotonic() > until:
                raise Ended(f"{self.to} did not answer in {self.seconds:g} seconds", 11)
        return self.answers.pop(number, (0, b""))

    def ask_all(self, port, asked):
        """Sends many requests, pairs of one and its `then`, some in flight together, and waits for all answers."""
        sent = []
        for request, then in asked:
            if len(sent) >= IN_FLIGHT:
                self.wait(sent.pop(0))
            sent.append(self.send(port, request, then))
        for number in sent:
            self.wait(number)

    def ask(self, port, request):
        """The data of the answer to one request; a Refused where it is refused."""
        code, data = self.wait(self.send(port, request))
        if code:
            raise Refused(code)
        return data
