"""Frames between a relay, where the NetId of a server is owned, and that server, which has a connection for each asker."""
import selectors
import socket
import sys
import time
from collections import OrderedDict

from lib.frames import NOTE, REQUEST, RESPONSE, Address, Frame, cut, frame_in
from lib.words import Ended

# Bytes that may wait for one peer before nothing more is read for it; frames of an asker that may wait for their answers; seconds.
MOST_WAITING, MOST_ASKED, AGAIN, PATIENCE = 4194304, 4096, 1.0, 5.0
TARGET_NOT_FOUND, OWN_PORT = 7, 851


def say(sentence):
    print(sentence, file=sys.stderr, flush=True)


class Peer:
    """A connection that never waits: frames come out of `packets`, and what `send` is given goes out when there is room."""

    def __init__(self, place):
        self.socket = socket.create_connection(place, timeout=PATIENCE)
        self.socket.setsockopt(socket.IPPROTO_TCP, socket.TCP_NODELAY, 1)
        self.socket.setblocking(False)
        self.stream, self.waiting = b"", bytearray()

    def packets(self):
        """The whole AMS packets that have come; None at the end of the connection or at bytes that are no frame."""
        try:
            piece = self.socket.recv(262144)
        except (BlockingIOError, InterruptedError):
            return []
        except OSError:
            return None
        if not piece:
            return None
        packets, self.stream, fault = cut(self.stream + piece)
        return None if fault else packets

    def send(self, data):
        self.waiting += data

    def flush(self):
        """Sends what it can; False if the connection is gone."""
        try:
            while self.waiting:
                del self.waiting[:self.socket.send(self.waiting[:262144])]
        except (BlockingIOError, InterruptedError):
            pass
        except OSError:
            return False
        return True


class Asker(Peer):
    """The server's connection for one NetId that asks, with the requests that wait for an answer."""

    def __init__(self, place, net):
        super().__init__(place)
        self.net, self.asked = net, OrderedDict()

    def ask(self, frame):
        self.asked[key_of(frame)] = frame
        while len(self.asked) > MOST_ASKED:
            self.asked.popitem(last=False)

    def answered(self, frame):
        self.asked.pop((frame.target, frame.source, frame.command, frame.id), None)


def key_of(frame):
    return frame.source, frame.target, frame.command, frame.id


def framed(packet):
    return b"\0\0" + len(packet).to_bytes(4, "little") + packet


def not_found(frame):
    return Frame(frame.source, frame.target, frame.command, RESPONSE, TARGET_NOT_FOUND, frame.id, b"").bytes()


class Dial:
    def __init__(self, relay_name, server_name, net, most, relay_at, server_at):
        self.relay_name, self.server_name, self.net, self.most = relay_name, server_name, net, most
        self.relay_at, self.server_at, self.relay, self.askers = relay_at, server_at, None, {}
        self.was_there, self.relay_there, self.server_there = False, True, True

    def run(self):
        while True:
            if self.relay is None and not self.connect():
                time.sleep(AGAIN)
                continue
            self.turn()

    def connect(self):
        """Connects with the relay and owns the NetId there; says once why it can't."""
        try:
            relay, packets = self.owner()
        except (OSError, UnicodeError, Ended) as fault:
            if isinstance(fault, Ended) and not self.was_there:
                raise
            if self.relay_there:
                say(f"{self.relay_name} can't be reached: {getattr(fault, 'strerror', None) or fault}; trying again each second")
            self.relay_there = False
            return False
        self.relay, self.was_there, self.relay_there = relay, True, True
        say(f"{self.net} is at {self.relay_name}")
        self.take(packets)
        return True

    def owner(self):
        """A connection that owns the NetId at the relay, since a notification to oneself came back, and what came behind it."""
        me, relay = Address(self.net, OWN_PORT), Peer(self.relay_at)
        relay.send(Frame(me, me, NOTE, REQUEST, 0, 0, b"").bytes())
        until = time.monotonic() + PATIENCE
        while time.monotonic() < until:
            packets = relay.packets() if relay.flush() else None
            if packets is None:
                relay.socket.close()
                raise Ended(f"{self.relay_name} turns {self.net} away: is it a route of the relay's description, and does no other connection own it?", 9)
            if packets:
                return relay, packets[1:]
            time.sleep(0.01)
        relay.socket.close()
        raise TimeoutError(f"it did not answer in {PATIENCE:g} seconds")

    def turn(self):
        """Waits until something can be read or sent, and does it."""
        with selectors.DefaultSelector() as poll:
            full = len(self.relay.waiting) >= MOST_WAITING
            held = any(len(it.waiting) >= MOST_WAITING for it in self.askers.values())
            for peer, reads in ((self.relay, not held), *((it, not full) for it in self.askers.values())):
                events = (selectors.EVENT_READ if reads else 0) | (selectors.EVENT_WRITE if peer.waiting else 0)
                if events:
                    poll.register(peer.socket, events, peer)
            ready = poll.select(PATIENCE)
        for key, events in ready:
            if self.relay is None:
                return
            if key.data is self.relay:
                self.of_relay(events)
            elif self.askers.get(key.data.net) is key.data:
                self.of_server(key.data, events)

    def of_relay(self, events):
        packets = self.relay.packets() if events & selectors.EVENT_READ else []
        if packets is None or not self.relay.flush():
            say(f"{self.relay_name} is gone")
            self.relay.socket.close()
            self.relay = None
            for asker in self.askers.values():
                asker.socket.close()
            self.askers.clear()
            return
        self.take(packets)

    def take(self, packets):
        """Hands frames of the relay to the server, each by its asker's own connection."""
        for packet in packets:
            frame = frame_in(packet)
            asker = self.asker(frame.source.net)
            is_asked = frame.command != NOTE and frame.flags & 1 == 0
            if asker is None:
                if is_asked:
                    self.relay.send(not_found(frame))
                continue
            if is_asked:
                asker.ask(frame)
            asker.send(framed(packet))
            if not asker.flush():
                self.end(asker)
        if not self.relay.flush():
            self.of_relay(0)

    def asker(self, net):
        """The connection of an asker; None if there can't be one."""
        if net not in self.askers:
            if len(self.askers) >= self.most:
                return None
            try:
                self.askers[net] = Asker(self.server_at, net)
            except (OSError, UnicodeError) as fault:
                if self.server_there:
                    say(f"{self.server_name} can't be reached: {getattr(fault, 'strerror', None) or fault}")
                self.server_there = False
                return None
            self.server_there = True
        return self.askers[net]

    def of_server(self, asker, events):
        packets = asker.packets() if events & selectors.EVENT_READ else []
        for packet in packets or []:
            frame = frame_in(packet)
            asker.answered(frame)
            self.relay.send(framed(packet))
        if packets is None or not asker.flush():
            self.end(asker)
        if self.relay and not self.relay.flush():
            self.of_relay(0)

    def end(self, asker):
        """The server closed an asker's connection: what waits for an answer has none."""
        asker.socket.close()
        self.askers.pop(asker.net, None)
        if asker.asked:
            say(f"{self.server_name} closed the connection of {asker.net}: is it a route there?")
        for frame in asker.asked.values():
            self.relay.send(not_found(frame))
