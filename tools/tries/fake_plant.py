"""A server of notifications in this process: symbols that count ticks, so that a sample that is lost, or there twice, is seen in the values themselves.

The value of a symbol at tick k is k, as its type holds it. Where it is `still` they keep their values until one is written. It can go away, come again, have
another description, and grant as few notifications as it is told.
"""
import socket
import struct
import threading
import time

from lib.frames import NOTE, REQUEST, Frame, frame_of
from tries.fake_server import data, reply, symbol, uploads

EPOCH, TICK = 116444736000000000, 0.01
FORMS = {"BOOL": (1, 33, "B"), "INT": (2, 2, "h"), "DINT": (4, 3, "i"), "UDINT": (4, 19, "I"), "REAL": (4, 4, "f"), "LREAL": (8, 5, "d"), "ULINT": (8, 21, "Q")}


def number_at(kind, tick):
    return tick % {"BOOL": 2, "INT": 32768}.get(kind, 2 ** 24)


class Peer:
    def __init__(self, plant, sock):
        self.plant, self.socket, self.lock, self.handles, self.notes, self.stream = plant, sock, threading.Lock(), {}, {}, b""
        self.granted, self.alive, self.address = 0, True, None

    def send(self, given):
        try:
            with self.lock:
                self.socket.sendall(given)
        except OSError:
            self.alive = False

    def serve(self):
        try:
            while self.alive:
                head = self.socket.recv(6, socket.MSG_WAITALL)
                if len(head) < 6:
                    break
                frame = frame_of(self.socket.recv(struct.unpack("<I", head[2:])[0], socket.MSG_WAITALL))
                self.address = self.address or (frame.source, frame.target)
                with self.plant.lock:
                    given = self.plant.answer(self, frame)
                    if given:
                        self.send(given)
        except OSError:
            pass
        self.alive = False
        self.socket.close()

    def due(self, tick, now):
        """The bytes of the samples that are due: those of each tick, and of a beat each hundredth."""
        parts = []
        for number, note in list(self.notes.items()):
            name, mode, cycle, added, last = note
            if (tick - added) % max(cycle // 100000, 1) == 0:
                given = self.plant.value(name, tick)
                if mode == 3 or given != last:
                    note[4] = given
                    parts.append(struct.pack("<II", number, self.plant.symbols[name][1]) + given)
        if parts:
            body = struct.pack("<IQI", 1, now, len(parts)) + b"".join(parts)
            self.note(struct.pack("<I", len(body)) + body)

    def note(self, payload):
        source, target = self.address
        self.send(Frame(source, target, NOTE, REQUEST, 0, 0, payload).bytes())


class FakePlant:
    """`names` are names of symbols with their types. `most` is how many notifications a connection is granted."""

    def __init__(self, names, port=0, most=512, still=False):
        self.lock, self.peers, self.tick, self.version, self.most, self.still, self.done = threading.Lock(), [], 0, 1, most, still, False
        self.written, self.port, self.listener, self.values, self.skew = [], port, None, {}, 0
        self.describe(names, False)
        self.come()
        threading.Thread(target=self.run, daemon=True).start()

    def describe(self, names, rises=True):
        """Another description: notifications of symbols that are not there as they were end by a sample of size 0."""
        with self.lock:
            before = getattr(self, "symbols", {})
            self.symbols, entries = {}, []
            for place, (name, kind) in enumerate(names.items()):
                size, type_id, letter = FORMS[kind]
                self.symbols[name] = kind, size, struct.Struct("<" + letter)
                entries.append(symbol(name.encode("latin-1"), kind.encode(), 0x4040, 8 * place, size, type_id))
            self.groups, self.version = uploads(entries, []), (self.version + rises) % 256
            for peer in self.peers:
                gone = [number for number, note in peer.notes.items() if self.symbols.get(note[0], [0])[0] != before.get(note[0], [0])[0]]
                for number in gone:
                    del peer.notes[number]
                    peer.note(struct.pack("<IIQIII", 24, 1, EPOCH + time.time_ns() // 100, 1, number, 0))

    def kinds(self):
        return {name: own[0] for name, own in self.symbols.items()}

    def come(self):
        self.listener = socket.create_server(("127.0.0.1", self.port), reuse_port=False)
        self.port = self.listener.getsockname()[1]
        self.to = f"127.0.0.1:{self.port}"
        threading.Thread(target=self.accept, args=(self.listener,), daemon=True).start()

    def go(self):
        """Away: the port is closed and so are all connections."""
        self.listener.shutdown(socket.SHUT_RDWR)
        self.listener.close()
        with self.lock:
            peers, self.peers = self.peers, []
        for peer in peers:
            peer.alive = False
            try:
                peer.socket.shutdown(socket.SHUT_RDWR)
            except OSError:
                pass

    def accept(self, listener):
        while True:
            try:
                sock, _ = listener.accept()
            except OSError:
                return
            sock.setsockopt(socket.IPPROTO_TCP, socket.TCP_NODELAY, 1)
            peer = Peer(self, sock)
            with self.lock:
                self.peers.append(peer)
            threading.Thread(target=peer.serve, daemon=True).start()

    def run(self):
        begun = time.monotonic()
        while not self.done:
            with self.lock:
                self.tick += 1
                now = EPOCH + time.time_ns() // 100 + self.skew
                self.peers = [peer for peer in self.peers if peer.alive]
                for peer in self.peers:
                    peer.due(self.tick, now)
            time.sleep(max(begun + self.tick * TICK - time.monotonic(), 0))

    def value(self, name, tick):
        kind, _, form = self.symbols[name]
        return self.values.get(name) or form.pack(number_at(kind, 0 if self.still else tick))

    # Requests.

    def answer(self, peer, frame):
        given = frame.payload
        group, offset = struct.unpack("<II", given[:8]) if len(given) >= 8 else (0, 0)
        if frame.command == 2:
            read = bytes([self.version]) if group == 0xF008 else self.groups.get(group)
            return data(frame, read or b"", 0 if read is not None else 0x702)
        if frame.command == 9 and group == 0xF082:
            return data(frame, self.sum_answer(peer, offset, given[16:]))
        if frame.command == 3:
            return reply(frame, struct.pack("<I", self.write(peer, group, offset, given[12:])))
        if frame.command == 6:
            return self.added(peer, frame, *struct.unpack("<IIIIII", given[:24]))
        if frame.command == 7:
            return reply(frame, struct.pack("<I", 0 if peer.notes.pop(group, None) else 0x714))
        return reply(frame, struct.pack("<I", 0x701))

    def sum_answer(self, peer, count, given):
        heads, at, parts = [], 16 * count, []
        for part in range(count):
            group, _, _, length = struct.unpack_from("<IIII", given, 16 * part)
            name = given[at:at + length].rstrip(b"\0").decode("latin-1")
            at += length
            real = next((own for own in self.symbols if own.lower() == name.lower()), None) if name not in self.symbols else name
            if group != 0xF003 or real is None:
                heads.append(struct.pack("<II", 0x710, 0))
                continue
            peer.granted += 1
            peer.handles[peer.granted] = real
            heads.append(struct.pack("<II", 0, 4))
            parts.append(struct.pack("<I", peer.granted))
        return b"".join(heads + parts)

    def write(self, peer, group, handle, given):
        if group == 0xF006:
            return 0 if peer.handles.pop(struct.unpack("<I", given)[0], None) else 0x711
        name = peer.handles.get(handle)
        if group != 0xF005 or name not in self.symbols:
            return 0x711
        if name.endswith("limit"):
            return 0x704
        if len(given) != self.symbols[name][1]:
            return 0x705
        self.values[name] = given
        self.written.append((name, given))
        return 0

    def added(self, peer, frame, group, handle, length, mode, _, cycle):
        name = peer.handles.get(handle)
        code = 0x711 if name not in self.symbols else 0x705 if length != self.symbols[name][1] else 0x716 if len(peer.notes) >= self.most else 0
        if code:
            return reply(frame, struct.pack("<II", code, 0))
        peer.granted += 1
        peer.notes[peer.granted] = [name, mode, cycle, self.tick + 1, None]
        return reply(frame, struct.pack("<II", 0, peer.granted))

    def __enter__(self):
        return self

    def __exit__(self, *_):
        self.done = True
        self.go()
