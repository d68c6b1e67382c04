"""A broker in this process that speaks as much of MQTT 3.1.1 as a bridge needs: retained messages, subscriptions with +, last wills, QoS 0 and 1."""
import socket
import struct
import threading

CONNECT, PUBLISH, PUBACK, SUBSCRIBE, PING, DISCONNECT = 1, 3, 4, 8, 12, 14


def packet(kind, body, flags=0):
    length, left = b"", len(body)
    while True:
        left, byte = left >> 7, left & 127
        length += bytes([byte | (0x80 if left else 0)])
        if not left:
            return bytes([kind << 4 | flags]) + length + body


def text(given):
    return struct.pack(">H", len(given)) + given


def fits(pattern, topic):
    one, other = pattern.split("/"), topic.split("/")
    return len(one) == len(other) and all(a in ("+", b) for a, b in zip(one, other))


class Broker:
    """`retained` has what stands under each topic, `heard` all that was published, in its order; `count` is how many connections there were."""

    def __init__(self, port=0):
        self.port, self.retained, self.heard, self.lock, self.clients, self.count = port, {}, [], threading.Lock(), {}, 0
        self.come()

    def come(self):
        self.listener = socket.create_server(("127.0.0.1", self.port))
        self.port = self.listener.getsockname()[1]
        threading.Thread(target=self.accept, args=(self.listener,), daemon=True).start()

    def go(self):
        self.listener.shutdown(socket.SHUT_RDWR)
        self.listener.close()
        for peer in list(self.clients):
            try:
                peer.shutdown(socket.SHUT_RDWR)
            except OSError:
                pass

    def accept(self, listener):
        while True:
            try:
                peer, _ = listener.accept()
            except OSError:
                return
            threading.Thread(target=self.serve, args=(peer,), daemon=True).start()

    def read(self, peer):
        head = peer.recv(1)
        length, shift = 0, 0
        while head:
            byte = peer.recv(1)
            if not byte:
                return None
            length, shift = length | (byte[0] & 127) << shift, shift + 7
            if byte[0] < 128:
                body = peer.recv(length, socket.MSG_WAITALL) if length else b""
                return (head[0] >> 4, head[0] & 15, body) if len(body) == length else None
        return None

    def serve(self, peer):
        will = None
        try:
            while True:
                got = self.read(peer)
                if got is None or got[0] == DISCONNECT:
                    will = None if got else will
                    break
                kind, flags, body = got
                will = self.took(peer, kind, flags, body) or will
        except OSError:
            pass
        self.clients.pop(peer, None)
        peer.close()
        if will:
            self.publish(*will, True)

    def took(self, peer, kind, flags, body):
        """One packet; gives the last will of a CONNECT."""
        if kind == CONNECT:
            self.clients[peer], self.count = [], self.count + 1
            peer.sendall(packet(2, b"\0\0"))
            return self.will(body)
        if kind == SUBSCRIBE:
            length = struct.unpack(">H", body[2:4])[0]
            pattern = body[4:4 + length].decode()
            self.clients[peer].append(pattern)
            peer.sendall(packet(9, body[:2] + b"\1"))
            for topic, given in list(self.retained.items()):
                if fits(pattern, topic):
                    peer.sendall(packet(PUBLISH, text(topic.encode()) + given, 1))
        elif kind == PUBLISH:
            length = struct.unpack(">H", body[:2])[0]
            topic, at = body[2:2 + length].decode(), 2 + length
            if flags & 6:
                peer.sendall(packet(PUBACK, body[at:at + 2]))
                at += 2
            self.publish(topic, body[at:], flags & 1)
        elif kind == PING:
            peer.sendall(packet(13, b""))
        return None

    @staticmethod
    def will(body):
        flags, at, fields = body[7], 10, []
        while at < len(body):
            length = struct.unpack(">H", body[at:at + 2])[0]
            fields.append(body[at + 2:at + 2 + length])
            at += 2 + length
        return (fields[1].decode(), fields[2]) if flags & 4 else None

    def publish(self, topic, given, retain=False):
        with self.lock:
            self.heard.append((topic, given, bool(retain)))
            if retain and given:
                self.retained[topic] = given
            elif retain:
                self.retained.pop(topic, None)
            for peer, patterns in list(self.clients.items()):
                if any(fits(pattern, topic) for pattern in patterns):
                    peer.sendall(packet(PUBLISH, text(topic.encode()) + given))

    def raw(self, given):
        """The same bytes to each client, whatever they are."""
        with self.lock:
            for peer in list(self.clients):
                peer.sendall(given)

    def __enter__(self):
        return self

    def __exit__(self, *_):
        self.go()
