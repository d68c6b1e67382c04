"""A connection in between: passes what a client and a server send each other, and counts connections, requests and bytes."""
import socket
import threading

from lib.frames import cut


class Counting:
    """Listens at a port of its own for a server at `to`; `cut_off` ends all connections, and `is_open` says whether new ones are taken."""

    def __init__(self, to):
        self.host, self.port = to.split(":")
        self.connections, self.requests, self.sent, self.pairs, self.is_open = 0, 0, 0, [], True

    def __enter__(self):
        self.listener = socket.create_server(("127.0.0.1", 0))
        self.to = f"127.0.0.1:{self.listener.getsockname()[1]}"
        threading.Thread(target=self.accept, daemon=True).start()
        return self

    def __exit__(self, *_):
        self.is_open = False
        self.listener.close()
        self.cut_off()

    def cut_off(self):
        for ends in self.pairs:
            for end in ends:
                try:
                    end.shutdown(socket.SHUT_RDWR)
                except OSError:
                    pass
        self.pairs = []

    def accept(self):
        while True:
            try:
                client, _ = self.listener.accept()
            except OSError:
                return
            try:
                server = socket.create_connection((self.host, int(self.port))) if self.is_open else None
            except OSError:
                server = None
            if server is None:
                client.close()
                continue
            self.connections += 1
            self.pairs.append((client, server))
            threading.Thread(target=self.pump, args=(client, server, True), daemon=True).start()
            threading.Thread(target=self.pump, args=(server, client, False), daemon=True).start()

    def pump(self, one, other, asks):
        stream = b""
        try:
            while True:
                piece = one.recv(65536)
                if not piece:
                    break
                if asks:
                    packets, stream, _ = cut(stream + piece)
                    self.requests += len(packets)
                else:
                    self.sent += len(piece)
                other.sendall(piece)
        except OSError:
            pass
        for end in (one, other):
            try:
                end.shutdown(socket.SHUT_RDWR)
            except OSError:
                pass
