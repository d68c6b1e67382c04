"""A server in this process that answers as it is told: a controller with long entries, or a peer that lies."""
import socket
import struct
import threading

from lib.frames import Frame, RESPONSE, frame_of


class Fake:
    """`answer(frame)` gives the bytes that are sent back for a request, or pieces of them: none for silence, None for the end of the connection."""

    def __init__(self, answer):
        self.answer, self.done = answer, False

    def __enter__(self):
        self.listener = socket.create_server(("127.0.0.1", 0))
        self.to = f"127.0.0.1:{self.listener.getsockname()[1]}"
        threading.Thread(target=self.accept, daemon=True).start()
        return self

    def __exit__(self, *_):
        self.done = True
        self.listener.close()

    def accept(self):
        while not self.done:
            try:
                peer, _ = self.listener.accept()
            except OSError:
                return
            threading.Thread(target=self.serve, args=(peer,), daemon=True).start()

    def serve(self, peer):
        with peer:
            try:
                while True:
                    head = peer.recv(6, socket.MSG_WAITALL)
                    if len(head) < 6:
                        return
                    given = self.answer(frame_of(peer.recv(struct.unpack("<I", head[2:])[0], socket.MSG_WAITALL)))
                    if given is None:
                        return
                    for piece in [given] if isinstance(given, bytes) else given:
                        peer.sendall(piece)
            except OSError:
                return


def reply(frame, payload, error=0):
    return Frame(frame.source, frame.target, frame.command, RESPONSE, error, frame.id, payload).bytes()


def data(frame, given, result=0):
    """A reply of a Read or a ReadWrite."""
    return reply(frame, struct.pack("<II", result, len(given)) + given)


def told(groups, name=b"Fake", refusal=0x702):
    """The answers of a device with these groups: each is bytes for a Read, or a function of the frame."""
    def answer(frame):
        if frame.command == 1:
            return reply(frame, struct.pack("<IBBH", 0, 3, 1, 4024) + name.ljust(16, b"\0"))
        if frame.command not in (2, 9):
            return reply(frame, struct.pack("<I", refusal))
        it = groups.get(struct.unpack("<I", frame.payload[:4])[0])
        return data(frame, b"", refusal) if it is None else it(frame) if callable(it) else data(frame, it)
    return answer


def entry(head, fields, texts, rest=b""):
    """An entry: its length, fields, the lengths of texts with the counts behind them, the texts, and what stands behind."""
    lengths = b"".join(struct.pack("<H", len(text)) for text in texts)
    given = head + lengths + fields + b"".join(text + b"\0" for text in texts) + rest
    return struct.pack("<I", 4 + len(given)) + given


def symbol(name, kind, group, offset, size, type_id=65, flags=0, comment=b"", rest=b""):
    return entry(struct.pack("<IIIII", group, offset, size, type_id, flags), b"", (name, kind, comment), rest)


def type_entry(name, kind, size, offset=0, type_id=65, flags=1, comment=b"", ends=(), subs=(), rest=b""):
    head = struct.pack("<IIIIIII", 1, 0, 0, size, offset, type_id, flags)
    behind = b"".join(struct.pack("<iI", low, high - low + 1) for low, high in ends) + b"".join(subs) + rest
    return entry(head, struct.pack("<HH", len(ends), len(subs)), (name, kind, comment), behind)


def uploads(symbols, types, **more):
    """The groups of the uploads of these entries."""
    given, named = b"".join(symbols), b"".join(types)
    return {0xF00F: struct.pack("<IIIIII", len(symbols), len(given), len(types), len(named), 0, 0), 0xF00B: given, 0xF00E: named,
            **{int(group, 16): it for group, it in more.items()}}
