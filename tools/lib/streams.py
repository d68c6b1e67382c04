"""Browsers that follow what changes: each event is written once and sent to all of them (server-sent events).

Where all places are taken and another browser waits, each that follows is sent a comment which its connection can't
hold unread: who takes none of it in ten seconds gives way.
"""
import asyncio
import fcntl
import json
import struct
import termios
import time

from lib.web import GUARDS

# Streams at once; bytes that may wait for a slow browser beyond its first event; seconds between two signs of life.
MOST_STREAMS, MOST_WAITING, BEAT = 64, 1000000, 10
# Bytes of such a comment, seconds to take some of it and between two of them, and browsers that wait for a place.
COMMENT, PATIENCE, AGAIN, MOST_OUTSIDE = 524288, 10, 30, 16


def event(kind, said):
    return f"event: {kind}\ndata: {json.dumps(said, separators=(',', ':'), allow_nan=False)}\n\n".encode()


class Stream:
    """A browser that follows: `most` bytes may wait for it, and so many were `sent`."""

    def __init__(self, writer, first):
        self.writer, self.most, self.sent = writer, first + MOST_WAITING, 0

    def write(self, given):
        self.writer.write(given)
        self.sent += len(given)

    def taken(self):
        """How many bytes its machine has acknowledged, and whether that is all."""
        left = self.writer.transport.get_write_buffer_size()
        try:
            queued = fcntl.ioctl(self.writer.get_extra_info("socket").fileno(), termios.TIOCOUTQ, bytes(4))
            left += struct.unpack("i", queued)[0]
        except (OSError, AttributeError, ValueError):
            pass
        return self.sent - left, not left


class Streams:
    def __init__(self):
        self.open, self.dropped, self.outside, self.looked, self.looking = {}, 0, 0, -AGAIN, None

    def is_full(self):
        return len(self.open) >= MOST_STREAMS

    async def place(self):
        """Whether there is a place for one more, which may be one that nobody reads."""
        if not self.is_full() or self.outside >= MOST_OUTSIDE:
            return not self.is_full()
        if time.monotonic() >= self.looked + AGAIN:
            self.looked = time.monotonic()
            self.looking = asyncio.ensure_future(self.look())
        self.outside += 1
        try:
            while self.is_full() and self.looking and not self.looking.done():
                await asyncio.sleep(0.1)
        finally:
            self.outside -= 1
        return not self.is_full()

    async def look(self):
        """Lets go who takes nothing in ten seconds, though there is something to take."""
        those = list(self.open.values())
        for it in those:
            it.most += COMMENT
            it.write(b":" + b" " * COMMENT + b"\n")
        # (what a machine takes that no program reads, it takes at once)
        await asyncio.sleep(PATIENCE / 5)
        before = {it: it.taken()[0] for it in those}
        await asyncio.sleep(PATIENCE * 4 / 5)
        for it, then in before.items():
            taken, is_all = it.taken()
            if it.writer in self.open and taken <= then and not is_all:
                self.drop(it)
            it.most -= COMMENT

    async def follow(self, reader, writer, first):
        """Sends a browser its first event and all that come, until it goes, or takes too little of them."""
        head = f"HTTP/1.1 200 OK\r\nContent-Type: text/event-stream\r\nConnection: close\r\n{GUARDS}\r\n".encode()
        it = self.open[writer] = Stream(writer, len(first))
        it.write(head + b"retry: 1000\n\n" + first)
        try:
            while await reader.read(1024):
                pass
        finally:
            self.open.pop(writer, None)

    def drop(self, it):
        self.dropped += 1
        self.open.pop(it.writer)
        it.writer.transport.abort()

    def send(self, given):
        for it in list(self.open.values()):
            if it.writer.transport.is_closing():
                # (asyncio warns of each write to a browser that is gone)
                self.open.pop(it.writer)
            elif it.writer.transport.get_write_buffer_size() > it.most:
                self.drop(it)
            else:
                it.write(given)

    async def beat(self):
        """An event now and then, by which both ends see that the other is there."""
        while True:
            await asyncio.sleep(BEAT)
            self.send(event("beat", 1))
