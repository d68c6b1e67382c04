"""page.py as a process, and what is asked of it."""
import contextlib
import http.client
import json
import os
import queue
import socket
import struct
import subprocess
import sys
import threading
import time

from lib import groups
from lib.frames import READ_WRITE, WRITE
from lib.link import Link
from lib.payloads import Request
from tries.running import ME, NET, TOOLS, free_port, see

PLANT = os.path.join(os.path.dirname(os.path.abspath(__file__)), "page_plant.toml")
READER = "192.168.0.10.1.1"


class Page:
    """page.py over a server, at a free port; it may write nothing to standard error. A busy machine has half a minute for an answer."""

    def __init__(self, plant, to, *words, me=ME, port=None):
        self.port = port or free_port()
        words = words if "--seconds" in words else (*words, "--seconds", "30")
        words = [sys.executable, os.path.join(TOOLS, "page.py"), plant, "--to", to, "--me", me, "--http", f"127.0.0.1:{self.port}", *words]
        self.process = subprocess.Popen(words, stdin=subprocess.DEVNULL, stdout=subprocess.PIPE, stderr=subprocess.PIPE, text=True)

    def __enter__(self):
        first = self.process.stdout.readline()
        see(first == f"http://127.0.0.1:{self.port}/\n", f"page.py begins with {first!r}: {'' if first else self.process.stderr.read()[-300:]}")
        return self

    def __exit__(self, kind, *_):
        err = self.end()
        if kind is None:
            see(err == "", f"page.py wrote to standard error: {err[-600:]}")

    def end(self):
        """Ends it, if it runs; what it wrote to standard error."""
        if self.process.returncode is not None:
            return ""
        self.process.terminate()
        return self.process.communicate()[1]

    def ask(self, path, method="GET", body=None, **headers):
        """The status, the headers and the body of an answer."""
        it = http.client.HTTPConnection("127.0.0.1", self.port, timeout=60)
        try:
            it.request(method, path, body=body, headers={name.replace("_", "-"): value for name, value in headers.items()})
            answer = it.getresponse()
            return answer.status, dict(answer.getheaders()), answer.read()
        finally:
            it.close()

    def json(self, path):
        status, _, body = self.ask(path)
        see(status == 200, f"{path}: status {status}: {body[:200]!r}")
        return json.loads(body)

    def values(self):
        return {(it["port"], it["name"]): it for it in self.json("/values.json")["values"]}

    def is_well(self):
        return self.ask("/healthz")[0] == 200

    def until(self, holds, what, seconds=60):
        """Waits until something holds."""
        until = time.monotonic() + seconds
        while not holds():
            see(time.monotonic() < until, f"{what} did not come in {seconds} s: {self.ask('/healthz')}")
            time.sleep(0.05)

    def token(self):
        return self.ask("/")[2].decode().split('name="token" content="')[1].split('"')[0]

    def stream(self, cookie):
        """The stream of a browser that has a session."""
        return Stream(self, f"Cookie: {cookie}\r\n")

    def write(self, name, value, token, **headers):
        """The status of a write and its sentence."""
        given = {"Content_Type": "application/json", "X_Token": token, "Origin": f"http://127.0.0.1:{self.port}", **headers}
        status, _, body = self.ask("/write", "POST", json.dumps({"name": name, "value": value}), **{key: it for key, it in given.items() if it is not None})
        return status, json.loads(body)["why"] if body.startswith(b"{") else body.decode().strip()


class Stream:
    """A browser's stream of changes."""

    def __init__(self, page, head=""):
        self.socket = socket.create_connection(("127.0.0.1", page.port), timeout=20)
        self.socket.sendall(f"GET /events HTTP/1.1\r\nHost: 127.0.0.1:{page.port}\r\n{head}\r\n".encode())
        self.events = queue.Queue()
        threading.Thread(target=self.read, daemon=True).start()

    def __enter__(self):
        return self

    def __exit__(self, *_):
        # (what reads it keeps it open)
        with contextlib.suppress(OSError):
            self.socket.shutdown(socket.SHUT_RDWR)
        self.socket.close()

    def read(self):
        try:
            with self.socket.makefile("rb") as file:
                kind = None
                for line in file:
                    if line.startswith(b"event: "):
                        kind = line[7:].strip().decode()
                    elif line.startswith(b"data: "):
                        self.events.put((kind, json.loads(line[6:])))
        except (OSError, ValueError):
            pass
        self.events.put((None, None))

    def next(self, kind, holds=lambda said: True, seconds=60):
        """The next event of a kind for which something holds."""
        until = time.monotonic() + seconds
        while True:
            try:
                came, said = self.events.get(timeout=max(0.01, until - time.monotonic()))
            except queue.Empty:
                came = None
            see(came is not None and time.monotonic() < until, f"no event {kind} came in {seconds} s")
            if came == kind and holds(said):
                return said


def leaves_of(table):
    """The paths of a table's leaves, by their numbers."""
    found = {}

    def walk(node, path):
        if "l" in node:
            found[path] = node["l"]
        for part in node.get("p", []):
            walk(part, path + part["n"])

    for symbol in table["symbols"]:
        walk(symbol, symbol["n"])
    return found


class Rig:
    """A client beside the page, over a link of its own."""

    def __init__(self, server):
        self.link = Link(server.to, NET, ME, 30.0)

    def __enter__(self):
        return self

    def __exit__(self, *_):
        self.link.close()

    def bytes_of(self, name):
        return self.link.ask(851, Request(READ_WRITE, groups.VALUE, 0, self.place(name)[2], name.encode()))

    def place(self, name):
        return struct.unpack("<III", self.link.ask(851, Request(READ_WRITE, groups.PLACE, 0, 65536, name.encode()))[:12])

    def put(self, name, given):
        group, offset, _ = self.place(name)
        self.link.ask(851, Request(WRITE, group, offset, 0, given))


def put(place, text):
    with open(place + ".new", "w", encoding="utf-8") as file:
        file.write(text)
    os.replace(place + ".new", place)
