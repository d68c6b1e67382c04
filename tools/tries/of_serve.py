"""`ads serve` at its usual port, for a counted number of events: a request that comes in two writes, a write and a read
of nearly a megabyte beside a second client, and a client in a process of its own; then the number of the end."""
import os
import shutil
import socket
import struct
import subprocess
import tempfile

from tries.running import ME, NET, PLANT, free_port, see

PORT = 48898  # AMS/TCP's own
SERVER, CLIENT = bytes((5, 1, 2, 3, 1, 1, 0x53, 3)), bytes((192, 168, 0, 9, 1, 1, 0x89, 0x80))
READ, WRITE, STATE, DATA = 2, 3, 4, 0x4040
BLOCK_AT = 128
BLOCK = bytes(k % 251 for k in range(999_872))
STATE_REPLY = bytes.fromhex("000028000000c0a80009010189800501020301015303"
                            "04000500080000000000000001000000" "0000000005000000")


def q(command, number, payload=b""):
    """A request of the client 192.168.0.9.1.1:32905 to port 851 of the server."""
    ams = SERVER + CLIENT + struct.pack("<HHIII", command, 4, len(payload), 0, number) + payload
    return struct.pack("<HI", 0, len(ams)) + ams


def asks(at, length):
    return struct.pack("<III", DATA, at, length)


class Serving:
    """The program, serving a description for so many events at the usual port; at a free one where that is taken."""

    def __init__(self, program, folder, description, events):
        self.program, self.folder, self.description, self.events = program, folder, description, events

    def __enter__(self):
        for self.port in (PORT, free_port()):
            words = [self.program, "serve", self.description, "--listen", f"127.0.0.1:{self.port}"]
            how = {"stdin": subprocess.DEVNULL, "stdout": subprocess.PIPE, "stderr": subprocess.DEVNULL}
            self.process = subprocess.Popen([*words, "--events", str(self.events)], cwd=self.folder, **how)
            said = self.process.stdout.readline()
            if said == b"listening\n":
                return self
            self.process.communicate()
        see(False, f"serve {self.description} says {said!r}")

    def __exit__(self, *_):
        self.process.kill()
        self.process.communicate()

    def stream(self):
        it = socket.create_connection(("127.0.0.1", self.port), 20)
        it.setsockopt(socket.IPPROTO_TCP, socket.TCP_NODELAY, 1)
        return it

    def ends(self, connections):
        """The events are used up: it ends with its counts, `ads: budget` and status 7."""
        text = self.process.communicate(timeout=60)[0].decode().splitlines()
        run = f"serve --events {self.events}"
        see(self.process.returncode == 7, f"{run}: status {self.process.returncode}")
        see(len(text) == 2 and text[0].startswith(f"connections {connections} requests "), f"{run}: {text}")
        see(text[1] == "ads: budget", f"{run}: {text}")


def took(stream, count):
    """So many bytes of a stream; fewer where it ends."""
    came = bytearray()
    while len(came) < count:
        part = stream.recv(min(count - len(came), 1 << 20))
        if not part:
            break
        came += part
    return bytes(came)


def use_up(stream):
    """Asks until the server ends, so that nobody waits for its ticks."""
    try:
        while True:
            stream.sendall(q(STATE, 1))
            if len(took(stream, len(STATE_REPLY))) < len(STATE_REPLY):
                return
    except OSError:
        return


def in_two_writes(program, folder):
    """A state request, 38 bytes in two writes, is answered with 46 bytes; 300 events."""
    with Serving(program, folder, "plant.toml", 300) as server, server.stream() as stream:
        asked = q(STATE, 1)
        stream.sendall(asked[:20])
        stream.sendall(asked[20:])
        see(took(stream, 46) == STATE_REPLY, "a request in two writes is not answered as it should be")
        use_up(stream)
        server.ends(1)


def beside_another(program, folder):
    """999,872 bytes are written and read again; a second client is answered before the first has read; 1,000 events."""
    with Serving(program, folder, "large.toml", 1000) as server, server.stream() as first, server.stream() as second:
        first.sendall(q(WRITE, 1, asks(BLOCK_AT, len(BLOCK)) + BLOCK))
        reply = took(first, 42)
        see(len(reply) == 42 and reply[38:] == bytes(4), f"a write of {len(BLOCK):,} bytes: {reply.hex()}")
        first.sendall(q(READ, 2, asks(BLOCK_AT, len(BLOCK))))
        second.sendall(q(STATE, 1))
        see(took(second, 46) == STATE_REPLY, "a second client is not answered while the first reads nothing")
        read = took(first, 999_918)
        came = f"{len(read):,} bytes, the first {read[:46].hex()}"
        see(len(read) == 999_918 and read.endswith(BLOCK), f"a read of {len(BLOCK):,} bytes gives {came}")
        use_up(second)
        server.ends(2)


def to_a_process(program, folder):
    """A client in a process of its own gets a value; 1,000 events."""
    with Serving(program, folder, "plant.toml", 1000) as server:
        words = [program, "get", "Main.count", "--to", f"127.0.0.1:{server.port}", "--netid", NET, "--me", ME]
        it = subprocess.run(words, stdin=subprocess.DEVNULL, capture_output=True, timeout=60)
        see(it.returncode == 0 and it.stdout == b"42\n", f"get Main.count: {it.stdout!r}, status {it.returncode}")
        with server.stream() as stream:
            use_up(stream)
        server.ends(2)


def tried(program, _size):
    with tempfile.TemporaryDirectory() as folder:
        shutil.copy(PLANT, folder)
        with open(PLANT, encoding="utf-8") as file:
            text = file.read()
        see("data = 128\n" in text, "plant.toml has another data area than this try knows")
        with open(os.path.join(folder, "large.toml"), "w", encoding="utf-8") as file:
            file.write(text.replace("data = 128\n", "data = 1000000\n"))
        for part in (in_two_writes, beside_another, to_a_process):
            part(program, folder)
    return "two writes, 999,872 bytes beside a second client, a process of its own; each server ends with status 7"
