"""Programs under test: where they are, how they are started and ended, and the connections to them."""
import contextlib
import os
import pathlib
import socket
import struct
import subprocess

import held

ROOT = pathlib.Path(__file__).resolve().parent.parent
PLANT = str(ROOT / "examples/plant.toml")
ADS, ADSD = str(ROOT / "crates/ads/out/ads"), str(ROOT / "crates/adsd/out/adsd")
FOREVER = str(2 ** 64 - 1)


class Differs(Exception):
    """Something is otherwise than it is to be."""


def expect(holds, what):
    if not holds:
        raise Differs(what)


def wanted(what, came, should):
    expect(came == should, f"{what}: {came!r}, wanted {should!r}")


def free_port():
    with socket.socket() as it:
        it.bind(("127.0.0.1", 0))
        return it.getsockname()[1]


def serve_words(description, command="serve"):
    """How `ads` serves or relays without end."""
    return [command, description, "--events", FOREVER]


def daemon_words(description, profile=None, others=None):
    """How `adsd` serves without a log, in a profile, with a right for machines without a route."""
    given = {"--profile": profile, "--other-routes": others}
    return [description, "--log", "none", *(word for name, it in given.items() if it for word in (name, it))]


class Program:
    """A server that has said that it listens: `words` are those of the command but for --listen, `how` is for Popen."""

    def __init__(self, program, words, port=None, **how):
        self.port = port or free_port()
        words = [program, *words, "--listen", f"127.0.0.1:{self.port}"]
        self.process = subprocess.Popen(words, stdout=subprocess.PIPE, **how)
        said = self.process.stdout.readline()
        if said != b"listening\n":
            self.stop()
            raise OSError(f"{words[0]} said {said!r} in place of listening")

    def open(self, seconds=10.0):
        return connected(self.port, seconds)

    def stop(self):
        """Kills it; what was not read of it is lost."""
        self.process.kill()
        self.process.wait()
        for pipe in (self.process.stdout, self.process.stderr):
            if pipe:
                pipe.close()

    def __enter__(self):
        return self

    def __exit__(self, *_):
        self.stop()


def connected(port, seconds=10.0):
    """A connection to a port of this machine, which sends what it is given at once."""
    it = socket.create_connection(("127.0.0.1", port), timeout=seconds)
    it.setsockopt(socket.IPPROTO_TCP, socket.TCP_NODELAY, 1)
    return it


def taken(stream, count):
    """So many bytes of a stream; fewer where it ends."""
    got = b""
    while len(got) < count:
        piece = stream.recv(min(count - len(got), 1 << 20))
        if not piece:
            break
        got += piece
    return got


def next_frame(stream):
    """The next frame; none where the stream ends."""
    head = taken(stream, 6)
    return head + taken(stream, struct.unpack("<I", head[2:])[0]) if len(head) == 6 else b""


def until_end(stream):
    """The bytes until the peer ends the stream."""
    got = b""
    with contextlib.suppress(ConnectionResetError):
        while piece := stream.recv(65536):
            got += piece
    return got


def told_in(stream, seconds):
    """What a stream is told in so many seconds; none where it ends, too."""
    stream.settimeout(seconds)
    with contextlib.suppress(TimeoutError, socket.timeout, ConnectionResetError):
        return stream.recv(65536)
    return b""


def is_closed(stream, seconds=5.0):
    """Whether the peer ends a stream in so many seconds, and tells it nothing."""
    stream.settimeout(seconds)
    try:
        return stream.recv(65536) == b""
    except ConnectionResetError:
        return True
    except (TimeoutError, socket.timeout):
        return False


def reset(stream):
    """Ends a connection by a reset."""
    stream.setsockopt(socket.SOL_SOCKET, socket.SO_LINGER, struct.pack("ii", 1, 0))
    stream.close()


def preload(folder, source):
    """A library of a C source, compiled into a folder, for LD_PRELOAD."""
    made = os.path.join(folder, f"{pathlib.Path(source).stem}.so")
    subprocess.run(["cc", "-O2", "-shared", "-fPIC", "-o", made, os.path.join(ROOT, source), "-ldl"], check=True)
    return made


class Clocks:
    """The clocks of programs that get `env`: they can be set, by so many seconds."""

    def __init__(self, folder):
        self.file = os.path.join(folder, "clocks")
        self.env = {**os.environ, "LD_PRELOAD": preload(folder, "tries/set_clocks.c"), "SET_CLOCKS": self.file}
        self.wall = self.steady = 0
        self.set()

    def set(self, wall=0, steady=0):
        self.wall, self.steady = wall, steady
        with open(self.file, "r+b" if os.path.exists(self.file) else "wb") as it:
            it.write(struct.pack("<qq", wall, steady))


def play(scenes, says, process, more=""):
    """Plays scenes over a program, a line each: `ok`, or what `says(scene)` says. Behind them the program runs, and
    holds what it held before. How many were otherwise."""
    before, wrong = held.counts(process.pid), 0
    for scene in scenes:
        try:
            said = says(scene)
        except OSError as fault:
            said = f"{type(fault).__name__}: {fault}"
        print(f"{scene.__name__.replace('_', ' ') + more:36}", said or "ok", flush=True)
        wrong += said is not None
    if process.poll() is not None:
        print(f"the program ended with {process.returncode}")
        return wrong + 1
    left = held.left_over(process.pid, before)
    print(f"{'behind them':36}", held.told(left), flush=True)
    return wrong + (left[:2] != (0, 0))
