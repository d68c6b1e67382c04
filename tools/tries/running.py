"""Runs of tools and of servers, and what is wrong with them."""
import os
import socket
import subprocess
import sys

TOOLS = os.path.join(os.path.dirname(os.path.abspath(__file__)), "..")
EXAMPLES = os.path.join(TOOLS, "..", "examples")
PLANT = os.path.join(EXAMPLES, "plant.toml")
NET, ME = "5.1.2.3.1.1", "192.168.0.9.1.1"
FOREVER = "18446744073709551615"


class Wrong(Exception):
    """What differs from what must come."""


class Size:
    """How much of random inputs is tried, and from which seed."""

    def __init__(self, quick, seed=1):
        self.quick, self.seed = quick, seed

    def of(self, whole, quick):
        return quick if self.quick else whole


LOOKS = [0]


def looks():
    """How often this process has looked at what a tool does."""
    return LOOKS[0]


def see(holds, what):
    LOOKS[0] += 1
    if not holds:
        raise Wrong(what)


def tool(name, *words, seconds=60, lines=1):
    """What a tool prints, what it says on standard error, and its status. No tool may end by a traceback, nor say more than one sentence, or so many lines."""
    it = subprocess.run([sys.executable, os.path.join(TOOLS, name), *words], stdin=subprocess.DEVNULL, capture_output=True, timeout=seconds)
    out, err = it.stdout.decode(), it.stderr.decode()
    called = f"{name} {' '.join(words)}"
    see("Traceback" not in err, f"{called}: {err[-300:]}")
    see(len(err.splitlines()) <= lines, f"{called}: more than {lines} lines on standard error: {err[:300]}")
    return out, err, it.returncode


def refused(status, part, name, *words, seconds=60, lines=1):
    """Sees that a tool ends with this status, and that its sentence has this part."""
    out, err, came = tool(name, *words, seconds=seconds, lines=lines)
    see(came == status and part in out + err, f"{name} {' '.join(words)}: status {came}, {(out + err)[-300:]!r} in place of status {status}, {part!r}")


def free_port():
    with socket.socket() as it:
        it.bind(("127.0.0.1", 0))
        return it.getsockname()[1]


class Served:
    """The program, serving a description at a free port of this machine."""

    def __init__(self, program, description):
        self.program, self.description = program, description

    def __enter__(self):
        self.to = f"127.0.0.1:{free_port()}"
        self.process = subprocess.Popen([self.program, "serve", os.path.abspath(self.description), "--listen", self.to, "--events", FOREVER],
                                        stdin=subprocess.DEVNULL, stdout=subprocess.PIPE)
        said = self.process.stdout.readline()
        see(said == b"listening\n", f"serve {self.description} says {said!r}")
        return self

    def __exit__(self, *_):
        self.process.kill()
        self.process.communicate()

    def words(self, net=NET, me=ME):
        return "--to", self.to, "--netid", net, "--me", me
