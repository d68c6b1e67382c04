"""dial.py: a server behind a relay, which goes and comes again, as does the relay; askers that the server turns away; a NetId that the relay does not take."""
import os
import signal
import subprocess
import sys
import tempfile
import time

from lib.program import run as run_program
from tries.of_deploy import changed
from tries.running import FOREVER, ME, NET, PLANT, TOOLS, Served, free_port, refused, see

PANEL = "192.168.0.10.1.1"


class Relayed:
    """`ads relay` at an address, over a description that has the server's NetId as a route, too."""

    def __init__(self, program, description, to):
        self.process = subprocess.Popen([program, "relay", description, "--listen", to, "--events", FOREVER], stdin=subprocess.DEVNULL, stdout=subprocess.PIPE)
        see(self.process.stdout.readline() == b"listening\n", "the relay does not listen")

    def stop(self):
        self.process.kill()
        self.process.communicate()


class Dialing:
    """dial.py as a process; `said` is what it has said on standard error so far."""

    def __init__(self, folder, *words):
        self.name = os.path.join(folder, "said")
        with open(self.name, "wb") as said:
            self.process = subprocess.Popen([sys.executable, os.path.join(TOOLS, "dial.py"), *words], stdin=subprocess.DEVNULL, stderr=said)

    def said(self):
        with open(self.name, encoding="utf-8") as file:
            return file.read()

    def wait(self, part, count=1, seconds=20):
        until = time.monotonic() + seconds
        while self.said().count(part) < count:
            see(time.monotonic() < until and self.process.poll() is None, f"dial.py does not say {part!r}: {self.said()!r}")
            time.sleep(0.05)


def asked(program, to, *words, me=ME):
    out, status = run_program(program, *words, "--to", to, "--netid", NET, "--me", me)
    return out.strip(), status


def until_answered(program, to, wanted, *words):
    """Asks until the answer comes, since who was gone comes again within a second or two."""
    until = time.monotonic() + 20
    while True:
        got = asked(program, to, *words)
        if got == wanted:
            return
        see(time.monotonic() < until, f"{words} through the relay: {got} in place of {wanted}")
        time.sleep(0.2)


def passes(program, to):
    """A client reaches the server through the relay, with long answers and refusals."""
    see(asked(program, to, "get", "Main.count") == ("42", 0), "get through the relay")
    see(asked(program, to, "set", "Main.count", "7") == ("ok", 0) and asked(program, to, "get", "Main.count") == ("7", 0), "set through the relay")
    see(asked(program, to, "set", "Main.count", "8", me=PANEL)[1] == 8, "a read-only route writes through the relay")
    see("Main.axis" in asked(program, to, "list")[0], "list through the relay")
    watched = run_program(program, "watch", "Main.wave", "--mode", "cycle", "--cycle", "100000", "--count", "3", "--to", to, "--netid", NET, "--me", PANEL)
    see(watched[1] == 0 and len(watched[0].splitlines()) == 3, f"watch through the relay: {watched}")


class At(Served):
    """A server at an address that is known."""

    def __init__(self, program, to):
        super().__init__(program, PLANT)
        self.known = to

    def __enter__(self):
        self.to = self.known
        self.process = subprocess.Popen([self.program, "serve", self.description, "--listen", self.to, "--events", FOREVER], stdin=subprocess.DEVNULL, stdout=subprocess.PIPE)
        see(self.process.stdout.readline() == b"listening\n", "the server does not listen")
        return self


def tried(program, _size):
    refused(1, "RELAY and SERVER and NETID", "dial.py")
    refused(1, "is a NetId", "dial.py", "127.0.0.1", "127.0.0.1", "x")
    to, server_to = f"127.0.0.1:{free_port()}", f"127.0.0.1:{free_port()}"
    with tempfile.TemporaryDirectory() as folder:
        described = changed(folder, "relay.toml", ('[[route]]\nnet = "192.168.0.9.1.1"', f'[[route]]\nnet = "{NET}"\nrights = "read"\n[[route]]\nnet = "192.168.0.9.1.1"'),
                            ('[[route]]\nnet = "192.168.0.10.1.1"', '[[route]]\nnet = "10.0.0.7.1.1"\nrights = "read"\n[[route]]\nnet = "192.168.0.10.1.1"'))
        relay = Relayed(program, described, to)
        dialing = Dialing(folder, to, server_to, NET)
        try:
            dialing.wait("is at")
            with At(program, server_to):
                passes(program, to)
                turned = asked(program, to, "get", "Main.count", me="10.0.0.7.1.1")
                see(turned == ("ads: refused 0x7 target machine not found", 8), f"an asker that the server turns away: {turned}")
                dialing.wait("closed the connection of 10.0.0.7.1.1")
            gone = asked(program, to, "get", "Main.count")
            see(gone == ("ads: refused 0x7 target machine not found", 8), f"a server that is gone: {gone}")
            with At(program, server_to):
                until_answered(program, to, ("42", 0), "get", "Main.count")
                relay.stop()
                dialing.wait("is gone")
                relay = Relayed(program, described, to)
                dialing.wait("is at", 2)
                until_answered(program, to, ("42", 0), "get", "Main.count")
            refused(9, "turns 1.1.1.1.1.1 away", "dial.py", to, server_to, "1.1.1.1.1.1")
            refused(9, f"turns {NET} away", "dial.py", to, server_to, NET)
            dialing.process.send_signal(signal.SIGINT)
            see(dialing.process.wait(10) == 130 and "Traceback" not in dialing.said(), f"dial.py does not end at Ctrl-C: {dialing.said()!r}")
        finally:
            dialing.process.kill()
            relay.stop()
    return "a server behind a relay is read, written and watched; server and relay gone and back; three askers and NetIds turned away"
