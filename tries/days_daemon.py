"""adsd under tries/days.py: a process, its log as it comes, and what it answers."""
import ctypes
import os
import re
import select
import signal
import subprocess
import threading
import time

from days_plant import numbers_in
from lib.link import Refused
from lib.saved import Persistent
from lib.value_link import Values
from lib.words import Ended
from tries.running import ME, NET, free_port

BAD = re.compile(r"<3>.*(store held|store fault|not saved)")
GOOD = re.compile(r"saved \d+, |saves go on|the store takes saves")
OF_CLIENTS = re.compile("<6>(opened|closed|speaks) ")
PATIENCE = 30.0
LIBC, PR_SET_PDEATHSIG = ctypes.CDLL(None), 1


class Broken(Exception):
    """What ends a day."""


def ends_with_us():
    """A daemon is killed where this process is."""
    LIBC.prctl(PR_SET_PDEATHSIG, signal.SIGKILL)


class Daemon:
    """A run of adsd over a folder; `heard` is called for each line of its log."""

    def __init__(self, program, folder, words, heard):
        self.port, self.lines, self.values, self.out = free_port(), [], None, b""
        self.to, self.heard = f"127.0.0.1:{self.port}", heard
        words = [program, "plant.toml", "--listen", self.to, "--save-each", "1", "--log", "journal", *words]
        self.process = subprocess.Popen(
            ["env", "--block-signal=TERM,INT,HUP,XFSZ", *words],
            cwd=folder,
            stdin=subprocess.DEVNULL,
            stdout=subprocess.PIPE,
            stderr=subprocess.PIPE,
            preexec_fn=ends_with_us,
        )
        self.reader = threading.Thread(target=self.listen_to, daemon=True)
        self.reader.start()

    def listen_to(self):
        for line in self.process.stderr:
            text = line.decode("utf-8", "replace").rstrip("\n")
            self.lines.append(text)
            self.heard(text)

    def listens(self):
        """Whether it serves; it has ended where it does not."""
        until = time.monotonic() + PATIENCE
        while b"listening\n" not in self.out:
            if not select.select([self.process.stdout], [], [], max(0, until - time.monotonic()))[0]:
                raise Broken(f"in {PATIENCE:g} s it neither listens nor ends: {self.log()}")
            piece = os.read(self.process.stdout.fileno(), 65536)
            if not piece:
                self.ended()
                return False
            self.out += piece
        return True

    def log(self):
        """Its last lines, without those of connections."""
        return " | ".join([line for line in self.lines if not OF_CLIENTS.match(line)][-8:])

    def ended(self):
        """Its status, once it has ended."""
        if self.values:
            self.values.close()
            self.values = None
        try:
            self.process.wait(PATIENCE)
        except subprocess.TimeoutExpired:
            raise Broken(f"it does not end in {PATIENCE:g} s: {self.log()}") from None
        self.reader.join(PATIENCE)
        self.process.stdout.close()
        self.process.stderr.close()
        return self.process.returncode

    def kill(self):
        self.process.kill()
        return self.ended()

    def stop(self):
        self.process.send_signal(signal.SIGTERM)
        return self.ended()

    def is_held(self):
        """Whether the last that the log said of saves is that they can't be made."""
        for line in reversed(self.lines):
            if BAD.search(line):
                return True
            if GOOD.search(line):
                return False
        return False

    def link(self):
        self.values = self.values or self.connect()
        return self.values

    def connect(self):
        return Values((self.to, NET, ME, PATIENCE), 851)

    def symbols(self):
        """The persistent symbols as it describes them now."""
        return Persistent(self.link())

    def numbers(self):
        """The numbers that its values tell, by path."""
        return numbers_of(self.symbols())

    def said(self, path):
        """What it answers for a path, in words."""
        try:
            return str(self.link().values([path])[path])
        except (Ended, Refused, KeyError) as fault:
            return str(fault)


def numbers_of(symbols):
    found = {}
    for it in symbols.read():
        found.update(numbers_in(it.name, it.shape, it.data))
    return found
