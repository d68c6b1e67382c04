"""A run of `adsd` as a plant has it, for the tries of it: in a folder of its own, with a log, signals and a disk that
are as a try wants them. The table of tries stands here too."""
import dataclasses
import pathlib
import re
import resource
import signal
import subprocess
import tempfile
import time
import typing

from ams import ME, area, request
from under_test import PLANT, connected, expect, free_port, next_frame

BLOCKED = {signal.SIGTERM, signal.SIGINT, signal.SIGHUP}
SUMMARY = re.compile(r"connections \d+ requests (\d+) replies (\d+) samples \d+ reloads \d+ \d+\n")
TRIES = {}
COUNTS = {"kills": 12}


def tried(function):
    TRIES[function.__name__] = function
    return function


def reading(number, me=ME):
    """A read of Main.count, which is 42."""
    return request(2, number, area(0x4040, 0, 4), me)


def reply(stream):
    """The invoke id and the payload of the next frame; None where the peer closed."""
    frame = next_frame(stream)
    return (int.from_bytes(frame[34:38], "little"), frame[38:]) if len(frame) >= 38 else None


@dataclasses.dataclass
class How:
    """How a daemon is run."""
    blocked: bool = True                    # whether the signals of a stop are, as systemd's unit has it
    listens: bool = True                    # whether it is to say so, before anything else is done
    bare: bool = False                      # whether the words are all that it gets, without description and address
    listen: typing.Optional[list] = None    # addresses in place of one at this machine
    plant: typing.Any = True                # the description: that of examples/, another text, or none
    change: typing.Optional[tuple] = None   # what stands otherwise in that of examples/
    full: bool = False                      # whether no file may have a byte: an error tells it, and no signal
    before: typing.Any = None               # what is called before the program begins
    popen: dict = dataclasses.field(default_factory=dict)

    def prepare(self):
        signal.pthread_sigmask(signal.SIG_SETMASK, BLOCKED if self.blocked else set())
        if self.full:
            signal.signal(signal.SIGXFSZ, signal.SIG_IGN)
            resource.setrlimit(resource.RLIMIT_FSIZE, (0, resource.RLIM_INFINITY))
        if self.before:
            self.before()

    def describe(self, at):
        """Puts the description there."""
        if self.plant is True:
            text = pathlib.Path(PLANT).read_text()
            at.write_text(text.replace(*self.change) if self.change else text)
        elif self.plant is None:
            at.unlink(missing_ok=True)
        else:
            at.write_text(self.plant)


class Daemon:
    """A run of the program in a folder of its own; the words beside `How` are those of Popen."""

    def __init__(self, stack, program, words=(), folder=None, port=None, **how):
        fields = {it.name for it in dataclasses.fields(How)}
        self.how = How(**{name: it for name, it in how.items() if name in fields},
                       popen={"stderr": subprocess.PIPE, **{name: it for name,
                                                            it in how.items() if name not in fields}})
        self.folder, self.port = folder or stack.enter_context(tempfile.TemporaryDirectory()), port or free_port()
        self.how.describe(pathlib.Path(self.folder, "plant.toml"))
        listen = [word for it in (self.how.listen or [f"127.0.0.1:{self.port}"]) for word in ("--listen", it)]
        words = [program, *words] if self.how.bare else [program, "plant.toml", *listen, *words]
        self.process = subprocess.Popen(words, cwd=self.folder, stdout=subprocess.PIPE, preexec_fn=self.how.prepare,
                                        **self.how.popen)
        stack.callback(self.end)
        if self.how.listens:
            said = self.process.stdout.readline()
            expect(said == b"listening\n", f"it said {said!r}")

    def end(self):
        if self.process.poll() is None:
            self.process.kill()
        self.process.wait()
        for pipe in (self.process.stdout, self.process.stderr):
            if pipe:
                pipe.close()

    def link(self):
        return connected(self.port)

    def asks(self, number=1):
        """One round trip; its seconds."""
        with self.link() as it:
            began = time.monotonic()
            it.sendall(reading(number))
            got = reply(it)
            expect(got is not None and got[0] == number and got[1][8:] == bytes([42, 0, 0, 0]),
                   f"a read was answered by {got!r}")
            return time.monotonic() - began

    def stopped(self, *signals, seconds=20):
        """Sends the signals; what it printed, its status, and how long it took."""
        began = time.monotonic()
        for it in signals:
            self.process.send_signal(it)
        out, err = self.process.communicate(timeout=seconds)
        return out.decode(), (err or b"").decode(), self.process.returncode, time.monotonic() - began


def in_order(out, status):
    expect(status == 0, f"it ended with {status}")
    expect(SUMMARY.fullmatch(out) is not None, f"behind listening it printed {out!r}")
    return out.strip()


def until(holds, what, does=lambda: None, seconds=20):
    """Waits until it holds, and does something again and again meanwhile."""
    end = time.monotonic() + seconds
    while not holds():
        expect(time.monotonic() < end, what)
        does()
        time.sleep(0.3)


def waits_for(log, line, count):
    """Waits until this line stands so many times in the log."""
    until(lambda: log.read_text().count(line) >= count, f"{line!r} is not told {count} times")
