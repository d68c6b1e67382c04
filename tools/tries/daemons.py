"""`adsd` as a process: stops within a save, standard error that nobody takes, stores of `keep`, a store that is taken
away, many peers that are refused."""
import contextlib
import os
import pathlib
import pty
import re
import shutil
import signal
import socket
import struct
import subprocess
import tempfile
import termios
import time

from tries.of_program import HI, READ, put, ran, write_of
from tries.running import PLANT, free_port, see
from tries.slow import slow_disk

YO, NEW = "596f000000000000", "4e65770000000000"
SUMMARY = re.compile(rb"connections (\d+) requests \d+ replies \d+ samples \d+ reloads 0 0\n(?:saved (\d+)\n)?")


class Daemon:
    """A run of adsd over the example, in a folder; it is ended with the folder's scene."""

    def __init__(self, program, folder, *words, stderr=subprocess.PIPE, env=None, closed=False):
        if not os.path.exists(os.path.join(folder, "plant.toml")):
            shutil.copy(PLANT, os.path.join(folder, "plant.toml"))
        for _ in range(5):  # (a port that was free may be a client's by the time that a server asks for it)
            said = self.start(program, folder, words, stderr, env, closed)
            if said:
                break
            self.__exit__()
        see(said == b"listening\n", f"adsd {' '.join(words)} says {said!r}")

    def start(self, program, folder, words, stderr, env, closed):
        self.port = free_port()
        door = f"127.0.0.1:{self.port}"
        given = ["env", "--block-signal=TERM,INT,HUP", program, "plant.toml", "--listen", door, *words]
        given = ["/bin/sh", "-c", 'exec "$@" 2>&-', "sh", *given] if closed else given
        self.process = subprocess.Popen(given, cwd=folder, env=env, stdin=subprocess.DEVNULL, stdout=subprocess.PIPE,
                                        stderr=stderr)
        return self.process.stdout.readline()

    def __enter__(self):
        return self

    def __exit__(self, *_):
        self.process.kill()
        self.process.communicate()

    def link(self, source="127.0.0.1"):
        return socket.create_connection(("127.0.0.1", self.port), 20, source_address=(source, 0))

    def title(self, link=None):
        """Main.title, in hexadecimal digits."""
        with link or self.link() as own:
            return ask(own, READ)[-16:]

    def write(self, data):
        with self.link() as link:
            see(ask(link, write_of(data)).endswith("00000000"), "a write was refused")

    def stop(self):
        """What it printed and logged behind SIGTERM, the number of saves, and how long it took; it must end in order."""
        began = time.monotonic()
        self.process.send_signal(signal.SIGTERM)
        out, err = self.process.communicate(timeout=60)
        told = SUMMARY.fullmatch(out)
        status = self.process.returncode
        see(status == 0 and told, f"behind SIGTERM adsd ends with {status} and prints {out!r}")
        return told, (err or b"").decode(), time.monotonic() - began


def ask(link, frame):
    """The answer to a frame, in hexadecimal digits."""
    link.sendall(bytes.fromhex(frame))
    head = link.recv(6, socket.MSG_WAITALL)
    see(len(head) == 6, "the daemon closed a connection")
    return link.recv(struct.unpack("<I", head[2:])[0], socket.MSG_WAITALL).hex()


def until(holds, what, seconds=30):
    end = time.monotonic() + seconds
    while not holds():
        see(time.monotonic() < end, f"{what}: not within {seconds} s")
        time.sleep(0.02)


def held(path):
    """The bytes of a file; none where it is not there at the moment."""
    try:
        return path.read_bytes()
    except FileNotFoundError:
        return b""


def stop_within_a_save(program, ads, folder):
    """SIGTERM while a save is written to a slow disk: it ends in order, and the last value that was answered is in the
    store."""
    env = slow_disk(folder, 500)
    if env is None:
        return "no compiler"
    os.unlink(env["SLOW_WHILE"])
    kept, words = pathlib.Path(folder, "kept"), ("--store", "kept", "--save-each", "1")
    with Daemon(program, folder, *words, env=env) as it:
        it.write(HI)
        until(lambda: bytes.fromhex(HI) in held(kept), "the first save")
        pathlib.Path(env["SLOW_WHILE"]).touch()
        it.write(YO)
        before = kept.stat().st_mtime_ns
        until(lambda: kept.stat().st_mtime_ns != before, "the second save")
        it.process.send_signal(signal.SIGTERM)
        _, err, took = it.stop()
        see("stopping: SIGTERM" in err and took < 15, f"a stop within a save took {took:.1f} s: {err[-300:]}")
    os.unlink(env["SLOW_WHILE"])
    with Daemon(program, folder, *words) as it:
        see(it.title() == YO, f"behind a stop within a save Main.title is {it.title()}")
    return f"a stop within a save took {took:.1f} s"


def full(end):
    """Fills what is written into, so that nothing more is taken."""
    os.set_blocking(end, False)
    with contextlib.suppress(BlockingIOError):
        while True:
            os.write(end, bytes(512))
    os.set_blocking(end, True)


@contextlib.contextmanager
def outlet(kind):
    """A standard error that takes nothing."""
    reader = None
    if kind == "a stopped terminal":
        ours, theirs = pty.openpty()
        termios.tcflow(theirs, termios.TCOOFF)
    else:
        ours, theirs = os.pipe()
        reader = subprocess.Popen(["cat"], stdin=ours, stdout=subprocess.DEVNULL)
        reader.send_signal(signal.SIGSTOP)
        full(theirs)
    try:
        yield theirs
    finally:
        os.close(theirs)
        os.close(ours)
        if reader:
            reader.kill()
            reader.wait()


def nobody_takes_the_log(program, ads, folder):
    """Standard error closed, a terminal that is stopped, a full pipe whose reader is: clients are served, and it stops.

    (A terminal whose buffers are full, since nobody reads it, may hold the daemon up: docs/DAEMON.md says so.)
    """
    for kind in ("closed", "a stopped terminal", "a stopped reader"):
        with contextlib.ExitStack() as stack:
            given = {"closed": True} if kind == "closed" else {"stderr": stack.enter_context(outlet(kind))}
            it = stack.enter_context(Daemon(program, folder, **given))
            began = time.monotonic()
            for _ in range(100):
                it.title()
            _, _, took = it.stop()
            whole = time.monotonic() - began
            see(whole < 20 and took < 10, f"standard error {kind}: 100 clients and a stop took {whole:.1f} s")
    return "a log that nobody takes"


def stores_of_both(program, ads, folder):
    """What `ads keep` saved is what adsd begins with, and the other way."""
    shutil.copy(PLANT, folder)
    put(folder, "write.script", f"open 1\nbytes 1 {write_of(HI)}\ntick 1\n")
    put(folder, "read.script", f"open 1\nbytes 1 {READ}\n")
    see(ran(ads, folder, "keep", "plant.toml", "write.script", "kept")[1] == 0, "keep ends otherwise")
    with Daemon(program, folder, "--store", "kept") as it:
        see(it.title() == HI, f"what keep saved is {it.title()} to adsd")
        it.write(YO)
        see(it.stop()[0][2] == b"1", "adsd saved nothing at its end")
    out, status = ran(ads, folder, "keep", "plant.toml", "read.script", "kept")
    lines = out.splitlines() or [""]
    see(status == 0 and lines[0].endswith(YO) and lines[-1] == "saved 0", f"what adsd saved is to keep: {lines}, {status}")
    return "stores of keep and of adsd"


def store_taken_away(program, ads, folder):
    """A store that is removed or moved: it is written anew under its name, and the log says so."""
    kept, words = pathlib.Path(folder, "kept"), ("--store", "kept", "--save-each", "1")
    with Daemon(program, folder, *words) as it:
        if os.path.exists(os.path.join(folder, "kept.lock")):
            # (a daemon of before locks a file beside the store, and saves into the one that has no name any more)
            return "a store taken away: not tried, since this adsd is one of before"
        for turn, data in enumerate((HI, YO, NEW)):
            if turn == 1:
                kept.unlink()
            if turn == 2:
                kept.rename(pathlib.Path(folder, "aside"))
            it.write(data)
            until(lambda: bytes.fromhex(data) in held(kept), "the store under its name")
        _, err, _ = it.stop()
    told = err.count("was moved, replaced or removed; written anew at")
    see(told == 2, f"the log says of a store that is taken away: {err}")
    see(bytes.fromhex(YO) in held(pathlib.Path(folder, "aside")), "a store that was moved has not what was saved")
    with Daemon(program, folder, *words) as it:
        see(it.title() == NEW, f"behind a store that was taken away Main.title is {it.title()}")
    return "a store taken away"


def refused_beside_served(program, ads, folder, count=1000):
    """Peers that are not allowed, one after another, beside 64 clients that are, which are answered as before."""
    words = ("--allow", "127.0.0.2", "--status", "status.prom")
    with Daemon(program, folder, *words, stderr=subprocess.DEVNULL) as it, contextlib.ExitStack() as stack:
        served, longest = [stack.enter_context(it.link("127.0.0.2")) for _ in range(64)], 0.0
        for number in range(count):
            with it.link() as link, contextlib.suppress(ConnectionError):
                see(link.recv(1) == b"", "a peer that is not allowed is sent something")
            began = time.monotonic()
            see(ask(served[number % 64], READ), "no answer")
            longest = max(longest, time.monotonic() - began)
        time.sleep(2)  # (they are counted each second)
        told, _, _ = it.stop()
        status = pathlib.Path(folder, "status.prom").read_text()
        see(f"adsd_refused_peers_total {count}\n" in status, f"of {count} refused peers the status file says {status}")
        see(told[1] == b"64", f"it counts {told[1]!r} connections")
        see(longest < 2, f"beside peers that are refused an answer took {longest:.2f} s")
    return f"{count} refused beside 64 that are served"


SCENES = (stop_within_a_save, nobody_takes_the_log, stores_of_both, store_taken_away, refused_beside_served)


def scene(program, ads, which):
    with tempfile.TemporaryDirectory() as folder:
        return which(program, ads, folder)
