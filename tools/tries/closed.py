"""Runs of the programs with some of the descriptors 0, 1 and 2 closed at the start, beside the same runs with all of
them open.

A file that a program opens then takes the number of one that is closed, so that what is meant for standard output
could be written into a store. Each run must end and print as it does with all of them open or, where standard output
is closed, as where nothing can be written to it; the files, and what a server is sent, must be what they are then.
"""
import contextlib
import itertools
import os
import pathlib
import re
import signal
import socket
import sqlite3
import struct
import subprocess
import tempfile
import threading
import time

from tries import running
from tries.of_program import HI, READ, write_of
from tries.running import FOREVER, ME, NET, Wrong, free_port, see

PLANT, EXAMPLES = os.path.abspath(running.PLANT), os.path.abspath(running.EXAMPLES)
# (a port that was free may be a client's by the time that a server asks for it)
PORTS = 5
SHUT = {0: "<&-", 1: ">&-", 2: "2>&-"}
CLOSED = [some for count in (1, 2, 3) for some in itertools.combinations((0, 1, 2), count)]
LOCAL = ["--local", PLANT, "--me", ME]
WATCH = ["--mode", "cycle", "--cycle", "200000", "--count", "2"]
SUMMARY = re.compile(rb"listening\nconnections \d+ requests \d+ replies \d+ samples \d+ reloads 0 0\nsaved (\d+)\n")


def script(name):
    return os.path.join(EXAMPLES, name)


# Commands over files alone, and those of a client behind its words for where it asks.
FILES = (["no command"], ["check", PLANT], ["check", "absent.toml"], ["migrate", PLANT],
         ["replay", PLANT, script("keep.script")], ["selftest", script("state.script")], ["load", "5"],
         ["relay", PLANT, script("keep.script")])
CLIENTS = (["info"], ["state"], ["list"], ["get", "Main.count"], ["show", "Main.axis"], ["set", "Main.limit", "7"],
           ["watch", "Main.count", *WATCH], ["control", "5", "0"], ["get", "Main.absent"])


def wanted(what, is_so, should_be):
    see(is_so == should_be, f"{what}: {short(is_so)}, wanted {short(should_be)}")


def short(value):
    text = repr(value)
    return text if len(text) < 200 else text[:200] + " .."


def with_closed(closed, words):
    """The words of a shell that closes these and becomes that program."""
    return ["/bin/sh", "-c", 'exec "$@" ' + " ".join(SHUT[it] for it in closed), "sh", *words] if closed else words


def run(program, words, closed=(), full=False, folder=None, **more):
    """The status of a run with these descriptors closed, and what it printed to the other two; `full`: standard output
    takes nothing."""
    with tempfile.TemporaryFile() as out, tempfile.TemporaryFile() as err, open("/dev/full", "wb") as nothing:
        it = subprocess.run(with_closed(closed, [program, *words]), cwd=folder, stdin=subprocess.DEVNULL,
                            stdout=nothing if full else out, stderr=err, timeout=60, **more)
        out.seek(0)
        err.seek(0)
        return it.returncode, out.read(), err.read()


class Runs:
    """A program, a folder for its files, and its runs with all descriptors open, each made once."""

    def __init__(self, program, folder):
        self.program, self.folder, self.kept, self.heard = program, pathlib.Path(folder), {}, None

    def of(self, name, call):
        """What `call` gives with all open, and where standard output takes nothing."""
        if name not in self.kept:
            self.kept[name] = call(), call(full=True)
        return self.kept[name]

    def run(self, words, *more, **so):
        return run(self.program, words, *more, folder=self.folder, **so)


class Heard:
    """A server of the example with a port before it, where all bytes of clients are kept."""

    def __init__(self, program, folder):
        for _ in range(PORTS):
            self.port = free_port()
            words = [program, "serve", PLANT, "--listen", f"127.0.0.1:{self.port}", "--events", FOREVER]
            self.server = subprocess.Popen(words, stdin=subprocess.DEVNULL, stdout=subprocess.PIPE,
                                           stderr=subprocess.DEVNULL, cwd=folder)
            said = self.server.stdout.readline()
            if said:
                break
            self.stop()
        see(said == b"listening\n", "the server does not listen")

    def ask(self, call):
        """What `call` gives, given the words that ask here, and the bytes that were sent meanwhile."""
        sent = bytearray()
        with socket.create_server(("127.0.0.1", 0)) as door:
            door.settimeout(10)
            passer = threading.Thread(target=self.pass_on, args=(door, sent), daemon=True)
            passer.start()
            given = call(["--to", f"127.0.0.1:{door.getsockname()[1]}", "--netid", NET, "--me", ME])
        passer.join(15)
        return given, bytes(sent)

    def pass_on(self, door, sent):
        try:
            client, _ = door.accept()
        except OSError:
            return
        with client, socket.create_connection(("127.0.0.1", self.port)) as server:
            back = threading.Thread(target=self.back, args=(server, client), daemon=True)
            back.start()
            try:
                while piece := client.recv(65536):
                    sent += piece
                    server.sendall(piece)
                server.shutdown(socket.SHUT_WR)
            except OSError:
                pass
            back.join(10)

    def back(self, server, client):
        try:
            while piece := server.recv(65536):
                client.sendall(piece)
        except OSError:
            pass

    def stop(self):
        self.server.kill()
        self.server.communicate()


def timeless(out):
    """What is printed, without the moments of a recording and what depends on when a server's ticks come."""
    return re.sub(rb"(?m)^(Main\.\w+ count )\d.*$", rb"\1..", out)


def as_open(what, closed, it, with_all, with_full):
    """A run with these descriptors closed ends and prints as it must."""
    status, out, err = it
    like, name = with_full if 1 in closed else with_all, f"{what} with {closed} closed"
    wanted(f"{name}: the status", status, like[0])
    wanted(f"{name}: standard output", timeless(out), b"" if 1 in closed else timeless(like[1]))
    wanted(f"{name}: standard error", err, b"" if 2 in closed else like[2])


def files_of(folder):
    return {name: pathlib.Path(folder, name).read_bytes() for name in sorted(os.listdir(folder))}


def over_files(runs, closed):
    for words in FILES + tuple([*words, *LOCAL] for words in CLIENTS):
        with_all, with_full = runs.of(("files", *words), lambda **so: runs.run(words, **so))
        wanted(f"{words[0]} with nothing to print to", with_full[0], 5)
        before = files_of(runs.folder)
        as_open(" ".join(words[:2]), closed, runs.run(words, closed), with_all, with_full)
        wanted(f"the files behind {words[0]}", files_of(runs.folder), before)


def over_a_store(runs, closed):
    """The last save stands in the store, whatever is closed, and a next run finds it."""
    def keep(name, play, *more, **so):
        return runs.run(["keep", PLANT, script(play), name], *more, **so)
    folder = runs.folder
    (folder / "it").unlink(missing_ok=True)
    with_all, with_full = runs.of("store", lambda full=False: keep("full" if full else "all", "keep.script", full=full))
    wanted("a save with nothing to print to", (with_all[0], with_full[0]), (0, 5))
    as_open("keep", closed, keep("it", "keep.script", closed), with_all, with_full)
    like = folder / ("full" if 1 in closed else "all")
    wanted(f"the store behind keep with {closed} closed", (folder / "it").read_bytes(), like.read_bytes())
    again = keep("it", "kept.script")
    wanted("the next run", (again[0], b"4869000000000000" in again[1]), (0, True))
    before = files_of(folder)
    keep("it", "kept.script", closed)
    wanted("the files behind a run that saves nothing", files_of(folder), before)


def rows_of(name):
    with contextlib.closing(sqlite3.connect(f"file:{name}?mode=ro", uri=True)) as base:
        return base.execute("SELECT number, name, bytes FROM sample ORDER BY number").fetchall()


def over_a_recording(runs, closed):
    def record(here, **so):
        for old in runs.folder.glob("it.db*"):
            old.unlink()
        words = ["record", "Main.count", "Main.wave", "--mode", "cycle", "--cycle", "200000", "--count", "4",
                 "--store", "it.db"]
        if here:
            return runs.run([*words, *LOCAL], **so), rows_of(runs.folder / "it.db"), b""
        done, sent = runs.heard.ask(lambda to: runs.run([*words, *to], **so))
        # The moments and the wave are the server's, and how many samples of each name come first.
        return done, [row[0] for row in rows_of(runs.folder / "it.db")], sent

    for here in (True, False):
        with_all, with_full = runs.of(("record", here), lambda **so: record(here, **so))
        it = record(here, closed=closed)
        as_open("record", closed, it[0], with_all[0], with_full[0])
        wanted(f"the rows behind record with {closed} closed", it[1], with_all[1])
        wanted(f"what record with {closed} closed sends", it[2], (with_full if 1 in closed else with_all)[2])


def over_a_link(runs, closed):
    for words in CLIENTS:
        def ask(words=words, **so):
            (status, out, err), sent = runs.heard.ask(lambda to: runs.run([*words, *to], **so))
            # The moments are the server's.
            return (status, out if words[0] != "watch" else re.sub(rb"(?m)^[0-9]+", b"", out), err), sent
        (with_all, sent_all), (with_full, sent_full) = runs.of(("link", *words), ask)
        it, sent = ask(closed=closed)
        wanted(f"{words[0]} with nothing to print to", with_full[0], 5)
        as_open(words[0], closed, it, with_all, with_full)
        wanted(f"what {words[0]} with {closed} closed sends", sent, sent_full if 1 in closed else sent_all)


def on_a_port(runs, command, **so):
    """A run of a server; with another port where somebody took that one."""
    for _ in range(PORTS):
        it = runs.run([command, PLANT, "--listen", f"127.0.0.1:{free_port()}", "--events", "3"], **so)
        if it[0] != 6:
            break
    return it


def over_a_port(runs, closed):
    for command in ("serve", "relay"):
        with_all, with_full = runs.of(command, lambda command=command, **so: on_a_port(runs, command, **so))
        wanted(f"{command} with nothing to print to", (with_all[0], with_full[0]), (7, 5))
        as_open(command, closed, on_a_port(runs, command, closed=closed), with_all, with_full)


SCENES = (over_files, over_a_store, over_a_recording, over_a_link, over_a_port)


# The daemon.

CONFIGURATION = """description = "plant.toml"
listen = ["127.0.0.1:{}"]
store = "kept"
status = "status.prom"
[[signal]]
values = [1]
[[signal]]
values = [1]
[[signal]]
recording = "wave.db"
name = "Main.wave"
"""
MAY_CHANGE = {"kept", "kept.lock", "status.prom"}


def daemon(program, runs, closed):
    """adsd over a description, a store and a recording that it plays: a client reads and writes where standard output is
    open, and a stop in order saves."""
    folder, port = runs.folder, free_port()
    (folder / "adsd.toml").write_text(CONFIGURATION.format(port))
    before = files_of(folder)
    words = with_closed(closed, ["env", "--block-signal=TERM,INT,HUP", program, "adsd.toml"])
    it = subprocess.Popen(words, cwd=folder, stdin=subprocess.DEVNULL, stdout=subprocess.PIPE, stderr=subprocess.PIPE)
    try:
        if 1 not in closed:
            ask_daemon(port, it)
            it.send_signal(signal.SIGTERM)
        out, err = it.communicate(timeout=30)
    finally:
        it.kill()
        it.communicate()
    name = f"adsd with {closed} closed"
    after = files_of(folder)
    wanted(f"{name}: the status", it.returncode, 5 if 1 in closed else 0)
    see(b"Traceback" not in err and (not err) == (2 in closed), f"{name}: standard error {short(err)}")
    see(1 in closed and out == b"" or SUMMARY.fullmatch(out), f"{name}: standard output {short(out)}")
    see(set(after) - set(before) <= MAY_CHANGE, f"{name}: it left {sorted(set(after) - set(before))}")
    kept, stood = ({k: v for k, v in it.items() if k not in MAY_CHANGE} for it in (after, before))
    wanted(f"{name}: the files", kept, stood)
    if 1 not in closed:
        store = after["kept"]
        see(bytes.fromhex(HI) in store and b"listening" not in store, f"{name}: the store is {short(store)}")
    else:
        see(after.get("kept", b"") == before.get("kept", b""), f"{name}: the store became {short(after.get('kept'))}")


def ask_daemon(port, process):
    """Writes Main.title and reads it back, as soon as the port is there."""
    until = time.monotonic() + 20
    while True:
        try:
            link = socket.create_connection(("127.0.0.1", port), 10)
            break
        except OSError:
            status = process.poll()
            see(time.monotonic() < until and status is None, f"adsd does not listen: status {status}")
            time.sleep(0.01)
    with link:
        for frame in (write_of(HI), READ):
            link.sendall(bytes.fromhex(frame))
            head = link.recv(6, socket.MSG_WAITALL)
            given = link.recv(struct.unpack("<I", head[2:])[0], socket.MSG_WAITALL)
        see(given.endswith(bytes.fromhex(HI)), f"what was written is read as {given.hex()}")


def over_the_daemon(program, runs):
    (runs.folder / "plant.toml").write_bytes(pathlib.Path(PLANT).read_bytes())
    words = ["record", "Main.wave", "--mode", "change", "--cycle", "0", "--count", "3", "--store", "wave.db", *LOCAL]
    see(runs.run(words)[0] == 0, "no recording was made")
    for closed in ((), *CLOSED):
        for turn in range(PORTS):
            (runs.folder / "kept").unlink(missing_ok=True)
            try:
                daemon(program, runs, closed)
                break
            except Wrong as wrong:
                if turn == PORTS - 1 or not re.search(r"status:? 6\b", str(wrong)):
                    raise
