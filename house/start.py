#!/usr/bin/env python3
"""Serves a plant and shows its values on a page, by programs that are built of the sources once: for a first look.

    ./start [FILE] [--port N] [--http N]

FILE is a description of a plant, or a source of one (docs/PLANT.md). Without it the filling line of examples/line.toml
is served, and moves. `--port` is the TCP port at which the server waits for clients (48898), `--http` that of the page
(8080), both on this machine alone.

The programs that .ci/run leaves are taken, if they are there. Otherwise `ads` and `adsd` are built by the Rattle kit
into out/unproved, without a proof, which takes minutes; later starts take them from there, until the sources change.
What is served stands in out/plant.toml, what the programs say in out/*.log.

It runs until Ctrl-C or SIGTERM, which ends all that it started. The status is then 0; or 1 for wrong words, 2 for a
file with faults, 4 if a file can't be read or written or the kit is not there, 6 if a port is taken or ./start runs
already, 7 if a program ended by itself, 14 if the programs can't be built.
"""
import contextlib
import ctypes
import fcntl
import os
import shlex
import shutil
import signal
import socket
import subprocess
import sys
import time
import urllib.error
import urllib.request

sys.dont_write_bytecode = True
TOP = os.path.dirname(os.path.dirname(os.path.abspath(__file__)))
sys.path.insert(0, os.path.join(TOP, "tools"))
import unproved  # noqa: E402
from lib.building import build  # noqa: E402
from lib.files import read_bytes, write_text  # noqa: E402
from lib.verdict import LONGEST  # noqa: E402
from lib.words import Ended, number, read_words, run  # noqa: E402
from plant import told as told_faults  # noqa: E402
from waiting import Waiting  # noqa: E402

LINE, LOGIC = os.path.join(TOP, "examples", "line.toml"), os.path.join(TOP, "examples", "filling_logic.py")
# What the page of the filling line has forms for.
FORMS = ("Line.run", "Line.speed", "Line.active")
OUT = os.path.join(TOP, "out")
HOST, ENDS, DEATH = "127.0.0.1", (signal.SIGTERM, signal.SIGINT, signal.SIGHUP), 1
PATIENCE = 30
# What the example sets a value to, by its type.
VALUES = {"REAL": "2.5", "LREAL": "2.5", "BOOL": "true", "TIME": "T#5s"}
LIBC = ctypes.CDLL(None)


class Stopped(Exception):
    """Ctrl-C, or a signal that asks for the end."""


def stop(*_):
    for it in ENDS:
        signal.signal(it, signal.SIG_IGN)
    raise Stopped


def shown(path):
    """A path as a command names it from the folder in which ./start was called."""
    near = os.path.relpath(path)
    return shlex.quote(near if not near.startswith("..") else path)


class Children:
    """Programs that run beside each other, and end with this one, the last first."""

    def __init__(self):
        self.all = []

    def start(self, name, *words):
        """Starts a program. What it says goes to a file of out/; it is ended, too, when this process is gone."""
        def prepare():
            LIBC.prctl(DEATH, signal.SIGTERM)
            signal.pthread_sigmask(signal.SIG_BLOCK if name == "adsd" else signal.SIG_UNBLOCK, ENDS)
        with open(os.path.join(OUT, f"{name}.log"), "wb") as log:
            it = subprocess.Popen(words, stdin=subprocess.DEVNULL, stdout=log, stderr=log, start_new_session=True,
                                  preexec_fn=prepare)
        self.all.append((name, it))

    def look(self):
        """Sees that all of them run."""
        for name, it in self.all:
            if it.poll() is not None:
                with open(os.path.join(OUT, f"{name}.log"), encoding="utf-8", errors="replace") as log:
                    said = [line.strip() for line in log if line.strip()][-1:] or ["nothing"]
                why = f"it said: {said[0][:300]} ({shown(log.name)})"
                raise Ended(f"{name} ended by itself, with status {it.returncode}; {why}", 7)

    def until(self, name, holds):
        """Waits until something holds of the program that was started last."""
        until = time.monotonic() + PATIENCE
        while not holds():
            self.look()
            if time.monotonic() > until:
                log = shown(os.path.join(OUT, f"{name}.log"))
                raise Ended(f"{name} did not begin in {PATIENCE} seconds; {log} has what it said", 7)
            time.sleep(0.05)

    def end(self):
        for _, it in reversed(self.all):
            it.terminate()
            try:
                it.wait(10)
            except subprocess.TimeoutExpired:
                it.kill()
                it.wait()


def taken(port, option):
    other = f"./start {option} {port + 1 if port < 65535 else 1024}"
    return Ended(f"{HOST}:{port} can't be had; end the program that has this port, or take another: {other}", 6)


def listens(port):
    """Whether somebody listens at a port of this machine."""
    with socket.socket() as it:
        return it.connect_ex((HOST, port)) == 0


def is_well(port):
    """Whether the page says that it has the values of the server."""
    try:
        opener = urllib.request.build_opener(urllib.request.ProxyHandler({}))
        with opener.open(f"http://{HOST}:{port}/healthz", timeout=2) as answer:
            return answer.status == 200
    except (OSError, ValueError, urllib.error.URLError):
        return False


def described(file):
    """Builds the description of a file; what it describes."""
    built = build(read_bytes(file, LONGEST + 1), os.path.basename(file))
    if built.faults:
        told_faults(file, built)
    if not built.verdict.document["route"]:
        raise Ended(f"{file} has no [[route]]: each client needs one, and so does the page", 2)
    write_text(os.path.join(OUT, "plant.toml"), built.text)
    return built.verdict


def examples_of(verdict):
    """The NetId of the examples, of the route that may most; and a value to read and, if it may, to set."""
    order = ("control", "write", "read")
    route = min(verdict.document["route"], key=lambda it: order.index(it["rights"]))
    found = {}
    for port in verdict.document["port"]:
        for symbol in port["symbol"]:
            kind, word = verdict.shapes[symbol].element
            if verdict.shapes[symbol].ends or kind != "plain":
                continue
            writers = symbol["writers"] or [route["net"]]
            may = route["rights"] != "read" and not symbol["read_only"] and route["net"] in writers
            value = VALUES.get(word, "1")
            rank = (may, value == "2.5")
            if not found or rank > found["rank"]:
                found = {"rank": rank, "name": symbol["name"], "value": value if may else None, "port": port["port"]}
    return route["net"], found


def forms_of(file, verdict, found):
    """The values that the page has forms for."""
    if file == LINE:
        names = [symbol["name"] for symbol in verdict.document["port"][0]["symbol"]]
        return [it for it in FORMS if it in names]
    return [f"{found['port']}:{found['name']}"] if found and found["value"] else []


def step_text(step):
    return f"{step} of {len(unproved.STEPS)}: {unproved.STEPS[step - 1]} .."


class Told:
    """Says a step of the building as it begins, and how long it took."""

    def __init__(self, page):
        self.page = page

    @contextlib.contextmanager
    def __call__(self, step):
        said, began = step_text(step), time.monotonic()
        self.page.said = f"The programs are being built, {said} It takes some minutes, once."
        print(said, end="", flush=True)
        try:
            yield
        except BaseException:
            print(flush=True)
            raise
        print(f" {time.monotonic() - began:.0f} s", flush=True)


BUILDING = "building ads and adsd of the sources, once and without a proof, in some three minutes"
UNPROVED = "{}: nothing in these programs is proved; they are for a look, and .ci/run makes proved ones"
PROVED = "the proved programs that .ci/run left: {} and {}"


def programs(page):
    """The folders of `ads` and `adsd`, which are built if they have to be."""
    proved = [os.path.join(TOP, "crates", name, "out", name) for name in ("ads", "adsd")]
    if all(os.path.isfile(it) and os.access(it, os.X_OK) for it in proved):
        print(PROVED.format(*map(shown, proved)), flush=True)
        return proved
    folder = os.path.join(OUT, "unproved")
    if not unproved.stand(TOP, folder):
        wrong = unproved.wrong_kit()
        if wrong:
            raise Ended(wrong, 4)
        os.makedirs(folder, exist_ok=True)
        if shutil.disk_usage(folder).free < unproved.ROOM:
            room = f"{unproved.ROOM // 1000000} MB"
            raise Ended(f"the disk of {folder} is full: building takes {room} for a while; make room there", 4)
        print(BUILDING, flush=True)
        try:
            unproved.build_both(TOP, folder, Told(page))
        except unproved.NotBuilt as fault:
            raise Ended(f"the programs can't be built: {fault}", 14) from None
    print(UNPROVED.format(shown(folder)), flush=True)
    return [os.path.join(folder, name) for name in ("ads", "adsd")]


def say_what_runs(verdict, to, http, me, found, is_moved):
    """What runs, and what to do with it."""
    count = sum(len(port["symbol"]) for port in verdict.document["port"])
    on = f"--to {to} --me {me} --plant {shown(os.path.join(OUT, 'plant.toml'))}"
    values = f"python3 {shown(os.path.join(TOP, 'tools', 'values.py'))}"
    moved = f", which {shown(LOGIC)} moves" if is_moved else ""
    print(f"serving {count} symbol{'s' * (count != 1)} at {to}{moved}")
    print(f"see them:   http://{HOST}:{http}/")
    if found:
        on += f" --port {found['port']}" if found["port"] != 851 else ""
        print(f"read one:   {values} get {found['name']} {on}")
        if found["value"]:
            print(f"set one:    {values} set {found['name']}={found['value']} {on}")
    print("stop:       Ctrl-C", flush=True)


def begin(children, file, port, http):
    """Starts all, in order."""
    try:
        page = Waiting(http)
    except OSError:
        raise taken(http, "--http") from None
    with contextlib.closing(page):
        if listens(port):
            raise taken(port, "--port")
        verdict = described(file)
        daemon = programs(page)[1]
        to, plant, python = f"{HOST}:{port}", os.path.join(OUT, "plant.toml"), sys.executable
        children.start("adsd", daemon, plant, "--listen", to)
        children.until("adsd", lambda: listens(port))
        me, found = examples_of(verdict)
    on = ("--to", to, "--me", me)
    forms = [word for name in forms_of(file, verdict, found) for word in ("--write", name)]
    page = os.path.join(TOP, "tools", "page.py")
    children.start("page", python, page, plant, *on, "--http", f"{HOST}:{http}", *forms)
    children.until("page", lambda: is_well(http))
    is_moved = file == LINE and os.path.exists(LOGIC)
    if is_moved:
        children.start("logic", python, os.path.join(TOP, "tools", "logic.py"), "run", LOGIC, *on, "--plant", plant)
        children.until("logic", lambda: b"running" in read_bytes(os.path.join(OUT, "logic.log")))
    say_what_runs(verdict, to, http, me, found, is_moved)


def main(words):
    (file,), options = read_words(words, __doc__, ["[FILE]"], {"port": "48898", "http": "8080"})
    port, http = number(options["port"], "--port", 1, 65535), number(options["http"], "--http", 1, 65535)
    if port == http:
        raise Ended(f"--port and --http are both {port}, and have to differ")
    children = Children()
    for it in ENDS:
        if it != signal.SIGHUP or signal.getsignal(it) != signal.SIG_IGN:
            signal.signal(it, stop)
    try:
        os.makedirs(OUT, exist_ok=True)
        with open(os.path.join(OUT, "start.lock"), "a", encoding="ascii") as lock:
            try:
                fcntl.flock(lock, fcntl.LOCK_EX | fcntl.LOCK_NB)
            except BlockingIOError:
                raise Ended(f"./start runs already in {TOP}: end it there by Ctrl-C first", 6) from None
            begin(children, file or LINE, port, http)
            while True:
                children.look()
                time.sleep(0.2)
    except Stopped:
        return 0
    except BrokenPipeError:
        raise
    except OSError as fault:
        raise Ended(f"{fault.filename or OUT}: {fault.strerror or fault}", 4) from None
    finally:
        children.end()


if __name__ == "__main__":
    run(main)
